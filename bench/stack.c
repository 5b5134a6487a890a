/*
 * The stack of each call, from C through the header: each call runs on a painted stack of its own, and
 * what it painted over is counted, less what an empty call takes. The worst over many arguments and
 * five states of the device is printed.
 */
#define _XOPEN_SOURCE 700
#include "stack_calls.h"
#include "stack_painted.h"
#include <stdio.h>

#define STATES 5
#define FILTER_LENGTH 5 /* where it does not matter */

/* Both runs start from the same device. */
static size_t touched(void (*call)(void))
{
    const io401_device before = device;
    const size_t first = touched_over(call, 0xA5);
    device = before;
    const size_t second = touched_over(call, 0x5A);
    device = before;
    return first > second ? first : second;
}

static void grow(size_t *worst, void (*call)(void))
{
    lay_out_request();
    const size_t used = touched(call);
    if (used > *worst)
        *worst = used;
}

/*
 * By message: the first of the eight entries that is not 0, which object it and the later ones have, and of how many
 * bits; eight bytes each. The stack grows with each entry, so all eight are in force and what moves most comes last.
 */
static const struct layout {
    uint8_t first;
    uint16_t receive, transmit;
    uint8_t bits;
} LAYOUTS[MESSAGES] = {
    {1, 0x6200, 0x6000, 8}, {7, 0x6320, 0x6120, 32}, {5, 0x6300, 0x6100, 16}, {5, 0x6411, 0x6401, 16}};

static void map(uint16_t index, uint16_t mapped, const struct layout *layout)
{
    for (uint8_t sub = layout->first; sub <= 8; sub++)
        io401_write_value(&device, index, sub, IO401_MAPPING_ENTRY(mapped, sub - layout->first + 1, layout->bits), 4);
    io401_write_value(&device, index, 0, 8, 1);
}

/*
 * Pre-operational, operational, in fault by either cause, stopped; with settings that make every input
 * report, a filter of this length on lines 1 to 32, and every mapping full.
 */
static void enter_state(int state, uint8_t length)
{
    io401_create(&device, NODE);
    io401_write_value(&device, 0x6423, 0, 1, 1);
    io401_write_value(&device, 0x6200, 1, 0xFF, 1);
    io401_write_value(&device, 0x6123, 1, 0xFFFFFFFF, 4);
    io401_write_value(&device, 0x2003, 0, length, 1);
    for (uint16_t message = 0; message < MESSAGES; message++) {
        map(0x1600 + message, LAYOUTS[message].receive, &LAYOUTS[message]);
        map(0x1A00 + message, LAYOUTS[message].transmit, &LAYOUTS[message]);
    }
    if (state > 0)
        io401_command(&device, IO401_START, NODE);
    if (state == 2 || state == 3)
        io401_raise(&device, state == 3);
    if (state == 4)
        io401_command(&device, IO401_STOP, NODE);
}

static void take_value(uint32_t value)
{
    value_now = value;
    for (size_t n = 0; n < sizeof bytes_now; n++)
        bytes_now[n] = (uint8_t)(value >> (8 * n));
}

/* Every listed index, and all between: the entry count, two entries, and each size that an entry has. */
static void over_indices(size_t *worst, void (*call)(void), unsigned first, unsigned last)
{
    for (unsigned index = first; index <= last; index++) {
        for (unsigned sub = 0; sub < 3; sub++) {
            index_now = (uint16_t)index;
            sub_now = (uint8_t)sub;
            for (size_now = 1; size_now <= sizeof bytes_now; size_now *= 2)
                grow(worst, call);
        }
    }
}

static void over_entries(size_t *worst, void (*call)(void))
{
    take_value(1);
    over_indices(worst, call, 0x1000, 0x102F);
    over_indices(worst, call, 0x1600, 0x1604);
    over_indices(worst, call, 0x1A00, 0x1A04);
    over_indices(worst, call, 0x2000, 0x2004);
    over_indices(worst, call, 0x6000, 0x644F);
}

/* Every filter length, and 0. */
static void over_lengths(size_t *worst, void (*call)(void))
{
    index_now = 0x2003;
    for (sub_now = 0, size_now = 1, take_value(0); value_now < 256; take_value(value_now + 1))
        grow(worst, call);
}

/* Counts, and entries that are mappable, of another length, and 0. */
static void over_values(size_t *worst, void (*call)(void), uint16_t mapped, const struct layout *layout)
{
    const uint32_t entry = IO401_MAPPING_ENTRY(mapped, 1, layout->bits);
    const uint32_t entries[] = {entry, entry + 1, 0};
    for (sub_now = 1, size_now = 4; sub_now <= 8; sub_now++) {
        for (size_t n = 0; n < sizeof entries / sizeof entries[0]; n++) {
            take_value(entries[n]);
            grow(worst, call);
        }
    }
    for (sub_now = 0, size_now = 1, take_value(0); value_now < 10; take_value(value_now + 1))
        grow(worst, call);
}

/* Each mapping as it is, and then with the count 0, when entries are taken. */
static void over_mappings(size_t *worst, void (*call)(void))
{
    const io401_device before = device;
    for (uint16_t message = 0; message < MESSAGES; message++) {
        const struct layout *const layout = &LAYOUTS[message];
        for (int transmit = 0; transmit < 2; transmit++) {
            const uint16_t mapped = transmit ? layout->transmit : layout->receive;
            index_now = (transmit ? 0x1A00 : 0x1600) + message;
            over_values(worst, call, mapped, layout);
            io401_write_value(&device, index_now, 0, 0, 1);
            over_values(worst, call, mapped, layout);
        }
    }
    device = before;
}

/* Frames and buffers of every length up to one above a frame's. */
static void over_frames(size_t *worst, void (*const calls[MESSAGES])(void))
{
    for (length_now = 0; length_now <= sizeof frame; length_now++) {
        for (int message = 0; message < MESSAGES; message++) {
            memset(frame, 0xA7 + message, sizeof frame);
            grow(worst, calls[message]);
        }
    }
}

/* An upload and both downloads wherever a read or a write is measured; every first byte; lengths up to one above. */
static void over_requests(size_t *worst)
{
    static const uint8_t FIRSTS[] = {0x40, 0x22, DOWNLOAD_TOLD};
    request_length = IO401_REQUEST_BYTES;
    reply_length = IO401_REPLY_BYTES;
    for (size_t n = 0; n < sizeof FIRSTS; n++) {
        first_now = FIRSTS[n];
        over_entries(worst, call_request);
        over_lengths(worst, call_request);
        over_mappings(worst, call_request);
    }
    index_now = 0x6320;
    sub_now = 1;
    size_now = 4;
    for (unsigned first = 0; first < 256; first++) {
        first_now = (uint8_t)first;
        grow(worst, call_request);
    }
    for (request_length = 0; request_length <= sizeof request; request_length++) {
        for (reply_length = 0; reply_length <= sizeof reply; reply_length++)
            grow(worst, call_request);
    }
}

/* So many samples in which every line shows the same bit, and every channel changes with each. */
static void take_samples(size_t *worst, bool shown, unsigned times)
{
    memset(digital, shown ? 0xFF : 0, sizeof digital);
    for (unsigned turn = 0; turn < times; turn++) {
        for (size_t n = 0; n < IO401_ANALOGUE_INPUTS; n++)
            analogue[n] = analogue[n] > 0 ? -32768 : 32767;
        grow(worst, call_sample);
        call_sample();
    }
}

/*
 * Every input at rest, then every input changed: all events. Lines under their filter count, go back to 0, count
 * again and settle at the last sample, up and down. At the end a shorter length is written over their counts, which a
 * stopped node refuses.
 */
static void over_samples(size_t *worst, int state)
{
    static const uint8_t LENGTHS[] = {1, 2, 3, 255};
    for (size_t n = 0; n < sizeof LENGTHS; n++) {
        enter_state(state, LENGTHS[n]);
        for (int turn = 0; turn < 4; turn++) {
            take_samples(worst, turn % 2 == 0, LENGTHS[n] - 1u);
            take_samples(worst, turn % 2 == 1, 1);
            take_samples(worst, turn % 2 == 0, LENGTHS[n]);
        }
        take_samples(worst, true, LENGTHS[n] - 1u);
        io401_write_value(&device, 0x2003, 0, 1, 1);
        take_samples(worst, true, 1);
    }
}

static void over_commands(size_t *worst)
{
    for (unsigned code = 0; code < 256; code++) {
        code_now = (uint8_t)code;
        grow(worst, call_command);
    }
}

static void over_causes(size_t *raises, size_t *clears)
{
    for (int loss = 0; loss < 2; loss++) {
        loss_now = loss != 0;
        grow(raises, call_raise);
        grow(clears, call_clear);
        call_raise();
        grow(raises, call_raise);
        grow(clears, call_clear);
        call_clear();
    }
}

/* A lost bus also stops an operational node, or leaves it, as 1029:1 says. */
static void over_behaviours(size_t *raises, size_t *clears, int state)
{
    for (uint32_t behaviour = 0; behaviour < 3; behaviour++) {
        enter_state(state, FILTER_LENGTH);
        io401_write_value(&device, 0x1029, 1, behaviour, 1);
        over_causes(raises, clears);
    }
}

/* Each entry of 1016, to read and to write: unused, used, for the node of another entry, with bits 24 to 31. */
static void over_watches(size_t *worst, void (*call)(void))
{
    static const uint32_t VALUES[] = {0, IO401_WATCH_ENTRY(9, 100), IO401_WATCH_ENTRY(1, 100), 0x01000000};
    index_now = 0x1016;
    for (sub_now = 1, size_now = 4; sub_now <= IO401_WATCH_ENTRIES; sub_now++) {
        for (size_t n = 0; n < sizeof VALUES / sizeof VALUES[0]; n++) {
            take_value(VALUES[n]);
            grow(worst, call);
        }
    }
}

/* The four entries watch nodes 1 to 4, with times of 1 to 4 s: a heartbeat of each node and of one that none watches. */
static void watch_nodes(size_t *worst)
{
    for (uint8_t sub = 1; sub <= IO401_WATCH_ENTRIES; sub++)
        io401_write_value(&device, 0x1016, sub, IO401_WATCH_ENTRY(sub, 1000u * sub), 4);
    for (node_now = 0; node_now <= IO401_WATCH_ENTRIES + 1; node_now++) {
        grow(worst, call_heartbeat);
        call_heartbeat();
    }
}

/* Time by which none, one, and more of them expire, by what 1029:1 says. */
static void over_times(size_t *heartbeats, size_t *times, int state)
{
    static const uint32_t TIMES[] = {0, 999, 1000, 2000, 4000, UINT32_MAX};
    for (uint32_t behaviour = 0; behaviour < 3; behaviour++) {
        enter_state(state, FILTER_LENGTH);
        io401_write_value(&device, 0x1029, 1, behaviour, 1);
        watch_nodes(heartbeats);
        for (size_t n = 0; n < sizeof TIMES / sizeof TIMES[0]; n++) {
            milliseconds_now = TIMES[n];
            grow(times, call_elapsed);
        }
    }
}

enum { CREATE, READ, WRITE, WRITE_VALUE, SAMPLE, COMMAND, RAISE, CLEAR, DRIVE, RECEIVE, TRANSMIT, REQUEST, HEARTBEAT, ELAPSED, CALLS };

static const char *const NAMES[CALLS] = {"create", "read",  "write", "write_value", "sample", "command",
                                         "raise",  "clear", "drive", "receive",     "transmit", "request",
                                         "heartbeat", "elapsed"};

static void measure(size_t worst[CALLS])
{
    for (int state = 0; state < STATES; state++) {
        enter_state(state, FILTER_LENGTH);
        grow(&worst[CREATE], call_create);
        over_entries(&worst[READ], call_read);
        over_entries(&worst[WRITE], call_write);
        over_entries(&worst[WRITE_VALUE], call_write_value);
        over_lengths(&worst[WRITE], call_write);
        over_lengths(&worst[WRITE_VALUE], call_write_value);
        over_mappings(&worst[READ], call_read);
        over_mappings(&worst[WRITE], call_write);
        over_mappings(&worst[WRITE_VALUE], call_write_value);
        over_frames(&worst[RECEIVE], RECEIVES);
        over_frames(&worst[TRANSMIT], TRANSMITS);
        over_requests(&worst[REQUEST]);
        over_commands(&worst[COMMAND]);
        grow(&worst[DRIVE], call_drive);
        over_samples(&worst[SAMPLE], state);
        over_behaviours(&worst[RAISE], &worst[CLEAR], state);
        over_times(&worst[HEARTBEAT], &worst[ELAPSED], state);
        over_watches(&worst[READ], call_read);
        over_watches(&worst[WRITE], call_write);
        over_watches(&worst[WRITE_VALUE], call_write_value);
    }
}

int main(void)
{
    size_t worst[CALLS] = {0};
    const size_t empty = touched(call_nothing);
    measure(worst);
    printf("Stack of a call in bytes, from C through the header, and the device's %zu bytes lent.\n", sizeof device);
    for (int call = 0; call < CALLS; call++)
        printf("%-12s %5zu\n", NAMES[call], worst[call] - empty);
    return 0;
}
