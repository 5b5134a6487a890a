/*
 * Heartbeats, elapsed milliseconds and entries of 1016: the calls that refusals.c tries against document 02, Item 5.
 * "The machines hear an expiry as a raise": a copy of the device is left to that call, and every byte of both is
 * compared, the watches as the header says that they stand in the device's arrays.
 */
#ifndef WATCH_H
#define WATCH_H

#include "trial.h"

static unsigned long losses_raised = 0, losses_found = 0; /* by elapsed calls, with and without the loss before */

/* What the paper says of the entries, in a device that is otherwise as another call has left it. */
static void put_watches(io401_device *device, const watch *watches)
{
    for (size_t n = 0; n < WATCHES; n++) {
        device->deltas[WATCHES_AT + n] = watches[n].value;
        device->deltas[WATCHES_AT + WATCHES + n] = watches[n].is_started ? (uint32_t)watches[n].sum + 1 : 0;
    }
}

/* Commands but the resets, and causes, leave values, watches and sums; "either reset empties all four". */
static void check_watches_kept(const situation *from, const io401_device *device, bool is_reset)
{
    io401_device wanted;
    watch watches[WATCHES];
    memcpy(&wanted, device, sizeof wanted);
    memcpy(watches, from->watches, sizeof watches);
    if (is_reset)
        empty_watches(watches);
    put_watches(&wanted, watches);
    expect(is_same(device, &wanted), "a command or a cause leaves other watches than the paper says");
}

static void check_watched(const io401_device *device, const io401_device *wanted, const char *call, unsigned long with)
{
    if (!is_same(device, wanted))
        fail("%s %lu leaves another device than the paper says", call, with);
}

static void check_watch_write(const situation *from, uint8_t sub, uint32_t value)
{
    const uint32_t number = from->stopped ? NODE_STOPPED : refusal_of_watch(from->watches, sub, value);
    io401_device device, wanted;
    watch watches[WATCHES];
    memcpy(&device, &from->device, sizeof device);
    memcpy(&wanted, &from->device, sizeof wanted);
    memcpy(watches, from->watches, sizeof watches);
    if (number == 0)
        write_watch(watches, sub, value);
    put_watches(&wanted, watches);
    check_number(io401_write_value(&device, 0x1016, sub, value, WATCH_BYTES), number, "write_value 1016:%02X = %08lX",
                 sub, (unsigned long)value);
    check_watched(&device, &wanted, "a write of 1016 with", value);
}

static void check_heartbeat(const situation *from, uint8_t node)
{
    io401_device device, wanted;
    watch watches[WATCHES];
    memcpy(&device, &from->device, sizeof device);
    memcpy(&wanted, &from->device, sizeof wanted);
    memcpy(watches, from->watches, sizeof watches);
    hear_node(watches, node);
    put_watches(&wanted, watches);
    check_number(io401_heartbeat(&device, node), 0, "heartbeat %u", node);
    check_watched(&device, &wanted, "heartbeat", node);
}

static void check_elapsed(const situation *from, uint32_t milliseconds)
{
    io401_device device, wanted;
    watch watches[WATCHES];
    memcpy(&device, &from->device, sizeof device);
    memcpy(&wanted, &from->device, sizeof wanted);
    memcpy(watches, from->watches, sizeof watches);
    if (elapse_watches(watches, milliseconds)) {
        expect(io401_raise(&wanted, IO401_COMMUNICATION_LOSS) == 0, "a raise is refused");
        losses_found += is_same(&wanted, &from->device);
        losses_raised += !is_same(&wanted, &from->device);
    }
    put_watches(&wanted, watches);
    check_number(io401_elapsed(&device, milliseconds), 0, "elapsed %lu", (unsigned long)milliseconds);
    check_watched(&device, &wanted, "elapsed", milliseconds);
}

/* Every node with times at their ends, every bit above it, and what any other entry takes. */
static void try_watch_writes(const situation *from)
{
    static const uint32_t TIMES[] = {0, 1, 0xFF, 0x100, 0x7FFF, 0x8000, 0xFFFF};
    for (uint8_t sub = 1; sub <= WATCHES; sub++) {
        for (unsigned node = 0; node <= UINT8_MAX; node++) {
            for (size_t t = 0; t < sizeof TIMES / sizeof TIMES[0]; t++)
                check_watch_write(from, sub, WATCHED(node, TIMES[t]));
            for (unsigned bit = 24; bit < 32; bit++)
                check_watch_write(from, sub, WATCHED(node, node) | UINT32_C(1) << bit);
        }
        for (size_t n = 0; n < WATCHES; n++)
            check_watch_write(from, sub, from->watches[n].value);
    }
}

/* On both sides of each sum's end, and of the ends of 16 and 32 bits. */
static void try_elapsed_times(const situation *from)
{
    static const uint32_t ELAPSED[] = {0,          1,          2,          99,         0x7FFF,     0x8000,
                                       0xFFFE,     0xFFFF,     0x10000,    0x7FFFFFFF, 0x80000000, 0xFFFF0000,
                                       0xFFFF0001, 0xFFFF0002, 0xFFFFFFFE, 0xFFFFFFFF};
    for (size_t n = 0; n < sizeof ELAPSED / sizeof ELAPSED[0]; n++)
        check_elapsed(from, ELAPSED[n]);
    for (size_t n = 0; n < WATCHES; n++) {
        const uint32_t left = time_of(from->watches[n].value) - (uint32_t)from->watches[n].sum;
        check_elapsed(from, left - 1);
        check_elapsed(from, left);
        check_elapsed(from, left + 1);
        check_elapsed(from, 0u - (uint32_t)from->watches[n].sum);
    }
}

static void try_watch_calls(const situation *from)
{
    for (unsigned node = 0; node <= UINT8_MAX; node++)
        check_heartbeat(from, (uint8_t)node);
    try_elapsed_times(from);
}

/* The four entries as `values`, 1029:1 as `reaction`; a stopped node is let go for that and stopped again. */
static void set_watches(situation *to, const uint32_t *values, uint8_t reaction)
{
    if (to->stopped)
        io401_command(&to->device, IO401_PRE_OPERATIONAL, NODE);
    expect(io401_write_value(&to->device, 0x1029, 1, reaction, 1) == 0, "a write of 1029:1 is refused");
    for (uint8_t sub = 1; sub <= WATCHES; sub++)
        expect(io401_write_value(&to->device, 0x1016, sub, 0, WATCH_BYTES) == 0, "an entry of 0 is refused");
    for (uint8_t sub = 1; sub <= WATCHES; sub++) {
        expect(io401_write_value(&to->device, 0x1016, sub, values[sub - 1], WATCH_BYTES) == 0, "a watch is refused");
        write_watch(to->watches, sub, values[sub - 1]);
    }
    if (to->stopped)
        io401_command(&to->device, IO401_STOP, NODE);
}

/* Each set of the four, started one after the other so that their sums differ, under each 1029:1. */
static void try_started(const situation *from, const uint32_t *values, uint32_t between)
{
    for (uint8_t reaction = 0; reaction <= 2; reaction++) {
        for (unsigned set = 0; set < 1u << WATCHES; set++) {
            situation started = *from;
            set_watches(&started, values, reaction);
            for (size_t n = 0; n < WATCHES; n++) {
                if ((set >> n & 1) == 0)
                    continue;
                io401_elapsed(&started.device, between);
                elapse_watches(started.watches, between);
                io401_heartbeat(&started.device, (uint8_t)node_of(values[n]));
                hear_node(started.watches, (uint8_t)node_of(values[n]));
            }
            try_watch_calls(&started);
        }
    }
}

/* Times that are reached in turn and together, the longest ones, the shortest, and unused entries among them. */
static void try_watches(const situation *from)
{
    static const uint32_t SETS[][WATCHES] = {
        {WATCHED(7u, 100), WATCHED(8u, 90), WATCHED(9u, 80), WATCHED(10u, 70)},
        {WATCHED(7u, 100), WATCHED(8u, 200), WATCHED(9u, 300), WATCHED(127u, 400)},
        {WATCHED(1u, 65535), WATCHED(2u, 65534), WATCHED(NODE, 32768), WATCHED(4u, 32767)},
        {WATCHED(7u, 31), WATCHED(7u, 0), WATCHED(0x87u, 50), WATCHED(0u, 50)},
    };
    try_watch_writes(from);
    try_watch_calls(from);
    for (size_t n = 0; n < sizeof SETS / sizeof SETS[0]; n++)
        try_started(from, SETS[n], 10);
    try_started(from, SETS[2], 9000);
}

#endif
