/* The states of the device that refusals.c tries calls from, and how it tells a difference. */
#ifndef TRIAL_H
#define TRIAL_H

#include "paper.h"
#include <io401.h>
#include <stdarg.h>
#include <stdio.h>
#include <stdlib.h>
#include <string.h>

#define NODE 5
#define FRESH_LENGTH 3u   /* 2003:0 of a fresh device .. */
#define UNUSUAL_LENGTH 5u /* .. and where all is written */
#define PATTERN 0xA5      /* in every byte of a lent buffer before the call */
#define WATCHES_AT (IO401_DELTAS - 2 * WATCHES) /* in `deltas`: entries of 1016, then watches, as the header says */

/* The values on both sides of each bound of a rule, and the ends of each size. */
static const uint32_t VALUES[] = {0,          1,          2,          3,          0x1E,       0x1F,
                                  0x20,       0x40,       0x80,       0xFF,       0x100,      0x7FFF,
                                  0x8000,     0xFFFF,     0x10000,    0xFFFFFF,   0x1000000,  0x7FFFFFFF,
                                  0x80000000, 0xFFFF7FFF, 0xFFFF8000, 0xFFFFFFFF};
#define VALUE_COUNT (sizeof VALUES / sizeof VALUES[0])

/* What it is to be is known here and not asked of the device. */
typedef struct situation {
    const char *name;
    bool operational;
    bool stopped;
    bool in_fault;
    uint8_t filter_length;
    mapping mappings[MAPPINGS];
    watch watches[WATCHES];
    io401_device device;
} situation;

static const char *situation_name = "no device";
static unsigned long calls_tried = 0;

static void fail(const char *format, ...)
{
    va_list more;
    va_start(more, format);
    printf("refusals: %s: ", situation_name);
    vprintf(format, more);
    printf("\n");
    va_end(more);
    exit(1);
}

static void expect(bool holds, const char *what)
{
    if (!holds)
        fail("%s", what);
}

/* By every byte, those between two arrays included: calls work on copies made by memcpy. */
static bool is_same(const io401_device *a, const io401_device *b)
{
    return memcmp(a, b, sizeof *a) == 0;
}

static void check_number(uint32_t got, uint32_t wanted, const char *format, ...)
{
    va_list more;
    calls_tried++;
    if (got == wanted)
        return;
    va_start(more, format);
    printf("refusals: %s: ", situation_name);
    vprintf(format, more);
    printf(" answers %08lX, the papers say %08lX\n", (unsigned long)got, (unsigned long)wanted);
    va_end(more);
    exit(1);
}

static void check_unchanged(const char *call, unsigned index, unsigned sub, const io401_device *after,
                            const io401_device *before)
{
    if (!is_same(after, before))
        fail("%s %04X:%02X changes the device", call, index, sub);
}

/* A value that the entry takes and that is not its default. */
static uint32_t unusual_value(const object *at, unsigned sub)
{
    const uint32_t mixed = (0x5A3C96E1u + sub * 0x01020408u) & (0xFFFFFFFFu >> (8 * (4 - at->size)));
    switch (at->takes) {
    case ZERO_OR_ONE:
        return 1 - at->fresh;
    case UP_TO_TWO:
        return 1;
    case NOT_ZERO:
        return UNUSUAL_LENGTH;
    case LOW_FIVE_BITS:
        return 0x1F - sub % 8;
    case SIXTEEN_BITS_SIGNED:
        return 0u - 1000 * sub;
    default:
        return mixed == at->fresh ? mixed ^ 1 : mixed;
    }
}

static void write_everything(io401_device *device)
{
    for (size_t n = 0; n < OBJECT_COUNT; n++) {
        const object *at = &OBJECTS[n];
        const bool is_plain = at->written && at->takes != AS_MAPPED && at->takes != AS_WATCHED;
        for (unsigned sub = at->last > 0; is_plain && sub <= at->last; sub++)
            if (io401_write_value(device, at->index, (uint8_t)sub, unusual_value(at, sub), at->size) != 0)
                fail("the set-up of %04X:%02X is refused", at->index, sub);
    }
}

/*
 * By message: eight bytes in force; eight bytes in force and entries beyond; nothing in force, and entries that
 * make 64 bits with the fifth and more with the sixth; five bytes in force, the last two over the first.
 */
static const mapping LAYOUTS[MAPPINGS] = {
    {8, {ENTRY(0x6200, 1, 8), ENTRY(0x6200, 16, 8), ENTRY(0x6200, 3, 8), ENTRY(0x6200, 14, 8), ENTRY(0x6200, 5, 8),
         ENTRY(0x6200, 6, 8), ENTRY(0x6200, 7, 8), ENTRY(0x6200, 8, 8)}},
    {2, {ENTRY(0x6320, 4, 32), ENTRY(0x6320, 1, 32), ENTRY(0x6320, 2, 32), ENTRY(0x6320, 3, 32), ENTRY(0x6320, 1, 32),
         ENTRY(0x6320, 2, 32), ENTRY(0x6320, 3, 32), ENTRY(0x6320, 4, 32)}},
    {0, {ENTRY(0x6411, 8, 16), 0, ENTRY(0x6300, 8, 16), 0, ENTRY(0x6320, 3, 32), ENTRY(0x6200, 2, 8), 0,
         ENTRY(0x6411, 1, 16)}},
    {5, {ENTRY(0x6200, 2, 8), 0, ENTRY(0x6411, 3, 16), 0, ENTRY(0x6300, 1, 16), 0, ENTRY(0x6411, 2, 16), 0}},
    {8, {ENTRY(0x6000, 1, 8), ENTRY(0x6000, 16, 8), ENTRY(0x6000, 3, 8), ENTRY(0x6000, 14, 8), ENTRY(0x6000, 5, 8),
         ENTRY(0x6000, 6, 8), ENTRY(0x6000, 7, 8), ENTRY(0x6000, 8, 8)}},
    {2, {ENTRY(0x6120, 4, 32), ENTRY(0x6120, 1, 32), ENTRY(0x6120, 2, 32), ENTRY(0x6120, 3, 32), ENTRY(0x6120, 1, 32),
         ENTRY(0x6120, 2, 32), ENTRY(0x6120, 3, 32), ENTRY(0x6120, 4, 32)}},
    {0, {ENTRY(0x6401, 16, 16), 0, ENTRY(0x6100, 8, 16), 0, ENTRY(0x6120, 3, 32), ENTRY(0x6000, 2, 8), 0,
         ENTRY(0x6401, 1, 16)}},
    {5, {ENTRY(0x6000, 2, 8), 0, ENTRY(0x6401, 3, 16), 0, ENTRY(0x6100, 1, 16), 0, ENTRY(0x6401, 2, 16), 0}},
};

static void write_mappings(situation *to)
{
    for (size_t n = 0; n < MAPPINGS; n++) {
        const mapping *map = &LAYOUTS[n];
        for (uint8_t sub = 1; sub <= MAPPING_ENTRIES; sub++)
            if (io401_write_value(&to->device, MAPPING_AT[n], sub, map->entries[sub - 1], 4) != 0)
                fail("the set-up of %04X:%02X is refused", MAPPING_AT[n], sub);
        if (io401_write_value(&to->device, MAPPING_AT[n], 0, map->count, 1) != 0)
            fail("the set-up of %04X:00 is refused", MAPPING_AT[n]);
        to->mappings[n] = *map;
    }
}

/* Two started entries with 20 ms each, an unused one between them, and one that waits. */
static void write_watches(situation *to)
{
    static const uint32_t ENTRIES[WATCHES] = {WATCHED(7u, 300), WATCHED(128u, 20), WATCHED(8u, 65535),
                                              WATCHED(9u, 21)};
    for (uint8_t sub = 1; sub <= WATCHES; sub++) {
        if (io401_write_value(&to->device, 0x1016, sub, ENTRIES[sub - 1], WATCH_BYTES) != 0)
            fail("the set-up of 1016:%02X is refused", sub);
        write_watch(to->watches, sub, ENTRIES[sub - 1]);
    }
    for (uint8_t node = 7; node <= 9; node = (uint8_t)(node + 2)) {
        io401_heartbeat(&to->device, node);
        hear_node(to->watches, node);
    }
    io401_elapsed(&to->device, 20);
    elapse_watches(to->watches, 20);
}

/*
 * As many samples as settle a filtered line too, and then two that differ, so that each of these lines has a count;
 * some channels have an event and set their source bits.
 */
static void sample_inputs(io401_device *device)
{
    uint8_t digital[DIGITAL_BYTES], events[DIGITAL_BYTES];
    int16_t analogue[INPUT_CHANNELS];
    uint16_t seen = 0;
    for (size_t n = 0; n < INPUT_CHANNELS; n++)
        analogue[n] = (int16_t)(100 * (int)n - 750);
    for (unsigned turn = 0; turn < UNUSUAL_LENGTH + 2; turn++) {
        for (size_t n = 0; n < DIGITAL_BYTES; n++)
            digital[n] = (uint8_t)((0x3C + n) ^ (turn < UNUSUAL_LENGTH ? 0 : 0xFF));
        seen |= io401_sample(device, digital, DIGITAL_BYTES, analogue, INPUT_CHANNELS, events, DIGITAL_BYTES).events;
    }
    expect(seen != 0, "no channel of the set-up has an event");
}

enum { FRESH, WRITTEN, FAILED, LOST, BOTH, STOPPED, SITUATION_COUNT };

static const char *const NAMES[SITUATION_COUNT] = {
    "fresh",
    "operational with all written",
    "in internal failure",
    "in communication loss",
    "pre-operational with both causes",
    "stopped",
};

static situation situations[SITUATION_COUNT];

static void prepare(void)
{
    situation_name = "set-up";
    for (int n = 0; n < SITUATION_COUNT; n++) {
        io401_device *device = &situations[n].device;
        situations[n].name = NAMES[n];
        situations[n].operational = n == WRITTEN || n == FAILED || n == LOST;
        situations[n].stopped = n == STOPPED;
        situations[n].in_fault = n >= FAILED;
        situations[n].filter_length = n == FRESH ? FRESH_LENGTH : UNUSUAL_LENGTH;
        expect(io401_create(device, NODE) == 0, "a create is refused");
        empty_watches(situations[n].watches);
        if (n == FRESH)
            continue;
        expect(io401_command(device, IO401_START, NODE) == 0, "a start is refused");
        write_everything(device);
        write_mappings(&situations[n]);
        write_watches(&situations[n]);
        sample_inputs(device);
        if (n == FAILED || n == BOTH)
            io401_raise(device, IO401_INTERNAL_FAILURE);
        if (n == LOST || n == BOTH)
            io401_raise(device, IO401_COMMUNICATION_LOSS);
        if (n == BOTH)
            io401_command(device, IO401_PRE_OPERATIONAL, NODE);
        if (n == STOPPED)
            io401_command(device, IO401_STOP, NODE);
    }
}

#endif
