/* Document 02, Item 5, as rules and a table, written out from the paper and not from the library: watched nodes. */
#ifndef PAPER_WATCH_H
#define PAPER_WATCH_H

#include <stdbool.h>
#include <stddef.h>
#include <stdint.h>

/* "Two used entries for one node: 06040043, after the value check. Bits 24 to 31 set: 06090030." */
#define NODE_TWICE 0x06040043u
#define BITS_ABOVE_NODE 0x06090030u

#define WATCHES 4u           /* "1016:1 to 1016:4" */
#define WATCH_BYTES 4u       /* "four bytes each" */
#define LAST_WATCHED 127u
#define LOSS_REGISTER 0x11u  /* document 01, of 1001: "bit 0 for any cause, also bit 4 for communication loss" */

/* "bits 16 to 23 a node, bits 0 to 15 milliseconds" */
#define WATCHED(node, time) ((node) * 0x10000u + (time))

/* An entry, and its sum where it is started. */
typedef struct watch {
    uint32_t value;
    bool is_started;
    uint64_t sum;
} watch;

static uint32_t node_of(uint32_t value)
{
    return value >> 16 & 0xFF;
}

static uint32_t time_of(uint32_t value)
{
    return value & 0xFFFF;
}

/* "Time 0 or a node outside 1 to 127 means unused." */
static bool is_used(uint32_t value)
{
    return time_of(value) != 0 && node_of(value) != 0 && node_of(value) <= LAST_WATCHED;
}

/* The entry that is written does not count, and an unused one does not either. */
static bool is_used_elsewhere(const watch *watches, uint8_t sub, uint32_t value)
{
    for (size_t n = 0; n < WATCHES; n++)
        if (n + 1 != sub && is_used(watches[n].value) && node_of(watches[n].value) == node_of(value))
            return true;
    return false;
}

static uint32_t refusal_of_watch(const watch *watches, uint8_t sub, uint32_t value)
{
    if (value >> 24 != 0)
        return BITS_ABOVE_NODE;
    return is_used(value) && is_used_elsewhere(watches, sub, value) ? NODE_TWICE : 0;
}

/* "default 0"; "either reset empties all four" */
static void empty_watches(watch *watches)
{
    const watch unused = {0, false, 0};
    for (size_t n = 0; n < WATCHES; n++)
        watches[n] = unused;
}

/* "Writing an entry stops its watch" */
static void write_watch(watch *watches, uint8_t sub, uint32_t value)
{
    watch *on = &watches[sub - 1];
    on->value = value;
    on->is_started = false;
    on->sum = 0;
}

/* "Watching starts with that node's first heartbeat"; later "a heartbeat sets its sum to 0" */
static void hear_node(watch *watches, uint8_t node)
{
    for (size_t n = 0; n < WATCHES; n++) {
        watch *on = &watches[n];
        if (is_used(on->value) && node_of(on->value) == node) {
            on->is_started = true;
            on->sum = 0;
        }
    }
}

/*
 * "elapsed milliseconds, which each started entry adds up"; "An entry whose sum reaches or passes its time raises
 * communication loss in that very call and waits for a first heartbeat again". Whether one does.
 */
static bool elapse_watches(watch *watches, uint32_t milliseconds)
{
    bool is_lost = false;
    for (size_t n = 0; n < WATCHES; n++) {
        watch *on = &watches[n];
        if (!on->is_started)
            continue;
        on->sum += milliseconds;
        if (on->sum >= time_of(on->value)) {
            on->is_started = false;
            on->sum = 0;
            is_lost = true;
        }
    }
    return is_lost;
}

/* A call with its answer and what 1001 reads after it, worked out by hand. */
typedef struct watch_step {
    char call;       /* 'w' writes entry `at`, 'h' is a heartbeat of node `at`, 'e' elapses, 'c' clears the loss */
    uint8_t at;
    uint32_t value;
    uint32_t number;
    uint8_t error;
} watch_step;

#define WRITES(sub, value, number, error) {'w', sub, value, number, error}
#define HEARS(node, error) {'h', node, 0, 0, error}
#define ELAPSES(milliseconds, error) {'e', 0, milliseconds, 0, error}
#define CLEARS {'c', 0, 0, 0, 0}

/* In this order, on one device that is fresh before the first, and so pre-operational throughout: 1029:1 is 0. */
static const watch_step WATCH_STEPS[] = {
    /* nothing is watched before a first heartbeat; then one millisecond short, and the time */
    WRITES(1, WATCHED(5u, 100), 0, 0), ELAPSES(100, 0), ELAPSES(0xFFFFFFFF, 0), HEARS(4, 0), ELAPSES(100, 0),
    HEARS(5, 0), ELAPSES(99, 0), ELAPSES(1, 0x11),
    /* it waits: nothing more is added, and the next heartbeat is a first one, which clears no loss */
    CLEARS, ELAPSES(1, 0), ELAPSES(0xFFFFFFFF, 0), HEARS(5, 0), ELAPSES(100, 0x11), HEARS(5, 0x11), CLEARS,
    ELAPSES(99, 0), ELAPSES(1, 0x11), CLEARS,
    /* a heartbeat sets the sum to 0, again and again; elapsed 0 adds nothing; then past the time */
    HEARS(5, 0), ELAPSES(99, 0), HEARS(5, 0), ELAPSES(99, 0), HEARS(5, 0), ELAPSES(99, 0), ELAPSES(0, 0),
    ELAPSES(0, 0), ELAPSES(2, 0x11), CLEARS,
    /* no heartbeat of another node does, nor one of 0, 128, 255 or 133, which is 5 in seven bits */
    HEARS(5, 0), ELAPSES(99, 0), HEARS(6, 0), HEARS(0, 0), HEARS(128, 0), HEARS(255, 0), HEARS(133, 0), HEARS(69, 0),
    ELAPSES(1, 0x11), CLEARS,
    /* a write stops the watch, with the entry's own value too; a refused one does not */
    HEARS(5, 0), ELAPSES(99, 0), WRITES(1, WATCHED(5u, 100), 0, 0), ELAPSES(0xFFFFFFFF, 0), HEARS(5, 0),
    ELAPSES(99, 0), WRITES(1, WATCHED(5u, 100) + 0x01000000, BITS_ABOVE_NODE, 0),
    WRITES(1, 0x80000000, BITS_ABOVE_NODE, 0), ELAPSES(1, 0x11), CLEARS,
    /* one node in two used entries, and beside it unused ones with that node; the value check comes before */
    WRITES(2, WATCHED(5u, 100), NODE_TWICE, 0), WRITES(3, WATCHED(5u, 1), NODE_TWICE, 0),
    WRITES(4, WATCHED(5u, 0xFFFF), NODE_TWICE, 0), WRITES(2, WATCHED(5u, 0), 0, 0),
    WRITES(3, WATCHED(0x85u, 100), 0, 0), WRITES(4, WATCHED(5u, 100) + 0x10000000, BITS_ABOVE_NODE, 0),
    WRITES(1, WATCHED(5u, 200), 0, 0), HEARS(133, 0), ELAPSES(0xFFFFFFFF, 0),
    /* four nodes: the first and the last in one call, the second later; the third is not heard */
    WRITES(2, WATCHED(6u, 300), 0, 0), WRITES(3, WATCHED(127u, 1), 0, 0), WRITES(4, WATCHED(1u, 200), 0, 0),
    HEARS(5, 0), HEARS(6, 0), HEARS(1, 0), ELAPSES(199, 0), ELAPSES(1, 0x11), CLEARS, ELAPSES(99, 0),
    ELAPSES(1, 0x11), CLEARS, ELAPSES(0xFFFFFFFF, 0),
    /* the shortest and the longest time, and sums that pass 16 and 32 bits */
    WRITES(1, WATCHED(5u, 1), 0, 0), HEARS(5, 0), ELAPSES(0, 0), ELAPSES(1, 0x11), CLEARS,
    WRITES(1, WATCHED(5u, 0xFFFF), 0, 0), HEARS(5, 0), ELAPSES(65534, 0), ELAPSES(1, 0x11), CLEARS, HEARS(5, 0),
    ELAPSES(65534, 0), ELAPSES(0xFFFFFFFF, 0x11), CLEARS, HEARS(5, 0), ELAPSES(65534, 0), ELAPSES(4294901761u, 0x11),
    CLEARS, HEARS(5, 0), ELAPSES(65534, 0), ELAPSES(4294901762u, 0x11), CLEARS, HEARS(5, 0), ELAPSES(65536, 0x11),
};
#define WATCH_STEP_COUNT (sizeof WATCH_STEPS / sizeof WATCH_STEPS[0])

#endif
