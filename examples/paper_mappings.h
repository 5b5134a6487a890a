/* Document 02, Item 1, as tables, written out from the paper and not from the library: mappings and their refusals. */
#ifndef PAPER_MAPPINGS_H
#define PAPER_MAPPINGS_H

#include <stdbool.h>
#include <stddef.h>
#include <stdint.h>

/* "All at the value check, in this order." */
#define ENTRY_WHILE_COUNTED 0x06010000u
#define ENTRY_NOT_MAPPABLE 0x06040041u
#define MAPPING_TOO_LONG 0x06040042u
#define FRAME_LENGTH 5u

#define MESSAGES 4u
#define MAPPINGS 8u        /* four of received messages, then four of transmitted ones */
#define MAPPING_ENTRIES 8u
#define MAPPING_BITS 64u
#define TRANSMIT_BYTES 8u

/* "four bytes: index, sub-index, bit length" */
#define ENTRY(index, sub, bits) ((index) * 0x10000u + (sub) * 0x100u + (bits))

typedef struct mapping {
    uint8_t count;
    uint32_t entries[MAPPING_ENTRIES];
} mapping;

/* "receive mappings 1600 to 1603 and transmit mappings 1A00 to 1A03" */
static const uint16_t MAPPING_AT[MAPPINGS] = {0x1600, 0x1601, 0x1602, 0x1603, 0x1A00, 0x1A01, 0x1A02, 0x1A03};

/* The mapping's place in that list, MAPPINGS where the index is no mapping's. */
static size_t mapping_at(uint16_t index)
{
    size_t place = 0;
    while (place < MAPPINGS && MAPPING_AT[place] != index)
        place++;
    return place;
}

/* "Receive takes the output row and 6411, transmit the input row and 6401, of 8 bits and wider"; sub-index 0 of none */
typedef struct mapped_object {
    uint16_t index;
    uint8_t last;
    uint8_t bits;
} mapped_object;

static const mapped_object MAPPED[2][4] = {
    {{0x6200, 0x10, 8}, {0x6300, 8, 16}, {0x6320, 4, 32}, {0x6411, 8, 16}},
    {{0x6000, 0x10, 8}, {0x6100, 8, 16}, {0x6120, 4, 32}, {0x6401, 0x10, 16}},
};

static bool is_mappable(bool transmits, uint32_t entry)
{
    const uint32_t sub = entry >> 8 & 0xFF;
    for (size_t n = 0; n < 4; n++) {
        const mapped_object *at = &MAPPED[transmits][n];
        if (at->index == entry >> 16 && at->bits == (entry & 0xFF))
            return sub > 0 && sub <= at->last;
    }
    return false;
}

/* Of the first `count` entries; an entry of 0 has none. */
static uint32_t bits_of(const mapping *map, size_t count)
{
    uint32_t sum = 0;
    for (size_t n = 0; n < count; n++)
        sum += map->entries[n] & 0xFF;
    return sum;
}

static size_t bytes_of(const mapping *map)
{
    return bits_of(map, map->count) / 8;
}

/* What stands in the mapping decides too: an entry is written while nothing is in force, the count over what stands. */
static uint32_t refusal_of_mapping_value(const mapping *map, bool transmits, uint8_t sub, uint32_t value)
{
    if (sub == 0)
        return value > MAPPING_ENTRIES || bits_of(map, value) > MAPPING_BITS ? MAPPING_TOO_LONG : 0;
    if (map->count != 0)
        return ENTRY_WHILE_COUNTED;
    return value == 0 || is_mappable(transmits, value) ? 0 : ENTRY_NOT_MAPPABLE;
}

static uint32_t refusal_of_transmit(size_t frame_length)
{
    return frame_length != TRANSMIT_BYTES ? FRAME_LENGTH : 0;
}

/* A write with its answer, worked out by hand from a paper. */
typedef struct known_write {
    uint16_t index;
    uint8_t sub;
    uint8_t length;
    uint8_t bytes[8];
    uint32_t number;
} known_write;

/* In this order, on one device that is fresh before the first. */
static const known_write MAPPING_STEPS[] = {
    /* entries of 0 stand in a fresh mapping, so that every count up to 8 is taken; it may go from any count to any */
    {0x1600, 0, 1, {8}, 0}, {0x1600, 0, 1, {9}, MAPPING_TOO_LONG}, {0x1600, 0, 1, {0xFF}, MAPPING_TOO_LONG},
    {0x1600, 0, 1, {3}, 0}, {0x1600, 0, 1, {8}, 0},
    /* the count is not 0: over what cannot be mapped, for an entry of 0, and beyond the count; the size comes before */
    {0x1600, 1, 4, {8, 1, 0, 0x62}, ENTRY_WHILE_COUNTED}, {0x1600, 1, 4, {0}, ENTRY_WHILE_COUNTED},
    {0x1600, 1, 4, {1, 1, 0x20, 0x62}, ENTRY_WHILE_COUNTED}, {0x1600, 8, 4, {0xFF}, ENTRY_WHILE_COUNTED},
    {0x1600, 1, 3, {0}, 0x06070013u}, {0x1600, 1, 5, {0}, 0x06070012u}, {0x1600, 9, 4, {0}, 0x06090011u},
    {0x1600, 0, 1, {1}, 0}, {0x1600, 8, 4, {8, 1, 0, 0x62}, ENTRY_WHILE_COUNTED},
    /* each of the eight has a count of its own */
    {0x1601, 1, 4, {8, 1, 0, 0x62}, 0}, {0x1A00, 1, 4, {8, 1, 0, 0x60}, 0}, {0x1600, 0, 1, {0}, 0},
    /* lengths: 6200 has 8 bits, 6300 16, 6320 32, 6411 16 */
    {0x1600, 1, 4, {8, 1, 0, 0x62}, 0}, {0x1600, 1, 4, {7, 1, 0, 0x62}, ENTRY_NOT_MAPPABLE},
    {0x1600, 1, 4, {16, 1, 0, 0x62}, ENTRY_NOT_MAPPABLE}, {0x1600, 1, 4, {0, 1, 0, 0x62}, ENTRY_NOT_MAPPABLE},
    {0x1600, 2, 4, {16, 1, 0, 0x63}, 0}, {0x1600, 2, 4, {8, 1, 0, 0x63}, ENTRY_NOT_MAPPABLE},
    {0x1600, 3, 4, {32, 1, 0x20, 0x63}, 0}, {0x1600, 3, 4, {16, 1, 0x20, 0x63}, ENTRY_NOT_MAPPABLE},
    {0x1600, 4, 4, {16, 1, 0x11, 0x64}, 0}, {0x1600, 4, 4, {32, 1, 0x11, 0x64}, ENTRY_NOT_MAPPABLE},
    /* sub-indices: the last and the one above it, and 0 */
    {0x1600, 5, 4, {8, 16, 0, 0x62}, 0}, {0x1600, 5, 4, {8, 17, 0, 0x62}, ENTRY_NOT_MAPPABLE},
    {0x1600, 5, 4, {8, 0, 0, 0x62}, ENTRY_NOT_MAPPABLE}, {0x1600, 6, 4, {32, 4, 0x20, 0x63}, 0},
    {0x1600, 6, 4, {32, 5, 0x20, 0x63}, ENTRY_NOT_MAPPABLE}, {0x1600, 7, 4, {16, 8, 0x11, 0x64}, 0},
    {0x1600, 7, 4, {16, 9, 0x11, 0x64}, ENTRY_NOT_MAPPABLE}, {0x1A00, 2, 4, {16, 16, 1, 0x64}, 0},
    {0x1A00, 2, 4, {16, 17, 1, 0x64}, ENTRY_NOT_MAPPABLE},
    /* not mappable: the other direction's, 1-bit rows, other rows and objects, dummies, mappings, what is not listed */
    {0x1600, 8, 4, {8, 1, 0, 0x60}, ENTRY_NOT_MAPPABLE}, {0x1600, 8, 4, {16, 1, 1, 0x64}, ENTRY_NOT_MAPPABLE},
    {0x1A00, 8, 4, {8, 1, 0, 0x62}, ENTRY_NOT_MAPPABLE}, {0x1A00, 8, 4, {16, 1, 0x11, 0x64}, ENTRY_NOT_MAPPABLE},
    {0x1600, 8, 4, {1, 1, 0x20, 0x62}, ENTRY_NOT_MAPPABLE}, {0x1600, 8, 4, {8, 1, 0x20, 0x62}, ENTRY_NOT_MAPPABLE},
    {0x1A00, 8, 4, {1, 1, 0x20, 0x60}, ENTRY_NOT_MAPPABLE}, {0x1600, 8, 4, {8, 1, 2, 0x62}, ENTRY_NOT_MAPPABLE},
    {0x1A00, 8, 4, {32, 1, 0x22, 0x64}, ENTRY_NOT_MAPPABLE}, {0x1600, 8, 4, {8, 0, 5, 0}, ENTRY_NOT_MAPPABLE},
    {0x1600, 8, 4, {32, 1, 1, 0x16}, ENTRY_NOT_MAPPABLE}, {0x1A00, 8, 4, {8, 0, 1, 0x10}, ENTRY_NOT_MAPPABLE},
    {0x1600, 8, 4, {8, 1, 1, 0x62}, ENTRY_NOT_MAPPABLE}, {0x1600, 8, 4, {1}, ENTRY_NOT_MAPPABLE},
    /* nor the filter length */
    {0x1600, 8, 4, {8, 0, 3, 0x20}, ENTRY_NOT_MAPPABLE}, {0x1A00, 8, 4, {8, 0, 3, 0x20}, ENTRY_NOT_MAPPABLE},
    {0x1600, 8, 4, {8, 1, 3, 0x20}, ENTRY_NOT_MAPPABLE}, {0x1A00, 8, 4, {8, 1, 3, 0x20}, ENTRY_NOT_MAPPABLE},
    /* 8 + 16 + 32 = 56 bits, a fourth entry makes 72; what stands beyond the count is not added */
    {0x1600, 0, 1, {3}, 0}, {0x1600, 0, 1, {4}, MAPPING_TOO_LONG}, {0x1600, 0, 1, {8}, MAPPING_TOO_LONG},
    /* with 6200 for 6411 as the fourth it is 64 */
    {0x1600, 0, 1, {0}, 0}, {0x1600, 4, 4, {8, 2, 0, 0x62}, 0}, {0x1600, 0, 1, {4}, 0},
    {0x1600, 0, 1, {5}, MAPPING_TOO_LONG}, {0x1600, 0, 1, {2}, 0}, {0x1600, 0, 1, {9}, MAPPING_TOO_LONG},
    /* the same entry twice, and again after the count is 0 */
    {0x1600, 0, 1, {0}, 0}, {0x1600, 2, 4, {8, 1, 0, 0x62}, 0}, {0x1600, 0, 1, {2}, 0},
};
#define MAPPING_STEP_COUNT (sizeof MAPPING_STEPS / sizeof MAPPING_STEPS[0])

#endif
