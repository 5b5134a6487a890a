/* Documents 01 and 02 as tables, written out from the papers and not from the library: the objects and the refusals. */
#ifndef PAPER_H
#define PAPER_H

#include "paper_mappings.h"
#include "paper_watch.h"
#include <stdbool.h>
#include <stddef.h>
#include <stdint.h>

/* "Where each refusal is checked", top to bottom. */
#define NODE_STOPPED 0x08000022u
#define INDEX_NOT_LISTED 0x06020000u
#define SUB_INDEX_ABOVE 0x06090011u
#define READ_ONLY_ENTRY 0x06010002u
#define DATA_TOO_LONG 0x06070012u
#define DATA_TOO_SHORT 0x06070013u
#define VALUE_OUTSIDE 0x06090030u
#define VALUE_ABOVE 0x06090031u
#define VALUE_BELOW 0x06090032u
#define NODE_NUMBER 1u
#define COMMAND_CODE 2u
#define DIGITAL_LENGTH 3u
#define ANALOGUE_LENGTH 4u
#define EVENT_LENGTH 5u
#define DRIVE_LENGTH 6u

#define LAST_NODE 127u
#define DIGITAL_BYTES 16u
#define INPUT_CHANNELS 16u
#define OUTPUT_CHANNELS 8u

/* Which values a write may bring. */
typedef enum rule {
    ANY,
    ZERO_OR_ONE,
    UP_TO_TWO,
    NOT_ZERO,
    LOW_FIVE_BITS,
    SIXTEEN_BITS_SIGNED,
    AS_MAPPED,
    AS_WATCHED
} rule;

typedef struct object {
    uint16_t index;
    uint8_t last;    /* the last sub-index, 0 where the object has sub-index 0 alone */
    uint8_t size;    /* bytes of an entry; sub-index 0 has one where there are more */
    bool written;    /* not read only */
    rule takes;
    uint32_t fresh;  /* what an entry of a fresh device reads */
} object;

/* An attribute of digital lines: four windows on the same 128 lines. */
#define LINES(bits, bytes, words, longs, written, fresh)                                                              \
    {bits, 0x80, 1, written, ZERO_OR_ONE, (fresh) & 1u}, {bytes, 0x10, 1, written, ANY, (fresh) & 0xFFu},             \
        {words, 8, 2, written, ANY, (fresh) & 0xFFFFu}, {longs, 4, 4, written, ANY, fresh}
#define ONES 0xFFFFFFFFu

/* Four mappings, of received or of transmitted messages. */
#define FOUR_MAPPINGS(first)                                                                                          \
    {first, 8, 4, true, AS_MAPPED, 0}, {(first) + 1, 8, 4, true, AS_MAPPED, 0},                                       \
        {(first) + 2, 8, 4, true, AS_MAPPED, 0}, {(first) + 3, 8, 4, true, AS_MAPPED, 0}

static const object OBJECTS[] = {
    {0x1000, 0, 4, false, ANY, 0x000F0191},
    {0x1001, 0, 1, false, ANY, 0},
    {0x1016, WATCHES, WATCH_BYTES, true, AS_WATCHED, 0},
    {0x1029, 1, 1, true, UP_TO_TWO, 0},
    FOUR_MAPPINGS(0x1600),
    FOUR_MAPPINGS(0x1A00),
    {0x2003, 0, 1, true, NOT_ZERO, 3}, /* filter length */
    {0x6005, 0, 1, true, ZERO_OR_ONE, 1},
    LINES(0x6020, 0x6000, 0x6100, 0x6120, false, 0),   /* input */
    LINES(0x6030, 0x6002, 0x6102, 0x6122, true, 0),    /* input polarity */
    LINES(0x6038, 0x6003, 0x6103, 0x6123, true, 0),    /* input filter */
    LINES(0x6050, 0x6006, 0x6106, 0x6126, true, ONES), /* any change */
    LINES(0x6060, 0x6007, 0x6107, 0x6127, true, 0),    /* low-to-high */
    LINES(0x6070, 0x6008, 0x6108, 0x6128, true, 0),    /* high-to-low */
    LINES(0x6220, 0x6200, 0x6300, 0x6320, true, 0),    /* output */
    LINES(0x6240, 0x6202, 0x6302, 0x6322, true, 0),    /* output polarity */
    LINES(0x6250, 0x6206, 0x6306, 0x6326, true, ONES), /* error mode */
    LINES(0x6260, 0x6207, 0x6307, 0x6327, true, 0),    /* error value */
    LINES(0x6270, 0x6208, 0x6308, 0x6328, true, ONES), /* output filter mask */
    {0x6401, 0x10, 2, false, ANY, 0},
    {0x6411, 8, 2, true, ANY, 0},
    {0x6421, 0x10, 1, true, LOW_FIVE_BITS, 0x07},
    {0x6422, 1, 4, false, ANY, 0},
    {0x6423, 0, 1, true, ZERO_OR_ONE, 0},
    {0x6424, 0x10, 4, true, ANY, 0},
    {0x6425, 0x10, 4, true, ANY, 0},
    {0x6426, 0x10, 4, true, ANY, 0},
    {0x6427, 0x10, 4, true, ANY, 0},
    {0x6428, 0x10, 4, true, ANY, 0},
    {0x6443, 8, 1, true, ZERO_OR_ONE, 1},
    {0x6444, 8, 4, true, SIXTEEN_BITS_SIGNED, 0},
};
#define OBJECT_COUNT (sizeof OBJECTS / sizeof OBJECTS[0])

/* A window on the outputs, and the window of the same width on their masks. */
static const uint16_t OUTPUT_AND_MASK[4][2] = {{0x6220, 0x6270}, {0x6200, 0x6208}, {0x6300, 0x6308}, {0x6320, 0x6328}};

static const object *listed_at(uint16_t index)
{
    for (size_t n = 0; n < OBJECT_COUNT; n++)
        if (OBJECTS[n].index == index)
            return &OBJECTS[n];
    return NULL;
}

/* How many entries an object has, and read only; in a mapping sub-index 0 is how many are in force, and written. */
static bool is_entry_count(const object *at, uint8_t sub)
{
    return at->last > 0 && sub == 0 && at->takes != AS_MAPPED;
}

static uint8_t size_of(const object *at, uint8_t sub)
{
    return at->last > 0 && sub == 0 ? 1 : at->size;
}

/* The bytes as an unsigned number, the least significant first; an entry has at most four. */
static uint32_t number_of(const uint8_t *bytes, size_t length)
{
    uint32_t value = 0;
    for (size_t n = 0; n < length; n++)
        value |= (uint32_t)bytes[n] << (8 * n);
    return value;
}

static uint32_t refusal_of_value(rule takes, uint32_t value)
{
    switch (takes) {
    case ZERO_OR_ONE:
        return value > 1 ? VALUE_OUTSIDE : 0;
    case UP_TO_TWO:
        return value > 2 ? VALUE_OUTSIDE : 0;
    case NOT_ZERO:
        return value == 0 ? VALUE_OUTSIDE : 0;
    case LOW_FIVE_BITS:
        return value > 0x1F ? VALUE_OUTSIDE : 0;
    case SIXTEEN_BITS_SIGNED:
        if (value > 0x7FFF && value < 0x80000000u)
            return VALUE_ABOVE;
        return value >= 0x80000000u && value < 0xFFFF8000u ? VALUE_BELOW : 0;
    default:
        return 0;
    }
}

static uint32_t refusal_of_read(bool stopped, uint16_t index, uint8_t sub)
{
    const object *at = listed_at(index);
    if (stopped)
        return NODE_STOPPED;
    if (at == NULL)
        return INDEX_NOT_LISTED;
    return sub > at->last ? SUB_INDEX_ABOVE : 0;
}

/* `maps` are the eight mappings and `watches` the four entries of 1016 as they stand. */
static uint32_t refusal_of_write(bool stopped, const mapping *maps, const watch *watches, uint16_t index, uint8_t sub,
                                 const uint8_t *bytes, size_t length)
{
    const object *at = listed_at(index);
    const uint32_t number = refusal_of_read(stopped, index, sub);
    if (number != 0)
        return number;
    if (!at->written || is_entry_count(at, sub))
        return READ_ONLY_ENTRY;
    if (length > size_of(at, sub))
        return DATA_TOO_LONG;
    if (length < size_of(at, sub))
        return DATA_TOO_SHORT;
    if (at->takes == AS_MAPPED)
        return refusal_of_mapping_value(&maps[mapping_at(index)], index >= 0x1A00, sub, number_of(bytes, length));
    if (at->takes == AS_WATCHED)
        return refusal_of_watch(watches, sub, number_of(bytes, length));
    return refusal_of_value(at->takes, number_of(bytes, length));
}

static uint32_t refusal_of_create(uint8_t number)
{
    return number == 0 || number > LAST_NODE ? NODE_NUMBER : 0;
}

static uint32_t refusal_of_command(uint8_t code, uint8_t node)
{
    if (node > LAST_NODE)
        return NODE_NUMBER;
    return code == 1 || code == 2 || code == 128 || code == 129 || code == 130 ? 0 : COMMAND_CODE;
}

static uint32_t refusal_of_sample(size_t digital_length, size_t analogue_length, size_t event_length)
{
    if (digital_length != DIGITAL_BYTES)
        return DIGITAL_LENGTH;
    if (analogue_length != INPUT_CHANNELS)
        return ANALOGUE_LENGTH;
    return event_length != DIGITAL_BYTES ? EVENT_LENGTH : 0;
}

static uint32_t refusal_of_drive(size_t line_length, size_t channel_length)
{
    return line_length != DIGITAL_BYTES || channel_length != OUTPUT_CHANNELS ? DRIVE_LENGTH : 0;
}

/* On any device: each row alone, two rows at once, and just inside. */
static const known_write KNOWN_WRITES[] = {
    /* index alone, and over each row below */
    {0x0000, 0, 1, {0}, INDEX_NOT_LISTED}, {0x0FFF, 0, 1, {0}, INDEX_NOT_LISTED},
    {0x1002, 0, 1, {0}, INDEX_NOT_LISTED}, {0x6001, 1, 1, {0}, INDEX_NOT_LISTED},
    {0x6445, 1, 4, {0}, INDEX_NOT_LISTED}, {0xFFFF, 0, 1, {0}, INDEX_NOT_LISTED},
    {0x6001, 0xFF, 1, {0}, INDEX_NOT_LISTED}, {0x6021, 1, 8, {9}, INDEX_NOT_LISTED},
    {0x6445, 1, 0, {0}, INDEX_NOT_LISTED}, {0x15FF, 0, 1, {0}, INDEX_NOT_LISTED},
    {0x1604, 0, 1, {0}, INDEX_NOT_LISTED}, {0x19FF, 1, 4, {0}, INDEX_NOT_LISTED},
    {0x1A04, 9, 1, {9}, INDEX_NOT_LISTED}, {0x1400, 1, 4, {0}, INDEX_NOT_LISTED},
    {0x1800, 2, 1, {0}, INDEX_NOT_LISTED}, {0x2002, 0, 1, {3}, INDEX_NOT_LISTED},
    {0x2004, 0, 1, {3}, INDEX_NOT_LISTED}, {0x2000, 9, 0, {0}, INDEX_NOT_LISTED},
    {0x1015, 1, 4, {100, 0, 5}, INDEX_NOT_LISTED}, {0x1017, 0, 2, {100}, INDEX_NOT_LISTED},
    {0x1017, 5, 4, {100, 0, 5, 1}, INDEX_NOT_LISTED},
    /* sub-index alone, and over access, size and value */
    {0x6200, 0x11, 1, {0}, SUB_INDEX_ABOVE}, {0x6220, 0x81, 1, {0}, SUB_INDEX_ABOVE},
    {0x6320, 5, 4, {0}, SUB_INDEX_ABOVE}, {0x6411, 9, 2, {0}, SUB_INDEX_ABOVE},
    {0x6421, 0x11, 1, {0}, SUB_INDEX_ABOVE}, {0x1029, 2, 1, {0}, SUB_INDEX_ABOVE},
    {0x6005, 1, 1, {0}, SUB_INDEX_ABOVE}, {0x6000, 0x11, 1, {0}, SUB_INDEX_ABOVE},
    {0x6422, 2, 4, {0}, SUB_INDEX_ABOVE}, {0x6200, 0x11, 2, {0}, SUB_INDEX_ABOVE},
    {0x6300, 9, 1, {0}, SUB_INDEX_ABOVE}, {0x6220, 0x81, 1, {2}, SUB_INDEX_ABOVE},
    {0x6444, 9, 4, {0, 0x80}, SUB_INDEX_ABOVE}, {0x6005, 0xFF, 1, {2}, SUB_INDEX_ABOVE},
    {0x1600, 9, 4, {8, 1, 0, 0x62}, SUB_INDEX_ABOVE}, {0x1A03, 9, 1, {9}, SUB_INDEX_ABOVE},
    {0x1603, 0xFF, 5, {1}, SUB_INDEX_ABOVE}, {0x2003, 1, 1, {5}, SUB_INDEX_ABOVE},
    {0x2003, 1, 1, {0}, SUB_INDEX_ABOVE}, {0x2003, 1, 2, {5}, SUB_INDEX_ABOVE},
    {0x2003, 0xFF, 0, {0}, SUB_INDEX_ABOVE}, {0x1016, 5, 4, {100, 0, 5}, SUB_INDEX_ABOVE},
    {0x1016, 5, 5, {100, 0, 5, 1}, SUB_INDEX_ABOVE}, {0x1016, 0xFF, 0, {0}, SUB_INDEX_ABOVE},
    /* access alone, and over size and value */
    {0x6000, 1, 1, {0}, READ_ONLY_ENTRY}, {0x1000, 0, 4, {0x91, 1, 0xF}, READ_ONLY_ENTRY},
    {0x1001, 0, 1, {0}, READ_ONLY_ENTRY}, {0x6401, 1, 2, {0}, READ_ONLY_ENTRY},
    {0x6422, 1, 4, {0}, READ_ONLY_ENTRY}, {0x6200, 0, 1, {0x10}, READ_ONLY_ENTRY},
    {0x6422, 0, 1, {1}, READ_ONLY_ENTRY}, {0x1029, 0, 1, {1}, READ_ONLY_ENTRY},
    {0x6000, 1, 2, {0}, READ_ONLY_ENTRY}, {0x6401, 1, 1, {0}, READ_ONLY_ENTRY},
    {0x6020, 1, 1, {2}, READ_ONLY_ENTRY}, {0x6443, 0, 1, {2}, READ_ONLY_ENTRY},
    {0x1029, 0, 1, {3}, READ_ONLY_ENTRY}, {0x6444, 0, 4, {0, 0x80}, READ_ONLY_ENTRY},
    {0x1016, 0, 1, {4}, READ_ONLY_ENTRY}, {0x1016, 0, 4, {100, 0, 5, 1}, READ_ONLY_ENTRY},
    /* size alone, and over value */
    {0x6200, 1, 2, {0}, DATA_TOO_LONG}, {0x6300, 1, 3, {0}, DATA_TOO_LONG}, {0x6320, 1, 5, {0}, DATA_TOO_LONG},
    {0x6005, 0, 2, {2}, DATA_TOO_LONG}, {0x6220, 1, 2, {2}, DATA_TOO_LONG},
    {0x6444, 1, 5, {0, 0x80}, DATA_TOO_LONG}, {0x6200, 1, 0, {0}, DATA_TOO_SHORT},
    {0x6300, 1, 1, {0}, DATA_TOO_SHORT}, {0x6320, 1, 3, {0}, DATA_TOO_SHORT}, {0x6005, 0, 0, {2}, DATA_TOO_SHORT},
    {0x6411, 1, 1, {0}, DATA_TOO_SHORT}, {0x6444, 1, 3, {0, 0x80}, DATA_TOO_SHORT},
    {0x1600, 0, 2, {9}, DATA_TOO_LONG}, {0x1A00, 0, 4, {0}, DATA_TOO_LONG}, {0x1600, 0, 0, {0}, DATA_TOO_SHORT},
    {0x1601, 1, 5, {1}, DATA_TOO_LONG}, {0x1602, 8, 3, {1}, DATA_TOO_SHORT}, {0x1A01, 1, 0, {0}, DATA_TOO_SHORT},
    {0x2003, 0, 2, {5}, DATA_TOO_LONG}, {0x2003, 0, 2, {0}, DATA_TOO_LONG}, {0x2003, 0, 4, {3}, DATA_TOO_LONG},
    {0x2003, 0, 0, {0}, DATA_TOO_SHORT}, {0x1016, 1, 5, {100, 0, 5}, DATA_TOO_LONG},
    {0x1016, 4, 5, {100, 0, 5, 1}, DATA_TOO_LONG}, {0x1016, 1, 3, {100, 0, 5}, DATA_TOO_SHORT},
    {0x1016, 4, 0, {0}, DATA_TOO_SHORT},
    /* value, on both sides of each bound */
    {0x6220, 0x80, 1, {1}, 0}, {0x6220, 0x80, 1, {2}, VALUE_OUTSIDE}, {0x6270, 1, 1, {0xFF}, VALUE_OUTSIDE},
    {0x1029, 1, 1, {2}, 0}, {0x1029, 1, 1, {3}, VALUE_OUTSIDE}, {0x6005, 0, 1, {1}, 0},
    {0x6005, 0, 1, {2}, VALUE_OUTSIDE}, {0x6423, 0, 1, {1}, 0}, {0x6423, 0, 1, {2}, VALUE_OUTSIDE},
    {0x6443, 8, 1, {1}, 0}, {0x6443, 8, 1, {2}, VALUE_OUTSIDE}, {0x6421, 16, 1, {0x1F}, 0},
    {0x6421, 16, 1, {0x20}, VALUE_OUTSIDE}, {0x6421, 1, 1, {0x40}, VALUE_OUTSIDE},
    {0x6421, 1, 1, {0x80}, VALUE_OUTSIDE}, {0x6444, 8, 4, {0xFF, 0x7F}, 0}, {0x6444, 8, 4, {0, 0x80}, VALUE_ABOVE},
    {0x6444, 1, 4, {0xFF, 0xFF, 0xFF, 0x7F}, VALUE_ABOVE}, {0x6444, 1, 4, {0, 0, 0, 0x80}, VALUE_BELOW},
    {0x6444, 1, 4, {0xFF, 0x7F, 0xFF, 0xFF}, VALUE_BELOW}, {0x6444, 1, 4, {0, 0x80, 0xFF, 0xFF}, 0},
    {0x2003, 0, 1, {0}, VALUE_OUTSIDE}, {0x2003, 0, 1, {1}, 0}, {0x2003, 0, 1, {2}, 0}, {0x2003, 0, 1, {3}, 0},
    {0x2003, 0, 1, {254}, 0}, {0x2003, 0, 1, {255}, 0}, {0x1016, 1, 4, {100, 0, 5, 1}, VALUE_OUTSIDE},
    {0x1016, 4, 4, {0, 0, 0, 0x80}, VALUE_OUTSIDE}, {0x1016, 1, 4, {100, 0, 127}, 0}, {0x1016, 2, 4, {100, 0, 128}, 0},
    {0x1016, 3, 4, {100, 0, 0}, 0}, {0x1016, 4, 4, {0, 0, 127}, 0}, {0x1016, 4, 4, {0xFF, 0xFF, 0xFF}, 0},
    /* nothing is outside for the others */
    {0x6200, 0x10, 1, {0xFF}, 0}, {0x6320, 4, 4, {0xFF, 0xFF, 0xFF, 0xFF}, 0}, {0x6411, 8, 2, {0, 0x80}, 0},
    {0x6424, 0x10, 4, {0, 0, 0, 0x80}, 0}, {0x6428, 1, 4, {0xFF, 0xFF, 0xFF, 0xFF}, 0},
    /* a count, whatever entries stand; paper_mappings.h has what depends on them, paper_watch.h on other watches */
    {0x1600, 0, 1, {0}, 0}, {0x1A03, 0, 1, {0}, 0}, {0x1601, 0, 1, {9}, MAPPING_TOO_LONG},
    {0x1A02, 0, 1, {0xFF}, MAPPING_TOO_LONG},
};
#define KNOWN_WRITE_COUNT (sizeof KNOWN_WRITES / sizeof KNOWN_WRITES[0])

#endif
