/* Frames received and frames to be sent: the calls that refusals.c tries against document 02, Item 1. */
#ifndef MESSAGES_H
#define MESSAGES_H

#include "trial.h"

#define LENT 32u     /* elements of a frame, and of a sample's and a drive's buffers, the most that is lent of them */

static const size_t LENGTHS[] = {0, 1, 7, 8, 9, 15, 16, 17, 31, 32};
#define LENGTH_COUNT (sizeof LENGTHS / sizeof LENGTHS[0])

static unsigned long frames_obeyed = 0, frames_filled = 0;

typedef uint32_t receive_call(io401_device *device, const uint8_t *frame, size_t length);
typedef io401_transmit_answer transmit_call(const io401_device *device, uint8_t *frame, size_t length);

static receive_call *const RECEIVES[MESSAGES] = {io401_receive_1600, io401_receive_1601, io401_receive_1602,
                                                 io401_receive_1603};
static transmit_call *const TRANSMITS[MESSAGES] = {io401_transmit_1A00, io401_transmit_1A01, io401_transmit_1A02,
                                                   io401_transmit_1A03};

/* What a sub-index of a mapping reads. */
static uint32_t mapped_number(const mapping *map, uint8_t sub)
{
    return sub == 0 ? map->count : map->entries[sub - 1];
}

/* "empty when fresh and after reset communication" */
static void check_empty(io401_device *device)
{
    for (size_t n = 0; n < MAPPINGS; n++)
        for (uint8_t sub = 0; sub <= MAPPING_ENTRIES; sub++)
            expect(io401_read(device, MAPPING_AT[n], sub).value == 0, "reset communication leaves a mapping");
}

/* "Receiving acts as a plain write of each entry in order" */
static void write_each(io401_device *device, const mapping *map, const uint8_t *frame)
{
    for (size_t n = 0; n < map->count; n++) {
        const uint32_t entry = map->entries[n];
        const size_t size = (entry & 0xFF) / 8;
        if (entry != 0)
            expect(io401_write(device, (uint16_t)(entry >> 16), (uint8_t)(entry >> 8), frame, size) == 0,
                   "a plain write of a mapped entry is refused");
        frame += size;
    }
}

/* Each entry goes in after the one before, as a plain read answers it. */
static void read_each(io401_device *device, const mapping *map, uint8_t *frame)
{
    for (size_t n = 0; n < map->count; n++) {
        const uint32_t entry = map->entries[n];
        const uint32_t value = io401_read(device, (uint16_t)(entry >> 16), (uint8_t)(entry >> 8)).value;
        for (size_t b = 0; b < (entry & 0xFF) / 8; b++)
            *frame++ = (uint8_t)(value >> (8 * b));
    }
}

/* "A frame shorter than its mapping, or for a node not operational, is accepted and does nothing" */
static void try_receive(const situation *from, size_t message, size_t length)
{
    const mapping *map = &from->mappings[message];
    uint8_t frame[LENT], kept[LENT];
    io401_device device, wanted;
    memcpy(&device, &from->device, sizeof device);
    memcpy(&wanted, &from->device, sizeof wanted);
    for (size_t n = 0; n < LENT; n++)
        frame[n] = kept[n] = (uint8_t)(0x35 + 29 * n + message);
    if (from->operational && length >= bytes_of(map))
        write_each(&wanted, map, kept);
    check_number(RECEIVES[message](&device, frame, length), 0, "receive %zu with %zu bytes", message + 1, length);
    expect(memcmp(frame, kept, sizeof frame) == 0, "a receive changes its frame");
    expect(is_same(&device, &wanted), "a receive leaves another device than the plain writes of its entries");
    frames_obeyed += !is_same(&device, &from->device);
}

/* "bytes beyond stay, and the answer is the number of bytes written: 0, none touched, unless operational" */
static void try_transmit(const situation *from, size_t message, size_t length)
{
    const mapping *map = &from->mappings[MESSAGES + message];
    const uint32_t wanted = refusal_of_transmit(length);
    const bool is_filled = wanted == 0 && from->operational;
    uint8_t frame[LENT], wanted_frame[LENT];
    io401_device device;
    memcpy(&device, &from->device, sizeof device);
    memset(frame, PATTERN, sizeof frame);
    memset(wanted_frame, PATTERN, sizeof wanted_frame);
    if (is_filled)
        read_each(&device, map, wanted_frame);
    const io401_transmit_answer answer = TRANSMITS[message](&device, frame, length);
    check_number(answer.number, wanted, "transmit %zu with %zu bytes", message + 1, length);
    expect(answer.count == (is_filled ? bytes_of(map) : 0), "a transmit answers another count");
    expect(memcmp(frame, wanted_frame, sizeof frame) == 0, "a transmit fills its frame otherwise");
    expect(is_same(&device, &from->device), "a transmit changes the device");
    frames_filled += answer.count > 0;
}

static void try_frames(const situation *from)
{
    for (size_t message = 0; message < MESSAGES; message++) {
        for (size_t length = 0; length <= LENT; length++) {
            try_receive(from, message, length);
            try_transmit(from, message, length);
        }
    }
}

/* The mappings as they stand, and, where the node is not stopped, with every count that the paper takes. */
static void try_messages(const situation *from)
{
    try_frames(from);
    for (uint8_t count = 0; count <= MAPPING_ENTRIES && !from->stopped; count++) {
        situation counted = *from;
        for (size_t n = 0; n < MAPPINGS; n++) {
            if (refusal_of_mapping_value(&from->mappings[n], n >= MESSAGES, 0, count) != 0)
                continue;
            expect(io401_write_value(&counted.device, MAPPING_AT[n], 0, count, 1) == 0, "a count is refused");
            counted.mappings[n].count = count;
        }
        try_frames(&counted);
    }
}

/* Worked out by hand: 6300:1 and then 6200:1 over its low byte, an entry of 0 between them. */
static void try_received_frame(void)
{
    static const uint8_t FRAME[] = {0x11, 0x22, 0x33, 0x44};
    io401_device device, before;
    io401_create(&device, NODE);
    io401_write_value(&device, 0x1602, 1, 0x63000110, 4);
    io401_write_value(&device, 0x1602, 3, 0x62000108, 4);
    io401_write_value(&device, 0x1602, 0, 3, 1);
    memcpy(&before, &device, sizeof before);
    expect(io401_receive_1602(&device, FRAME, 4) == 0 && is_same(&device, &before), "pre-operational obeys a frame");
    io401_command(&device, IO401_START, NODE);
    memcpy(&before, &device, sizeof before);
    expect(io401_receive_1602(&device, FRAME, 2) == 0 && is_same(&device, &before), "a short frame is obeyed");
    expect(io401_receive_1601(&device, FRAME, 4) == 0 && is_same(&device, &before), "another mapping is obeyed");
    expect(io401_receive_1602(&device, FRAME, 4) == 0, "a receive is refused");
    expect(io401_read(&device, 0x6300, 1).value == 0x2233, "a frame of 11 22 33 leaves another 6300:1 than 2233");
    io401_write_value(&device, 0x6208, 1, 0x0F, 1);
    io401_raise(&device, IO401_INTERNAL_FAILURE);
    expect(io401_receive_1602(&device, FRAME + 1, 3) == 0, "a receive in a fault is refused");
    expect(io401_read(&device, 0x6300, 1).value == 0x3334, "a frame of 22 33 44 in a fault does not go by the mask");
}

/* Worked out by hand: input 1 inverted, -2 on channel 16, and a frame of FF before. */
static void try_frame_to_send(void)
{
    static const uint8_t WANTED[] = {0xFE, 0xFF, 0x04, 0xFF, 0xFF, 0xFF, 0xFF, 0xFF};
    const uint8_t digital[DIGITAL_BYTES] = {0x05};
    int16_t analogue[INPUT_CHANNELS] = {0};
    uint8_t events[DIGITAL_BYTES], frame[TRANSMIT_BYTES];
    io401_device device;
    analogue[15] = -2;
    memset(frame, 0xFF, sizeof frame);
    io401_create(&device, NODE);
    io401_write_value(&device, 0x6002, 1, 0x01, 1);
    io401_write_value(&device, 0x1A03, 1, 0x64011010, 4);
    io401_write_value(&device, 0x1A03, 2, 0x60000108, 4);
    io401_write_value(&device, 0x1A03, 0, 2, 1);
    io401_sample(&device, digital, DIGITAL_BYTES, analogue, INPUT_CHANNELS, events, DIGITAL_BYTES);
    expect(io401_transmit_1A03(&device, frame, 8).count == 0, "a pre-operational node fills a frame");
    io401_command(&device, IO401_START, NODE);
    expect(io401_transmit_1A02(&device, frame, 8).count == 0, "another message's frame is filled");
    expect(io401_transmit_1A03(&device, frame, 8).count == 3, "a frame of three bytes has another count");
    expect(memcmp(frame, WANTED, sizeof frame) == 0, "a frame has other bytes than FE FF 04");
}

/* The header's own name for the four bytes; what is too high for its field is refused. */
static void check_entries_built(void)
{
    const uint16_t index = 0x6401;
    const uint8_t sub = 16, bits = 16;
    io401_device device;
    expect(IO401_MAPPING_ENTRY(0x6200, 1, 8) == 0x62000108, "6200:1 with 8 bits is another entry");
    expect(IO401_MAPPING_ENTRY(0xFFFF, 0xFF, 0xFF) == 0xFFFFFFFF, "the highest entry is another");
    expect(IO401_MAPPING_ENTRY(index, sub, bits) == 0x64011010, "6401:16 with 16 bits is another entry");
    expect(IO401_MAPPING_ENTRY(0x6200, -1, 8) == 0xFFFFFFFF, "a sub-index below 0 is another");
    io401_create(&device, NODE);
    for (int field = 0; field < 3; field++) {
        const uint32_t entry = IO401_MAPPING_ENTRY(field == 0 ? 0x16200 : 0x6200, field == 1 ? 0x101 : 1,
                                                   field == 2 ? 0x108 : 8);
        expect(io401_write_value(&device, 0x1600, 1, entry, 4) == ENTRY_NOT_MAPPABLE, "a number too high is mapped");
    }
}

#endif
