/*
 * Requests to the service data server: the calls that refusals.c tries against document 02, Item 3. "A request does
 * exactly what the plain call does": a copy of the device is left to that call, and every byte of both is compared.
 */
#ifndef SERVER_H
#define SERVER_H

#include "paper_server.h"
#include "trial.h"

#define SERVER_LENT 264u /* the most that is lent of a request or for a reply; in eight bits it would be 8 again */

static unsigned long uploads_obeyed = 0, downloads_obeyed = 0; /* those that changed the device */

typedef struct exchange {
    uint8_t request[SERVER_LENT];
    uint8_t reply[SERVER_LENT];
    io401_device device;
} exchange;

/* PATTERN shows which bytes of the buffer for the reply are left. */
static void start_exchange(exchange *on, const situation *from, const uint8_t *request)
{
    memset(on->request, PATTERN, sizeof on->request);
    memcpy(on->request, request, REQUEST_BYTES);
    memset(on->reply, PATTERN, sizeof on->reply);
    memcpy(&on->device, &from->device, sizeof on->device);
}

/* What the paper says of a request that is replied to. */
static void reply_by_paper(exchange *on, const situation *from)
{
    const uint8_t *request = on->request;
    const uint16_t index = index_in(request);
    const uint32_t code = abort_of_request(from->mappings, from->watches, request);
    if (code != 0) {
        fill_reply(on->reply, 0x80, request, code);
    } else if (asked_by(request) == UPLOAD) {
        const io401_read_answer answer = io401_read(&on->device, index, request[3]);
        expect(answer.number == 0, "a plain read of what is uploaded is refused");
        fill_reply(on->reply, first_of_reply(request), request, answer.value);
    } else {
        expect(io401_write(&on->device, index, request[3], request + DATA_AT, downloaded_bytes(request)) == 0,
               "a plain write of what is downloaded is refused");
        fill_reply(on->reply, first_of_reply(request), request, 0);
    }
}

/* Eight bytes for a message that tells up to three times eight. */
static const char *text_of(const uint8_t *bytes)
{
    static char texts[3][3 * REQUEST_BYTES + 1];
    static size_t next = 0;
    char *text = texts[next++ % 3];
    for (size_t n = 0; n < REQUEST_BYTES; n++)
        snprintf(text + 3 * n, 4, " %02X", bytes[n]);
    return text;
}

static void expect_of(const uint8_t *request, bool holds, const char *what)
{
    if (!holds)
        fail("request%s %s", text_of(request), what);
}

static void check_buffer(const uint8_t *request, const uint8_t *reply, const uint8_t *wanted)
{
    if (memcmp(reply, wanted, REPLY_BYTES) != 0)
        fail("request%s leaves%s as its reply, the papers say%s", text_of(request), text_of(reply), text_of(wanted));
}

/* `request` has eight bytes, whatever length is told. */
static void try_request(const situation *from, const uint8_t *request, size_t request_length, size_t reply_length)
{
    const uint32_t number = refusal_of_request(request_length, reply_length);
    const bool is_replied = number == 0 && is_replied_to(from->stopped, request);
    exchange on, wanted;
    start_exchange(&on, from, request);
    start_exchange(&wanted, from, request);
    if (is_replied)
        reply_by_paper(&wanted, from);
    const io401_request_answer answer = io401_request(&on.device, on.request, request_length, on.reply, reply_length);
    check_number(answer.number, number, "request %02X of %04X:%02X with lengths %zu and %zu", request[0],
                 index_in(request), request[3], request_length, reply_length);
    expect_of(request, answer.length == (is_replied ? REPLY_BYTES : 0), "answers another length");
    expect_of(request, memcmp(on.request, wanted.request, SERVER_LENT) == 0, "is changed");
    check_buffer(request, on.reply, wanted.reply);
    expect_of(request, memcmp(on.reply, wanted.reply, SERVER_LENT) == 0, "writes beyond its reply");
    expect_of(request, is_same(&on.device, &wanted.device), "leaves another device than the plain call");
    const bool is_obeyed = !is_same(&on.device, &from->device);
    uploads_obeyed += is_obeyed && asked_by(request) == UPLOAD;
    downloads_obeyed += is_obeyed && asked_by(request) != UPLOAD;
}

static void try_asked(const situation *from, uint8_t first, unsigned index, unsigned sub, uint32_t data)
{
    uint8_t request[REQUEST_BYTES];
    const uint8_t named[] = {first, (uint8_t)index, (uint8_t)(index >> 8), (uint8_t)sub};
    memcpy(request, named, sizeof named);
    for (size_t n = 0; n < 4; n++)
        request[DATA_AT + n] = (uint8_t)(data >> (8 * n));
    try_request(from, request, REQUEST_BYTES, REPLY_BYTES);
}

/* Data that each size of entry takes, and that none of one byte with bounds does; bytes beyond it are full. */
static void try_first_bytes(const situation *from, unsigned index, unsigned sub)
{
    static const uint32_t DATA[] = {0, 0xFFFFFF01, 0xFFFF0001, 0xA6B7C8D9};
    for (unsigned first = 0; first <= UINT8_MAX; first++)
        for (size_t n = 0; n < sizeof DATA / sizeof DATA[0]; n++)
            try_asked(from, (uint8_t)first, index, sub, DATA[n]);
}

/* An upload, and downloads that tell no size or any of the four. */
static void try_served_entry(const situation *from, unsigned index, unsigned sub)
{
    static const uint8_t DOWNLOADS[] = {0x22, 0x2F, 0x2B, 0x27, 0x23};
    try_asked(from, 0x40, index, sub, 0xFFFFFFFF);
    for (size_t n = 0; n < sizeof DOWNLOADS; n++)
        for (size_t v = 0; v < VALUE_COUNT; v++)
            try_asked(from, DOWNLOADS[n], index, sub, VALUES[v]);
}

static void try_served_object(const situation *from, const object *at)
{
    for (unsigned sub = 0; sub <= at->last; sub++)
        try_served_entry(from, at->index, sub);
    for (unsigned sub = at->last + 1u; sub <= UINT8_MAX; sub++) {
        try_asked(from, 0x40, at->index, sub, 0);
        try_asked(from, 0x22, at->index, sub, 1);
        try_asked(from, 0x23, at->index, sub, 0xFFFFFFFF);
    }
    try_first_bytes(from, at->index, 0);
    try_first_bytes(from, at->index, at->last);
    try_first_bytes(from, at->index, at->last + 1u);
}

/* Entries that can be mapped, as in LAYOUTS and beside them, so that a mapping takes some and refuses others. */
static void try_served_mappings(const situation *from)
{
    static const uint32_t MAPPED_ENTRIES[] = {ENTRY(0x6200, 1, 8),   ENTRY(0x6320, 4, 32), ENTRY(0x6000, 16, 8),
                                              ENTRY(0x6401, 16, 16), ENTRY(0x6200, 1, 16), ENTRY(0x6422, 1, 32)};
    for (size_t n = 0; n < MAPPINGS; n++) {
        for (unsigned count = 0; count <= UINT8_MAX; count++)
            try_asked(from, count % 2 == 0 ? 0x22 : 0x2F, MAPPING_AT[n], 0, 0xFFFFFF00u | count);
        for (unsigned sub = 1; sub <= MAPPING_ENTRIES; sub++)
            for (size_t e = 0; e < sizeof MAPPED_ENTRIES / sizeof MAPPED_ENTRIES[0]; e++)
                try_asked(from, e % 2 == 0 ? 0x23 : 0x22, MAPPING_AT[n], sub, MAPPED_ENTRIES[e]);
    }
}

/* Used and unused values, some for a node that another entry has, some with a bit above the node. */
static void try_served_watches(const situation *from)
{
    static const uint32_t WATCH_VALUES[] = {WATCHED(7u, 300), WATCHED(8u, 1), WATCHED(9u, 65535),
                                            WATCHED(5u, 100), WATCHED(7u, 0), WATCHED(127u, 1),
                                            WATCHED(128u, 1), 0x01090001,     0x80010001};
    for (unsigned sub = 1; sub <= WATCHES; sub++) {
        for (size_t n = 0; n < sizeof WATCH_VALUES / sizeof WATCH_VALUES[0]; n++) {
            try_asked(from, 0x23, 0x1016, sub, WATCH_VALUES[n]);
            try_asked(from, 0x22, 0x1016, sub, WATCH_VALUES[n]);
        }
    }
}

/* Lengths 0 to 9 of both, and longer ones, over requests of every kind; 7 comes before 5, both before all else. */
static void try_request_lengths(const situation *from)
{
    static const size_t SERVER_LENGTHS[] = {0, 1, 2, 3, 4, 5, 6, 7, 8, 9, 15, 16, 17, 64, 255, 256, SERVER_LENT};
    static const uint8_t REQUESTS[][REQUEST_BYTES] = {
        {0x40, 0x22, 0x64, 0x01}, {0x40, 0x01, 0x60, 0x01}, {0x2F, 0x00, 0x62, 0x01, 0x33},
        {0x22, 0x05, 0x60, 0x00}, {0x23, 0x00, 0x60, 0x01}, {0x20, 0x00, 0x62, 0x01, 0x33},
        {0x60, 0x00, 0x62, 0x01}, {0x80, 0x00, 0x62, 0x01}, {0xFF, 0xFF, 0xFF, 0xFF, 0xFF, 0xFF, 0xFF, 0xFF},
    };
    const size_t count = sizeof SERVER_LENGTHS / sizeof SERVER_LENGTHS[0];
    for (size_t r = 0; r < sizeof REQUESTS / sizeof REQUESTS[0]; r++)
        for (size_t a = 0; a < count; a++)
            for (size_t b = 0; b < count; b++)
                try_request(from, REQUESTS[r], SERVER_LENGTHS[a], SERVER_LENGTHS[b]);
}

/* Every index, every entry, every sub-index above the last, every first byte, and every length up to nine. */
static void try_requests(const situation *from)
{
    for (unsigned index = 0; index <= UINT16_MAX; index++) {
        try_asked(from, 0x40, index, 1, 0);
        try_asked(from, 0x22, index, 1, 1);
        try_asked(from, 0x2F, index, UINT8_MAX, 0xFFFFFFFF);
    }
    for (size_t n = 0; n < OBJECT_COUNT; n++)
        try_served_object(from, &OBJECTS[n]);
    try_first_bytes(from, 0x0000, 0);
    try_first_bytes(from, 0x6001, 1);
    try_first_bytes(from, UINT16_MAX, UINT8_MAX);
    try_served_mappings(from);
    try_served_watches(from);
    try_request_lengths(from);
}

/* Both buffers have eight bytes; a wanted reply whose first byte is 0 is none. */
static void check_reply(io401_device *device, const uint8_t *request, const uint8_t *wanted)
{
    const size_t length = wanted[0] == 0 ? 0 : REPLY_BYTES;
    uint8_t reply[REPLY_BYTES], untouched[REPLY_BYTES];
    memset(reply, PATTERN, sizeof reply);
    memset(untouched, PATTERN, sizeof untouched);
    const io401_request_answer answer = io401_request(device, request, REQUEST_BYTES, reply, REPLY_BYTES);
    check_number(answer.number, 0, "request %02X of %04X:%02X", request[0], index_in(request), request[3]);
    expect_of(request, answer.length == length, "answers another length");
    check_buffer(request, reply, length == 0 ? untouched : wanted);
}

/* The replies that paper_server.h has worked out by hand; before each, the same request to a stopped copy. */
static void try_request_steps(void)
{
    static const uint8_t NO_REPLY[REPLY_BYTES] = {0};
    io401_device device, stopped, before;
    io401_create(&device, NODE);
    for (size_t n = 0; n < REQUEST_STEP_COUNT; n++) {
        const known_request *known = &REQUEST_STEPS[n];
        memcpy(&stopped, &device, sizeof stopped);
        io401_command(&stopped, IO401_STOP, NODE);
        memcpy(&before, &stopped, sizeof before);
        check_reply(&stopped, known->request, NO_REPLY);
        expect_of(known->request, is_same(&stopped, &before), "is obeyed while stopped");
        check_reply(&device, known->request, known->reply);
    }
}

/* Worked out by hand: channels 1 and 16 rise above their limit of 0; their source bits are uploaded once. */
static void try_uploaded_sources(void)
{
    static const uint8_t ENABLE[REQUEST_BYTES] = {0x2F, 0x23, 0x64, 0x00, 0x01};
    static const uint8_t ENABLED[REPLY_BYTES] = {0x60, 0x23, 0x64, 0x00};
    static const uint8_t SOURCES[REQUEST_BYTES] = {0x40, 0x22, 0x64, 0x01};
    static const uint8_t BOTH_SET[REPLY_BYTES] = {0x43, 0x22, 0x64, 0x01, 0x01, 0x80};
    static const uint8_t NONE_SET[REPLY_BYTES] = {0x43, 0x22, 0x64, 0x01};
    const uint8_t digital[DIGITAL_BYTES] = {0};
    int16_t analogue[INPUT_CHANNELS] = {0};
    uint8_t events[DIGITAL_BYTES];
    io401_device device;
    analogue[0] = analogue[15] = 5;
    io401_create(&device, NODE);
    io401_command(&device, IO401_START, NODE);
    check_reply(&device, ENABLE, ENABLED);
    const io401_sample_answer answer =
        io401_sample(&device, digital, DIGITAL_BYTES, analogue, INPUT_CHANNELS, events, DIGITAL_BYTES);
    expect(answer.events == 0x8001, "a download of 6423 does not bring events");
    check_reply(&device, SOURCES, BOTH_SET);
    check_reply(&device, SOURCES, NONE_SET);
}

#endif
