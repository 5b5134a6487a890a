/*
 * Every refusal of every call, from six states of the device, against the papers (paper.h). A refused
 * call must answer the paper's number and nothing else, and leave each byte of the device and of the
 * lent buffers. What stands just inside each bound must be accepted. And input lines under their filter,
 * sample by sample (filter.h), requests to the server, each against the plain call (server.h), and watched nodes
 * (watch.h, watch_runs.h). Ends at the first difference.
 */
#include "filter.h"
#include "messages.h"
#include "server.h"
#include "watch_runs.h"

#define SHORT 8u     /* data bytes with a value; no entry has more than four */
#define LARGE 1000u  /* bytes of the longest data that is lent */
#define HUGE_SIZE 1000000u

/* Reads and writes */

static void try_read(const situation *from, uint16_t index, uint8_t sub)
{
    const uint32_t wanted = refusal_of_read(from->stopped, index, sub);
    const object *at = listed_at(index);
    io401_device device;
    memcpy(&device, &from->device, sizeof device);
    const io401_read_answer answer = io401_read(&device, index, sub);
    check_number(answer.number, wanted, "read %04X:%02X", index, sub);
    if (wanted != 0) {
        expect(answer.value == 0 && answer.size == 0, "a refused read answers a value or a size");
    } else if (is_entry_count(at, sub)) {
        expect(answer.value == at->last && answer.size == 1, "an entry count is wrong");
    } else {
        expect(answer.size == size_of(at, sub), "a read answers another size than the entry's");
    }
    if (wanted == 0 && at->takes == AS_MAPPED)
        expect(answer.value == mapped_number(&from->mappings[mapping_at(index)], sub), "a mapping reads otherwise");
    if (wanted == 0 && at->takes == AS_WATCHED && sub > 0)
        expect(answer.value == from->watches[sub - 1].value, "an entry of 1016 reads otherwise");
    if (wanted == 0 && index == 0x2003)
        expect(answer.value == from->filter_length, "the filter length reads otherwise");
    if (wanted == 0 && index == 0x6422 && sub == 1)
        expect(io401_read(&device, index, sub).value == 0, "a read of 6422:1 leaves a source bit");
    else
        check_unchanged("read", index, sub, &device, &from->device);
}

/* What an accepted write leaves: the value, but outputs take only the bits of their mask. */
static uint32_t value_after(const situation *from, uint16_t index, uint8_t sub, uint32_t value)
{
    io401_device device;
    memcpy(&device, &from->device, sizeof device);
    for (size_t n = 0; n < 4; n++) {
        if (OUTPUT_AND_MASK[n][0] == index) {
            const uint32_t old = io401_read(&device, index, sub).value;
            const uint32_t mask = io401_read(&device, OUTPUT_AND_MASK[n][1], sub).value;
            return (old & ~mask) | (value & mask);
        }
    }
    return value;
}

/* `bytes` has SHORT elements; data that is longer goes on with zeros. */
static void try_write_for(const situation *from, uint16_t index, uint8_t sub, const uint8_t *bytes, size_t length,
                          uint32_t wanted)
{
    static uint8_t lent[LARGE], kept[LARGE];
    io401_device device;
    memcpy(&device, &from->device, sizeof device);
    memcpy(lent, bytes, SHORT);
    memcpy(kept, bytes, SHORT);
    const uint32_t number = io401_write(&device, index, sub, lent, length);
    check_number(number, wanted, "write %04X:%02X with %zu bytes", index, sub, length);
    expect(memcmp(lent, kept, LARGE) == 0, "a write changes its data");
    if (wanted != 0) {
        check_unchanged("refused write", index, sub, &device, &from->device);
        return;
    }
    const io401_read_answer after = io401_read(&device, index, sub);
    if (after.value != value_after(from, index, sub, number_of(bytes, length)))
        fail("an accepted write to %04X:%02X reads %08lX after it", index, sub, (unsigned long)after.value);
}

static void try_write(const situation *from, uint16_t index, uint8_t sub, const uint8_t *bytes, size_t length)
{
    try_write_for(from, index, sub, bytes, length,
                  refusal_of_write(from->stopped, from->mappings, from->watches, index, sub, bytes, length));
}

static void put(uint8_t bytes[SHORT], uint32_t value)
{
    for (size_t n = 0; n < SHORT; n++)
        bytes[n] = n < sizeof value ? (uint8_t)(value >> (8 * n)) : 0;
}

/* The helper never accepts what does not fit: five bytes stand for it, more than any entry has. */
static void try_write_value(const situation *from, uint16_t index, uint8_t sub, uint32_t value, size_t size)
{
    uint8_t bytes[SHORT];
    io401_device device;
    memcpy(&device, &from->device, sizeof device);
    put(bytes, value);
    const bool is_cut = size > 4 || (size > 0 && size < 4 && value >= UINT64_C(1) << (8 * size));
    const uint32_t wanted =
        refusal_of_write(from->stopped, from->mappings, from->watches, index, sub, bytes, is_cut ? 5 : size);
    check_number(io401_write_value(&device, index, sub, value, size), wanted, "write_value %04X:%02X = %lX, size %zu",
                 index, sub, (unsigned long)value, size);
    if (wanted != 0)
        check_unchanged("refused write_value", index, sub, &device, &from->device);
    if (is_cut)
        expect(wanted != 0, "write_value accepts a value that does not fit its size");
    if (wanted == 0)
        expect(io401_read(&device, index, sub).value == value_after(from, index, sub, value),
               "write_value writes another value");
}

static void try_entry(const situation *from, uint16_t index, uint8_t sub)
{
    uint8_t bytes[SHORT];
    try_read(from, index, sub);
    for (size_t n = 0; n < VALUE_COUNT; n++) {
        put(bytes, VALUES[n]);
        try_write(from, index, sub, bytes, size_of(listed_at(index), sub));
    }
    put(bytes, 0xFFFFFFFF);
    for (size_t length = 0; length <= SHORT; length++)
        try_write(from, index, sub, bytes, length);
    put(bytes, 0);
    for (size_t length = 0; length <= SHORT; length++)
        try_write(from, index, sub, bytes, length);
    try_write(from, index, sub, bytes, LARGE);
}

static void try_helper(const situation *from, uint16_t index, uint8_t sub)
{
    for (size_t n = 0; n < VALUE_COUNT; n++) {
        for (size_t size = 0; size <= SHORT; size++)
            try_write_value(from, index, sub, VALUES[n], size);
        try_write_value(from, index, sub, VALUES[n], HUGE_SIZE);
        try_write_value(from, index, sub, VALUES[n], SIZE_MAX);
    }
}

static void try_object(const situation *from, const object *at)
{
    uint8_t bytes[SHORT];
    for (unsigned sub = 0; sub <= at->last; sub++)
        try_entry(from, at->index, (uint8_t)sub);
    put(bytes, 0xFFFFFFFF);
    for (unsigned sub = at->last + 1u; sub <= UINT8_MAX; sub++) {
        try_read(from, at->index, (uint8_t)sub);
        try_write(from, at->index, (uint8_t)sub, bytes, at->size);
        try_write(from, at->index, (uint8_t)sub, bytes, 0);
    }
    try_helper(from, at->index, 0);
    try_helper(from, at->index, 1);
    try_helper(from, at->index, at->last);
    try_helper(from, at->index, UINT8_MAX);
}

static void try_dictionary(const situation *from)
{
    const uint8_t zeros[SHORT] = {0};
    for (unsigned index = 0; index <= UINT16_MAX; index++) {
        try_read(from, (uint16_t)index, 1);
        try_write(from, (uint16_t)index, 1, zeros, 1);
        try_write(from, (uint16_t)index, UINT8_MAX, zeros, SHORT);
    }
    for (size_t n = 0; n < OBJECT_COUNT; n++)
        try_object(from, &OBJECTS[n]);
    for (size_t n = 0; n < KNOWN_WRITE_COUNT; n++) {
        const known_write *known = &KNOWN_WRITES[n];
        try_write_for(from, known->index, known->sub, known->bytes, known->length,
                      from->stopped ? NODE_STOPPED : known->number);
    }
}

/* Mappings */

static void try_mapping_value(const situation *from, uint16_t index, uint8_t sub, uint32_t value)
{
    uint8_t bytes[SHORT];
    put(bytes, value);
    try_write(from, index, sub, bytes, sub == 0 ? 1 : 4);
}

/* Every listed object, indices beside them, and those of CiA 301's dummy entries, on both sides of each bound. */
static void try_mapping_of(const situation *from, uint16_t index, uint8_t sub, uint16_t mapped)
{
    static const uint8_t SUBS[] = {0, 1, 2, 4, 5, 8, 9, 16, 17, 0x80, 0xFF};
    static const uint8_t BITS[] = {0, 1, 7, 8, 9, 15, 16, 17, 24, 31, 32, 33, 64, 0xFF};
    for (size_t s = 0; s < sizeof SUBS; s++)
        for (size_t b = 0; b < sizeof BITS; b++)
            try_mapping_value(from, index, sub, ENTRY(mapped, SUBS[s], BITS[b]));
}

static void try_mapping(const situation *from, uint16_t index)
{
    for (unsigned count = 0; count <= UINT8_MAX; count++)
        try_mapping_value(from, index, 0, count);
    for (uint8_t sub = 1; sub <= MAPPING_ENTRIES; sub++) {
        for (uint16_t dummy = 0; dummy <= 8; dummy++)
            try_mapping_of(from, index, sub, dummy);
        for (size_t n = 0; n < OBJECT_COUNT; n++)
            try_mapping_of(from, index, sub, OBJECTS[n].index);
    }
    for (unsigned mapped = 0; mapped <= UINT16_MAX; mapped++)
        try_mapping_value(from, index, 1, ENTRY(mapped, 1u, 8u << mapped % 3));
}

static void try_mappings(const situation *from)
{
    for (size_t n = 0; n < MAPPINGS; n++)
        try_mapping(from, MAPPING_AT[n]);
}

/* The steps that paper_mappings.h has worked out by hand. */
static void try_mapping_steps(void)
{
    situation from = situations[FRESH];
    for (size_t n = 0; n < MAPPING_STEP_COUNT; n++) {
        const known_write *known = &MAPPING_STEPS[n];
        mapping *map = &from.mappings[mapping_at(known->index)];
        try_write(&from, known->index, known->sub, known->bytes, known->length);
        try_write_for(&from, known->index, known->sub, known->bytes, known->length, known->number);
        io401_write(&from.device, known->index, known->sub, known->bytes, known->length);
        if (known->number == 0 && known->sub == 0)
            map->count = known->bytes[0];
        else if (known->number == 0)
            map->entries[known->sub - 1] = number_of(known->bytes, 4);
    }
}

/* The filter length */

/* Every value, and some of them with every sub-index and with data of every length. */
static void try_filter_length(const situation *from)
{
    static const uint8_t SOME[] = {0, 1, 2, 3, 254, 255};
    uint8_t bytes[SHORT];
    for (unsigned value = 0; value <= UINT8_MAX; value++) {
        put(bytes, value);
        try_write(from, 0x2003, 0, bytes, 1);
    }
    for (unsigned sub = 0; sub <= UINT8_MAX; sub++) {
        try_read(from, 0x2003, (uint8_t)sub);
        for (size_t n = 0; n < sizeof SOME; n++) {
            put(bytes, SOME[n]);
            for (size_t length = 0; length <= SHORT; length++)
                try_write(from, 0x2003, (uint8_t)sub, bytes, length);
        }
    }
}

/* Its write changes nothing else, counts included: with the old length written again, the device is as it was. */
static void try_filter_length_alone(const situation *from)
{
    for (unsigned length = 1; length <= UINT8_MAX && !from->stopped; length++) {
        io401_device device;
        memcpy(&device, &from->device, sizeof device);
        check_number(io401_write_value(&device, 0x2003, 0, length, 1), 0, "write_value 2003:00 = %02X", length);
        check_number(io401_write_value(&device, 0x2003, 0, from->filter_length, 1), 0, "write_value 2003:00 again");
        check_unchanged("two writes of", 0x2003, 0, &device, &from->device);
    }
}

/* Samples and drives */

static void try_sample(const situation *from, size_t digital_length, size_t analogue_length, size_t event_length)
{
    uint8_t digital[LENT], kept_digital[LENT], events[LENT], kept_events[LENT];
    int16_t analogue[LENT], kept_analogue[LENT];
    io401_device device;
    const uint32_t wanted = refusal_of_sample(digital_length, analogue_length, event_length);
    const size_t filled = wanted == 0 ? DIGITAL_BYTES : 0;
    memcpy(&device, &from->device, sizeof device);
    memset(digital, PATTERN, sizeof digital);
    memset(kept_digital, PATTERN, sizeof kept_digital);
    memset(analogue, PATTERN, sizeof analogue);
    memset(kept_analogue, PATTERN, sizeof kept_analogue);
    memset(events, PATTERN, sizeof events);
    memset(kept_events, PATTERN, sizeof kept_events);
    const io401_sample_answer answer =
        io401_sample(&device, digital, digital_length, analogue, analogue_length, events, event_length);
    check_number(answer.number, wanted, "sample with lengths %zu, %zu and %zu", digital_length, analogue_length,
                 event_length);
    expect(memcmp(digital, kept_digital, sizeof digital) == 0, "a sample changes the lent digital inputs");
    expect(memcmp(analogue, kept_analogue, sizeof analogue) == 0, "a sample changes the lent analogue inputs");
    expect(memcmp(events + filled, kept_events, LENT - filled) == 0, "a sample writes where no event goes");
    if (wanted != 0) {
        expect(answer.events == 0, "a refused sample answers events");
        expect(is_same(&device, &from->device), "a refused sample changes the device");
    } else if (!from->stopped) {
        expect(io401_read(&device, 0x6401, 16).value == 0xA5A5, "an accepted sample is not read back");
    }
}

static void try_drive(const situation *from, size_t line_length, size_t channel_length)
{
    uint8_t lines[LENT], kept_lines[LENT];
    int16_t channels[LENT], kept_channels[LENT];
    io401_device device;
    const uint32_t wanted = refusal_of_drive(line_length, channel_length);
    const size_t filled_lines = wanted == 0 ? DIGITAL_BYTES : 0;
    const size_t filled_channels = wanted == 0 ? OUTPUT_CHANNELS : 0;
    memcpy(&device, &from->device, sizeof device);
    memset(lines, PATTERN, sizeof lines);
    memset(kept_lines, PATTERN, sizeof kept_lines);
    memset(channels, PATTERN, sizeof channels);
    memset(kept_channels, PATTERN, sizeof kept_channels);
    const uint32_t number = io401_drive(&device, lines, line_length, channels, channel_length);
    check_number(number, wanted, "drive with lengths %zu and %zu", line_length, channel_length);
    expect(memcmp(lines + filled_lines, kept_lines, LENT - filled_lines) == 0, "a drive writes beside the lines");
    expect(memcmp(channels + filled_channels, kept_channels, (LENT - filled_channels) * sizeof channels[0]) == 0,
           "a drive writes beside the channels");
    expect(is_same(&device, &from->device), "a drive changes the device");
}

static void try_lengths(const situation *from)
{
    for (size_t a = 0; a < LENGTH_COUNT; a++) {
        for (size_t b = 0; b < LENGTH_COUNT; b++) {
            try_drive(from, LENGTHS[a], LENGTHS[b]);
            for (size_t c = 0; c < LENGTH_COUNT; c++)
                try_sample(from, LENGTHS[a], LENGTHS[b], LENGTHS[c]);
        }
    }
}

/* Commands, causes and creates */

static void check_obeyed(const situation *from, io401_device *device, uint8_t code)
{
    static io401_device fresh;
    io401_create(&fresh, NODE);
    const uint8_t state = io401_state(device);
    if (code == IO401_START)
        expect(state == IO401_STATE_OPERATIONAL, "start leaves another state");
    else if (code == IO401_STOP)
        expect(state == IO401_STATE_STOPPED, "stop leaves another state");
    else
        expect(state == IO401_STATE_PRE_OPERATIONAL, "a command leaves another state than pre-operational");
    if (code != IO401_STOP)
        expect(io401_read(device, 0x2003, 0).value == (code == IO401_RESET_NODE ? FRESH_LENGTH : from->filter_length),
               "a command leaves another filter length");
    if (code == IO401_RESET_NODE)
        expect(is_same(device, &fresh), "reset node leaves another device than a fresh one");
    if (code != IO401_RESET_NODE)
        check_watches_kept(from, device, code == IO401_RESET_COMMUNICATION);
    if (code == IO401_RESET_COMMUNICATION) {
        check_empty(device);
        expect(io401_read(device, 0x1029, 1).value == 0, "reset communication leaves 1029:1");
        expect((io401_read(device, 0x1001, 0).value & 0x10) == 0, "reset communication leaves the loss");
        expect(from->in_fault || memcmp(device->words, from->device.words, sizeof device->words) == 0,
               "reset communication changes a line");
    }
}

static void try_command(const situation *from, uint8_t code, uint8_t node)
{
    io401_device device;
    const uint32_t wanted = refusal_of_command(code, node);
    memcpy(&device, &from->device, sizeof device);
    const uint32_t number = io401_command(&device, code, node);
    check_number(number, wanted, "command %u for node %u", code, node);
    if (wanted == 0 && (node == IO401_ALL_NODES || node == NODE))
        check_obeyed(from, &device, code);
    else if (!is_same(&device, &from->device))
        fail("command %u, refused or for another node, %u, changes the device", code, node);
}

/* Raising a present cause and clearing an absent one change nothing. */
static void try_cause(const situation *from, bool loss)
{
    io401_device once, twice;
    memcpy(&once, &from->device, sizeof once);
    expect(io401_raise(&once, loss) == 0, "a raise is refused");
    memcpy(&twice, &once, sizeof twice);
    expect(io401_raise(&twice, loss) == 0 && is_same(&once, &twice), "a second raise changes the device");
    expect(io401_clear(&once, loss) == 0, "a clear is refused");
    memcpy(&twice, &once, sizeof twice);
    expect(io401_clear(&twice, loss) == 0 && is_same(&once, &twice), "a second clear changes the device");
    if (!from->stopped)
        expect(io401_read(&once, 0x2003, 0).value == from->filter_length, "a cause changes the filter length");
    check_watches_kept(from, &once, false);
    calls_tried += 4;
}

static void check_fresh(io401_device *device, uint8_t number)
{
    io401_device before;
    memcpy(&before, device, sizeof before);
    expect(io401_state(device) == IO401_STATE_PRE_OPERATIONAL, "a fresh device is not pre-operational");
    expect(device->octets[0] == number, "a fresh device has another node number");
    for (size_t n = 0; n < OBJECT_COUNT; n++)
        for (unsigned sub = is_entry_count(&OBJECTS[n], 0); sub <= OBJECTS[n].last; sub++)
            if (io401_read(device, OBJECTS[n].index, (uint8_t)sub).value != OBJECTS[n].fresh)
                fail("a fresh device's %04X:%02X is not at its default", OBJECTS[n].index, sub);
    expect(is_same(device, &before), "reads change a fresh device");
    expect(io401_command(device, IO401_STOP, number) == 0, "a fresh device refuses a stop");
    expect(io401_state(device) == IO401_STATE_STOPPED, "a fresh device does not know its number");
}

static bool have_same_arrays(const io401_device *a, const io401_device *b)
{
    return memcmp(a->octets, b->octets, sizeof a->octets) == 0 && memcmp(a->flags, b->flags, sizeof a->flags) == 0 &&
           memcmp(a->words, b->words, sizeof a->words) == 0 && memcmp(a->limits, b->limits, sizeof a->limits) == 0 &&
           memcmp(a->deltas, b->deltas, sizeof a->deltas) == 0 && memcmp(a->values, b->values, sizeof a->values) == 0;
}

/* A refused create fills the device too, whatever the memory held. */
static void try_create(uint8_t number, int fill)
{
    io401_device device, usual;
    const uint32_t wanted = refusal_of_create(number);
    const uint8_t kept = wanted == 0 ? number : LAST_NODE;
    memset((void *)&device, fill, sizeof device);
    memset((void *)&usual, 0, sizeof usual);
    io401_create(&usual, kept);
    check_number(io401_create(&device, number), wanted, "create %u", number);
    expect(have_same_arrays(&device, &usual), "what the memory held, or a refusal, changes a fresh device");
    check_fresh(&device, kept);
}

static void try_creates(void)
{
    situation_name = "create";
    for (unsigned number = 0; number <= UINT8_MAX; number++) {
        try_create((uint8_t)number, 0);
        try_create((uint8_t)number, 0xFF);
        try_create((uint8_t)number, PATTERN);
    }
}

static void try_situation(const situation *from)
{
    situation_name = from->name;
    try_dictionary(from);
    try_mappings(from);
    try_filter_length(from);
    try_filter_length_alone(from);
    try_lengths(from);
    try_messages(from);
    try_requests(from);
    try_watches(from);
    for (unsigned code = 0; code <= UINT8_MAX; code++)
        for (unsigned node = 0; node <= UINT8_MAX; node++)
            try_command(from, (uint8_t)code, (uint8_t)node);
    try_cause(from, IO401_INTERNAL_FAILURE);
    try_cause(from, IO401_COMMUNICATION_LOSS);
}

/* A few accepted effects, and the header's names */

static uint8_t driven_byte(io401_device *device)
{
    uint8_t lines[DIGITAL_BYTES];
    int16_t channels[OUTPUT_CHANNELS];
    expect(io401_drive(device, lines, DIGITAL_BYTES, channels, OUTPUT_CHANNELS) == 0, "a drive is refused");
    return lines[0];
}

/* The papers' bench case 4 with a polarity written first: an output written in a fault is driven after it. */
static void try_fault(uint8_t polarity, uint8_t before, uint8_t in_fault, uint8_t after)
{
    io401_device device;
    io401_create(&device, NODE);
    io401_write_value(&device, 0x6202, 1, polarity, 1);
    io401_write_value(&device, 0x6207, 1, 0x02, 1);
    io401_write_value(&device, 0x6200, 1, 0x01, 1);
    expect(driven_byte(&device) == before, "what was written before a fault is not driven");
    io401_raise(&device, IO401_INTERNAL_FAILURE);
    io401_write_value(&device, 0x6200, 1, 0x04, 1);
    expect(driven_byte(&device) == in_fault, "a fault does not drive the error value");
    expect(io401_read(&device, 0x6200, 1).value == 0x04, "6200:1 does not read what was written in a fault");
    io401_clear(&device, IO401_INTERNAL_FAILURE);
    expect(driven_byte(&device) == after, "the end of a fault does not drive what was written in it");
}

/* The paper's bench case 9: events at 11 and 22, and their source bit is read once. */
static void try_events(void)
{
    static const int16_t SAMPLES[] = {10, 11, 20, 22};
    const uint8_t digital[DIGITAL_BYTES] = {0};
    int16_t analogue[INPUT_CHANNELS] = {0};
    uint8_t events[DIGITAL_BYTES];
    io401_device device;
    io401_create(&device, NODE);
    io401_command(&device, IO401_START, IO401_ALL_NODES);
    io401_write_value(&device, 0x6423, 0, 1, 1);
    io401_write_value(&device, 0x6421, 1, 0x04, 1);
    io401_write_value(&device, 0x6426, 1, 10, 4);
    for (size_t n = 0; n < 4; n++) {
        analogue[0] = SAMPLES[n];
        const io401_sample_answer answer =
            io401_sample(&device, digital, DIGITAL_BYTES, analogue, INPUT_CHANNELS, events, DIGITAL_BYTES);
        expect(answer.events == n % 2, "bench case 9 has another event");
    }
    expect(io401_read(&device, 0x6422, 1).value == 1, "the source bit is not set");
    expect(io401_read(&device, 0x6422, 1).value == 0, "the source bit is not cleared by its read");
}

static void check_names(void)
{
    static const uint32_t NAMED[][2] = {
        {IO401_ABORT_STOPPED, NODE_STOPPED},          {IO401_ABORT_NO_OBJECT, INDEX_NOT_LISTED},
        {IO401_ABORT_NO_SUBINDEX, SUB_INDEX_ABOVE},   {IO401_ABORT_READ_ONLY, READ_ONLY_ENTRY},
        {IO401_ABORT_TOO_LONG, DATA_TOO_LONG},        {IO401_ABORT_TOO_SHORT, DATA_TOO_SHORT},
        {IO401_ABORT_VALUE, VALUE_OUTSIDE},           {IO401_ABORT_VALUE_TOO_HIGH, VALUE_ABOVE},
        {IO401_ABORT_VALUE_TOO_LOW, VALUE_BELOW},     {IO401_BAD_NODE, NODE_NUMBER},
        {IO401_BAD_COMMAND, COMMAND_CODE},            {IO401_BAD_DIGITAL_LENGTH, DIGITAL_LENGTH},
        {IO401_BAD_ANALOGUE_LENGTH, ANALOGUE_LENGTH}, {IO401_BAD_EVENT_LENGTH, EVENT_LENGTH},
        {IO401_BAD_DRIVE_LENGTH, DRIVE_LENGTH},       {IO401_BAD_FRAME_LENGTH, FRAME_LENGTH},
        {IO401_FRAME_BYTES, TRANSMIT_BYTES},          {IO401_ABORT_COUNT_NOT_ZERO, ENTRY_WHILE_COUNTED},
        {IO401_ABORT_NOT_MAPPABLE, ENTRY_NOT_MAPPABLE}, {IO401_ABORT_MAPPING_TOO_LONG, MAPPING_TOO_LONG},
        {IO401_ABORT_UNKNOWN_REQUEST, UNKNOWN_REQUEST}, {IO401_BAD_REQUEST_LENGTH, REQUEST_LENGTH},
        {IO401_BAD_REPLY_LENGTH, REPLY_LENGTH},         {IO401_REQUEST_BYTES, REQUEST_BYTES},
        {IO401_REPLY_BYTES, REPLY_BYTES},               {IO401_ABORT_NODE_TWICE, NODE_TWICE},
        {IO401_WATCH_ENTRIES, WATCHES},
    };
    for (size_t n = 0; n < sizeof NAMED / sizeof NAMED[0]; n++)
        expect(NAMED[n][0] == NAMED[n][1], "a name of the header has another number than the paper's");
}

int main(void)
{
    check_names();
    try_creates();
    prepare();
    for (int n = 0; n < SITUATION_COUNT; n++)
        try_situation(&situations[n]);
    expect(frames_obeyed > 0 && frames_filled > 0, "no frame moved anything");
    expect(downloads_obeyed > 0 && uploads_obeyed > 0, "no request moved anything");
    expect(losses_raised > 0 && losses_found > 0, "no watch was reached");
    situation_name = "steps by hand";
    try_mapping_steps();
    try_request_steps();
    try_watch_steps();
    try_lost_nodes();
    try_watch_runs();
    try_filters();
    situation_name = "bench cases";
    try_fault(0x00, 0x01, 0x02, 0x04);
    try_fault(0x02, 0x03, 0x00, 0x06);
    try_events();
    try_received_frame();
    try_frame_to_send();
    try_uploaded_sources();
    check_entries_built();
    check_watches_built();
    printf("refusals: %lu calls from %d states answer what the papers say\n", calls_tried, (int)SITUATION_COUNT);
    return 0;
}
