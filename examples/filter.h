/*
 * Input lines under their filter, sample by sample: the calls that refusals.c tries against document 01's input
 * machine and document 02, Item 2.
 */
#ifndef FILTER_H
#define FILTER_H

#include "trial.h"

/* One line has its filter on. The others have none, and change with every sample: an event of each, if operational. */
typedef struct filtered {
    io401_device device;
    uint8_t line;
    bool others; /* what the others show */
} filtered;

static void set_line(uint8_t bytes[DIGITAL_BYTES], unsigned line, bool bit)
{
    const uint8_t mask = (uint8_t)(1u << (line - 1) % 8);
    uint8_t *byte = &bytes[(line - 1) / 8];
    *byte = (uint8_t)(bit ? *byte | mask : *byte & ~mask);
}

static void set_lines(uint8_t bytes[DIGITAL_BYTES], bool others, unsigned line, bool bit)
{
    memset(bytes, others ? 0xFF : 0, DIGITAL_BYTES);
    set_line(bytes, line, bit);
}

static void write_length(io401_device *device, uint8_t length)
{
    check_number(io401_write_value(device, 0x2003, 0, length, 1), 0, "write_value 2003:00 = %u", length);
}

static void check_inputs(io401_device *device, const uint8_t wanted[DIGITAL_BYTES])
{
    for (uint8_t n = 0; n < DIGITAL_BYTES; n++) {
        const io401_read_answer answer = io401_read(device, 0x6000, (uint8_t)(n + 1));
        check_number(answer.number, 0, "read 6000:%02X", n + 1);
        if (answer.value != wanted[n])
            fail("6000:%02X reads %02lX, the papers say %02X", n + 1, (unsigned long)answer.value, wanted[n]);
    }
}

static void take_sample(io401_device *device, const uint8_t digital[DIGITAL_BYTES],
                        const uint8_t wanted[DIGITAL_BYTES])
{
    const int16_t analogue[INPUT_CHANNELS] = {0};
    uint8_t events[DIGITAL_BYTES];
    const io401_sample_answer answer =
        io401_sample(device, digital, DIGITAL_BYTES, analogue, INPUT_CHANNELS, events, DIGITAL_BYTES);
    check_number(answer.number, 0, "sample");
    expect(answer.events == 0, "a sample of lines answers an analogue event");
    for (size_t n = 0; n < DIGITAL_BYTES; n++)
        if (events[n] != wanted[n])
            fail("events in byte %zu are %02X, the papers say %02X", n + 1, events[n], wanted[n]);
}

/* The line shows a bit; what it reads then, and whether it has an event. */
static void check_sample(filtered *on, bool shows, bool reads, bool has_event)
{
    uint8_t digital[DIGITAL_BYTES], events[DIGITAL_BYTES], inputs[DIGITAL_BYTES];
    on->others = !on->others;
    set_lines(digital, on->others, on->line, shows);
    set_lines(events, true, on->line, has_event);
    set_lines(inputs, on->others, on->line, reads);
    take_sample(&on->device, digital, events);
    check_inputs(&on->device, inputs);
}

/* The same bit several times, none of which settles the line. */
static void check_samples(filtered *on, unsigned times, bool shows, bool reads)
{
    for (unsigned n = 0; n < times; n++)
        check_sample(on, shows, reads, false);
}

/* Not operational: no line has an event. A stopped node does not read. */
static void check_quiet_sample(filtered *on, bool shows, bool reads, bool is_stopped)
{
    const uint8_t none[DIGITAL_BYTES] = {0};
    uint8_t digital[DIGITAL_BYTES], inputs[DIGITAL_BYTES];
    on->others = !on->others;
    set_lines(digital, on->others, on->line, shows);
    set_lines(inputs, on->others, on->line, reads);
    take_sample(&on->device, digital, none);
    if (!is_stopped)
        check_inputs(&on->device, inputs);
}

static void command(filtered *on, uint8_t code)
{
    check_number(io401_command(&on->device, code, NODE), 0, "command %u", code);
}

static void set_filter(filtered *on)
{
    check_number(io401_write_value(&on->device, 0x6038, on->line, 1, 1), 0, "write_value 6038:%02X", on->line);
}

/* An operational device, the line's filter on and its count at 0. */
static void start_filtered(filtered *on, uint8_t line, uint8_t length)
{
    static char name[64];
    snprintf(name, sizeof name, "line %u, first with a filter length of %u", line, length);
    situation_name = name;
    check_number(io401_create(&on->device, NODE), 0, "create");
    on->line = line;
    on->others = false;
    set_filter(on);
    write_length(&on->device, length);
    command(on, IO401_START);
}

/* "c rises by 1; at" the length "f becomes s and c 0", up and down, and again after "s = f, c becomes 0". */
static void try_settling(uint8_t line, uint8_t length)
{
    filtered on;
    start_filtered(&on, line, length);
    for (int turn = 0; turn < 4; turn++) {
        const bool before = turn % 2 == 1;
        if (turn >= 2) {
            check_samples(&on, length - 1u, !before, before);
            check_sample(&on, before, before, false);
        }
        check_samples(&on, length - 1u, !before, before);
        check_sample(&on, !before, !before, true);
    }
    check_sample(&on, false, false, false);
}

/* A length, a count that stands under it, a length written then, and which differing sample after that settles. */
typedef struct change {
    uint8_t before;
    uint8_t count;
    uint8_t after;
    uint8_t settling;
} change;

static const change CHANGES[] = {
    /* shorter: the count has passed it, stands at it, reaches it, and has yet to */
    {10, 6, 1, 1}, {10, 6, 3, 1}, {10, 6, 5, 1}, {10, 6, 6, 1}, {10, 6, 7, 1}, {10, 6, 8, 2}, {10, 9, 1, 1},
    {3, 1, 2, 1}, {3, 2, 1, 1}, {3, 2, 2, 1},
    /* the same again, longer, and as long as can be */
    {3, 2, 3, 1}, {10, 6, 10, 4}, {3, 2, 4, 2}, {10, 9, 20, 11}, {2, 1, 255, 254}, {3, 2, 255, 253},
    /* high counts */
    {255, 254, 1, 1}, {255, 254, 128, 1}, {255, 254, 254, 1}, {255, 254, 255, 1}, {255, 253, 254, 1},
    {254, 253, 255, 2}, {255, 127, 128, 1}, {255, 127, 129, 2}, {255, 128, 127, 1}, {255, 200, 72, 1},
    /* nothing is counted */
    {1, 0, 4, 4}, {255, 0, 2, 2}, {4, 0, 1, 1},
};
#define CHANGE_COUNT (sizeof CHANGES / sizeof CHANGES[0])

/* The write is no edge, and settles nothing by itself. */
static void start_changed(filtered *on, uint8_t line, const change *by)
{
    uint8_t inputs[DIGITAL_BYTES];
    start_filtered(on, line, by->before);
    check_samples(on, by->count, true, false);
    write_length(&on->device, by->after);
    set_lines(inputs, on->others, line, false);
    check_inputs(&on->device, inputs);
}

/* "a line settles at the first differing sample whose count reaches or passes the new length" */
static void try_change(uint8_t line, const change *by)
{
    filtered on;
    start_changed(&on, line, by);
    check_samples(&on, by->settling - 1u, true, false);
    check_sample(&on, true, true, true);
    check_sample(&on, true, true, false);
}

/* An agreeing sample after the write: the count begins again, under the new length. */
static void try_change_at_rest(uint8_t line, const change *by)
{
    filtered on;
    start_changed(&on, line, by);
    check_sample(&on, false, false, false);
    check_samples(&on, by->after - 1u, true, false);
    check_sample(&on, true, true, true);
}

/* The old length again before any sample: as if none had been written. */
static void try_change_back(uint8_t line, const change *by)
{
    filtered on;
    start_changed(&on, line, by);
    write_length(&on.device, by->before);
    check_samples(&on, by->before - by->count - 1u, true, false);
    check_sample(&on, true, true, true);
}

/* Reset communication keeps length and count, reset node brings a fresh device's. */
static void try_resets(uint8_t line)
{
    filtered on;
    start_filtered(&on, line, 7);
    check_samples(&on, 5, true, false);
    command(&on, IO401_RESET_COMMUNICATION);
    command(&on, IO401_START);
    check_samples(&on, 1, true, false);
    check_sample(&on, true, true, true);
    check_samples(&on, 5, false, true);
    command(&on, IO401_RESET_NODE);
    on.others = false;
    set_filter(&on);
    command(&on, IO401_START);
    check_samples(&on, 2, true, false);
    check_sample(&on, true, true, true);
}

/* Samples count in every state. What settles while the node is not operational is no event, and none later. */
static void try_states(uint8_t line)
{
    filtered on;
    start_filtered(&on, line, 4);
    check_sample(&on, true, false, false);
    command(&on, IO401_PRE_OPERATIONAL);
    check_quiet_sample(&on, true, false, false);
    command(&on, IO401_STOP);
    check_quiet_sample(&on, true, false, true);
    command(&on, IO401_START);
    check_sample(&on, true, true, true);
    check_samples(&on, 2, false, true);
    command(&on, IO401_PRE_OPERATIONAL);
    check_quiet_sample(&on, false, true, false);
    check_quiet_sample(&on, false, false, false);
    command(&on, IO401_START);
    check_samples(&on, 2, false, false);
}

/* Operational, with all lines under their filters. */
static void start_all_filtered(io401_device *device, uint8_t length)
{
    situation_name = "all lines filtered";
    check_number(io401_create(device, NODE), 0, "create");
    for (uint8_t sub = 1; sub <= 4; sub++)
        check_number(io401_write_value(device, 0x6123, sub, ONES, 4), 0, "write_value 6123:%02X", sub);
    write_length(device, length);
    check_number(io401_command(device, IO401_START, NODE), 0, "command 1");
}

/* Every count is 0 when fresh: all lines show 1 from the first sample on, and settle together. */
static void try_fresh_counts(void)
{
    const uint8_t none[DIGITAL_BYTES] = {0};
    uint8_t all[DIGITAL_BYTES];
    io401_device device;
    memset(all, 0xFF, sizeof all);
    start_all_filtered(&device, 255);
    for (unsigned sample = 1; sample <= 255; sample++)
        take_sample(&device, all, sample == 255 ? all : none);
    check_inputs(&device, all);
}

/*
 * All lines under their filters, and line n shows 1 from sample n on. The length is 200, but 100 from sample 150 on:
 * the count of line n reaches 100 at sample n + 99, and lines 1 to 51, which have it by then, settle at sample 150.
 */
static void try_all_lines(void)
{
    uint8_t digital[DIGITAL_BYTES] = {0}, events[DIGITAL_BYTES] = {0}, inputs[DIGITAL_BYTES] = {0};
    io401_device device;
    start_all_filtered(&device, 200);
    for (unsigned sample = 1; sample <= 230; sample++) {
        if (sample == 150)
            write_length(&device, 100);
        for (unsigned line = 1; line <= 8 * DIGITAL_BYTES; line++) {
            const unsigned settling = line <= 51 ? 150 : line + 99;
            set_line(digital, line, sample >= line);
            set_line(events, line, sample == settling);
            set_line(inputs, line, sample >= settling);
        }
        take_sample(&device, digital, events);
        check_inputs(&device, inputs);
    }
}

static void try_filters(void)
{
    static const uint8_t FILTERED[] = {1, 64, 65, 128};
    static const uint8_t FILTER_LENGTHS[] = {1, 2, 3, 4, 254, 255};
    for (size_t n = 0; n < sizeof FILTERED; n++) {
        for (size_t l = 0; l < sizeof FILTER_LENGTHS; l++)
            try_settling(FILTERED[n], FILTER_LENGTHS[l]);
        for (size_t c = 0; c < CHANGE_COUNT; c++) {
            try_change(FILTERED[n], &CHANGES[c]);
            try_change_at_rest(FILTERED[n], &CHANGES[c]);
            try_change_back(FILTERED[n], &CHANGES[c]);
        }
        try_resets(FILTERED[n]);
        try_states(FILTERED[n]);
    }
    try_fresh_counts();
    try_all_lines();
}

#endif
