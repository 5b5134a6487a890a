/*
 * Watched nodes call by call: the steps that paper_watch.h has worked out by hand, calls drawn at random beside the
 * paper's rules, what 1029:1 makes of a loss, and the header's name for an entry of 1016.
 */
#ifndef WATCH_RUNS_H
#define WATCH_RUNS_H

#include "watch.h"

static void check_error(io401_device *device, uint8_t wanted, const char *after, size_t step)
{
    const io401_read_answer answer = io401_read(device, 0x1001, 0);
    check_number(answer.number, 0, "read 1001:00 after %s %zu", after, step);
    if (answer.value != wanted)
        fail("1001:00 reads %02lX after %s %zu, the papers say %02X", (unsigned long)answer.value, after, step, wanted);
}

/* The steps that paper_watch.h has worked out by hand. */
static void try_watch_steps(void)
{
    io401_device device;
    io401_create(&device, NODE);
    for (size_t n = 0; n < WATCH_STEP_COUNT; n++) {
        const watch_step *step = &WATCH_STEPS[n];
        uint32_t number = 0;
        if (step->call == 'w')
            number = io401_write_value(&device, 0x1016, step->at, step->value, WATCH_BYTES);
        else if (step->call == 'h')
            number = io401_heartbeat(&device, step->at);
        else if (step->call == 'e')
            number = io401_elapsed(&device, step->value);
        else
            number = io401_clear(&device, IO401_COMMUNICATION_LOSS);
        check_number(number, step->number, "watch step %zu", n);
        check_error(&device, step->error, "watch step", n);
    }
}

/* A device beside what the paper says of it. It stays pre-operational: 1029:1 = 0 moves only an operational node. */
typedef struct watched_run {
    io401_device device;
    watch watches[WATCHES];
    bool is_lost;
    uint32_t seed;
} watched_run;

static uint32_t draw(watched_run *on, uint32_t below)
{
    on->seed = on->seed * 1664525u + 1013904223u;
    return (on->seed >> 8) % below;
}

static void run_write(watched_run *on)
{
    const uint8_t sub = (uint8_t)(1 + draw(on, WATCHES));
    const uint32_t node = draw(on, 8);
    const uint32_t value = WATCHED(node, 50 * draw(on, 4)) + (draw(on, 8) == 0 ? 0x02000000u : 0);
    const uint32_t number = refusal_of_watch(on->watches, sub, value);
    check_number(io401_write_value(&on->device, 0x1016, sub, value, WATCH_BYTES), number, "write_value 1016:%02X", sub);
    if (number == 0)
        write_watch(on->watches, sub, value);
}

static void run_reset(watched_run *on)
{
    const bool is_kept = draw(on, 2) == 0; /* a command for another node */
    io401_command(&on->device, draw(on, 2) == 0 ? IO401_RESET_NODE : IO401_RESET_COMMUNICATION,
                  is_kept ? NODE + 1 : NODE);
    if (is_kept)
        return;
    empty_watches(on->watches);
    on->is_lost = false;
}

static void run_call(watched_run *on)
{
    const uint32_t call = draw(on, 64);
    if (call < 24) {
        const uint8_t node = (uint8_t)draw(on, 8);
        io401_heartbeat(&on->device, node);
        hear_node(on->watches, node);
    } else if (call < 48) {
        const uint32_t milliseconds = draw(on, 64) == 0 ? 0xFFFFFFFF : draw(on, 40);
        io401_elapsed(&on->device, milliseconds);
        on->is_lost |= elapse_watches(on->watches, milliseconds);
    } else if (call < 54) {
        run_write(on);
    } else if (call < 62) {
        on->is_lost = call == 54;
        if (on->is_lost)
            io401_raise(&on->device, IO401_COMMUNICATION_LOSS);
        else
            io401_clear(&on->device, IO401_COMMUNICATION_LOSS);
    } else {
        run_reset(on);
    }
}

/* Calls drawn at random, and what can be read after each. */
static void try_watch_run(uint32_t seed)
{
    watched_run on;
    io401_create(&on.device, NODE);
    empty_watches(on.watches);
    on.is_lost = false;
    on.seed = seed;
    for (size_t step = 0; step < 5000; step++) {
        run_call(&on);
        check_error(&on.device, on.is_lost ? LOSS_REGISTER : 0, "call", step);
        for (uint8_t sub = 1; sub <= WATCHES; sub++)
            expect(io401_read(&on.device, 0x1016, sub).value == on.watches[sub - 1].value, "1016 reads otherwise");
    }
}

static void try_watch_runs(void)
{
    for (uint32_t seed = 1; seed <= 20; seed++)
        try_watch_run(seed);
}

/* What 1029:1 makes of a node that loses one it watches, by the paper and not by a raise. */
static void try_lost_node(uint8_t command, uint8_t reaction, uint8_t state, uint8_t wanted)
{
    io401_device device;
    io401_create(&device, NODE);
    io401_write_value(&device, 0x1029, 1, reaction, 1);
    io401_write_value(&device, 0x1016, 3, IO401_WATCH_ENTRY(16, 100), WATCH_BYTES);
    io401_command(&device, command, NODE);
    expect(io401_heartbeat(&device, 16) == 0 && io401_elapsed(&device, 99) == 0, "a watch call is refused");
    expect(io401_state(&device) == state, "a watch that is not reached changes the state");
    expect(io401_elapsed(&device, 1) == 0, "an elapsed call is refused");
    if (io401_state(&device) != wanted)
        fail("1029:1 = %u leaves state %u after a loss in state %u, the papers say %u", reaction, io401_state(&device),
             state, wanted);
    io401_command(&device, IO401_START, NODE);
    check_error(&device, LOSS_REGISTER, "a loss with 1029:1 =", reaction);
}

static void try_lost_nodes(void)
{
    static const uint8_t COMMANDS[][2] = {{IO401_PRE_OPERATIONAL, IO401_STATE_PRE_OPERATIONAL},
                                          {IO401_START, IO401_STATE_OPERATIONAL},
                                          {IO401_STOP, IO401_STATE_STOPPED}};
    for (size_t n = 0; n < sizeof COMMANDS / sizeof COMMANDS[0]; n++) {
        const uint8_t command = COMMANDS[n][0], state = COMMANDS[n][1];
        const bool is_operational = state == IO401_STATE_OPERATIONAL;
        try_lost_node(command, 0, state, is_operational ? IO401_STATE_PRE_OPERATIONAL : state);
        try_lost_node(command, 1, state, state);
        try_lost_node(command, 2, state, IO401_STATE_STOPPED);
    }
}

/* The header's own name for the four bytes; what is too high for its field is refused. */
static void check_watches_built(void)
{
    const uint8_t node = 127;
    const uint16_t milliseconds = 65535;
    io401_device device;
    expect(IO401_WATCH_ENTRY(5, 500) == 0x000501F4, "node 5 within 500 ms is another entry");
    expect(IO401_WATCH_ENTRY(node, milliseconds) == 0x007FFFFF, "node 127 within 65,535 ms is another entry");
    expect(IO401_WATCH_ENTRY(255, 0) == 0x00FF0000, "node 255 with no time is another entry");
    io401_create(&device, NODE);
    expect(io401_write_value(&device, 0x1016, 1, IO401_WATCH_ENTRY(256, 1), 4) == BITS_ABOVE_NODE, "node 256 is taken");
    expect(io401_write_value(&device, 0x1016, 1, IO401_WATCH_ENTRY(1, 65536), 4) == BITS_ABOVE_NODE,
           "65,536 ms are taken");
    expect(io401_write_value(&device, 0x1016, 1, IO401_WATCH_ENTRY(-1, 1), 4) == BITS_ABOVE_NODE, "node -1 is taken");
    expect(io401_write_value(&device, 0x1016, 1, IO401_WATCH_ENTRY(1, -1), 4) == BITS_ABOVE_NODE, "-1 ms are taken");
    expect(io401_read(&device, 0x1016, 1).value == 0, "a refused entry stands in 1016:1");
}

#endif
