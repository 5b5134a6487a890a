/*
 * A main loop over the device: a set-up list, then a tick for each row of the table below with a
 * sample, its events and the driven outputs, and a communication loss on the way. At the end a
 * received frame and one to be sent, by the mappings of the set-up list, requests of a dealer's tool, and
 * the heartbeats of a drive controller, which come, stop and come again.
 */
#include <io401.h>
#include <stdio.h>

#define NODE 5
#define DRIVE 2 /* the node number of the drive controller */
#define TICK_MILLISECONDS 100

typedef struct setting {
    uint16_t index;
    uint8_t sub;
    uint32_t value;
    size_t size;
} setting;

/* Written while the node is pre-operational. */
static const setting SET_UP[] = {
    {0x6003, 1, 0x01, 1},   /* line 1, a sticky button, is filtered .. */
    {0x2003, 0, 5, 1},      /* .. and filtered lines settle at the fifth sample in a row, not the third */
    {0x6006, 1, 0x03, 1},   /* of lines 1 to 8 only 1 and 2 report any change .. */
    {0x6007, 1, 0x04, 1},   /* .. and line 3 a rising edge */
    {0x6423, 0, 1, 1},      /* analogue events are on */
    {0x6421, 1, 0x04, 1},   /* channel 1 reports a move by more than .. */
    {0x6426, 1, 10, 4},     /* .. 10 */
    {0x6200, 1, 0x0F, 1},   /* outputs 1 to 4 are on */
    {0x6202, 1, 0x80, 1},   /* output 8 is inverted, also where it takes its error value, 0 */
    {0x6206, 1, 0xFE, 1},   /* output 1 holds its state in a fault */
    {0x6207, 1, 0x10, 1},   /* output 5 is on in a fault */
    {0x6411, 1, 1000, 2},   /* analogue output 1 .. */
    {0x6444, 1, 0xFFFFFFFB, 4}, /* .. goes to -5 in a fault */
    {0x1029, 1, 0, 1},      /* a lost bus takes the node to pre-operational */
    {0x1600, 1, IO401_MAPPING_ENTRY(0x6200, 2, 8), 4},  /* a received frame brings outputs 9 to 16 .. */
    {0x1600, 2, IO401_MAPPING_ENTRY(0x6411, 2, 16), 4}, /* .. and after them analogue output 2 */
    {0x1600, 0, 2, 1},      /* both entries are in force; an entry is only written before this */
    {0x1A00, 1, IO401_MAPPING_ENTRY(0x6000, 1, 8), 4},  /* a frame to be sent tells inputs 1 to 8 .. */
    {0x1A00, 2, IO401_MAPPING_ENTRY(0x6401, 1, 16), 4}, /* .. and after them analogue input 1 */
    {0x1A00, 0, 2, 1},
    {0x1016, 1, IO401_WATCH_ENTRY(DRIVE, 250), 4}, /* the drive controller is lost after 250 ms without a heartbeat */
    {0x6000, 1, 0x01, 1},   /* refused, as inputs are only read */
};

typedef struct tick {
    uint8_t lines;     /* what lines 1 to 8 show */
    int16_t channel;   /* what channel 1 shows */
    int16_t bus;       /* -1 the bus is lost, 1 it is back and the node is started again */
} tick;

static const tick TICKS[] = {
    {0x00, 0, 0}, {0x07, 10, 0}, {0x07, 11, 0}, {0x07, 20, 0}, {0x07, 20, 0}, {0x07, 20, 0},
    {0x03, 22, -1}, {0x01, 40, 0}, {0x05, 40, 1}, {0x05, 51, 0},
};

static void show_entry(io401_device *device, uint16_t index, uint8_t sub)
{
    io401_read_answer answer = io401_read(device, index, sub);
    printf("  %04X:%u number %08lX value %lX size %zu\n", index, sub, (unsigned long)answer.number,
           (unsigned long)answer.value, answer.size);
}

static void set_up(io401_device *device)
{
    for (size_t n = 0; n < sizeof SET_UP / sizeof SET_UP[0]; n++) {
        const setting *s = &SET_UP[n];
        uint32_t number = io401_write_value(device, s->index, s->sub, s->value, s->size);
        if (number != 0)
            printf("set-up: %04X:%u refused with %08lX\n", s->index, s->sub, (unsigned long)number);
    }
}

static void follow_bus(io401_device *device, int16_t bus)
{
    if (bus < 0)
        io401_raise(device, IO401_COMMUNICATION_LOSS);
    if (bus > 0) {
        io401_clear(device, IO401_COMMUNICATION_LOSS);
        io401_command(device, IO401_START, IO401_ALL_NODES);
    }
}

static void run_tick(io401_device *device, size_t at)
{
    const uint8_t digital[IO401_LINE_BYTES] = {TICKS[at].lines};
    const int16_t analogue[IO401_ANALOGUE_INPUTS] = {TICKS[at].channel};
    uint8_t events[IO401_LINE_BYTES];
    uint8_t lines[IO401_LINE_BYTES];
    int16_t channels[IO401_ANALOGUE_OUTPUTS];

    follow_bus(device, TICKS[at].bus);
    io401_sample_answer answer = io401_sample(device, digital, IO401_LINE_BYTES, analogue, IO401_ANALOGUE_INPUTS,
                                              events, IO401_LINE_BYTES);
    io401_drive(device, lines, IO401_LINE_BYTES, channels, IO401_ANALOGUE_OUTPUTS);
    printf("tick %zu: state %u events %02X %04X drives %02X %d\n", at, io401_state(device), events[0], answer.events,
           lines[0], channels[0]);
}

/* A frame off the bus may be longer than its mapping; what it brings is driven at once. */
static void receive(io401_device *device)
{
    static const uint8_t FRAME[] = {0xA0, 0x34, 0x12, 0xFF};
    uint8_t lines[IO401_LINE_BYTES];
    int16_t channels[IO401_ANALOGUE_OUTPUTS];
    uint32_t number = io401_receive_1600(device, FRAME, sizeof FRAME);
    io401_drive(device, lines, IO401_LINE_BYTES, channels, IO401_ANALOGUE_OUTPUTS);
    printf("received: number %08lX drives %02X %d\n", (unsigned long)number, lines[1], channels[1]);
}

/* The lent frame always has eight bytes; the count says how many of them go onto the bus. */
static void transmit(const io401_device *device)
{
    uint8_t frame[IO401_FRAME_BYTES] = {0};
    io401_transmit_answer answer = io401_transmit_1A00(device, frame, IO401_FRAME_BYTES);
    printf("to be sent: number %08lX bytes %zu:", (unsigned long)answer.number, answer.count);
    for (size_t n = 0; n < answer.count; n++)
        printf(" %02X", frame[n]);
    printf("\n");
}

/* An upload of 6401:1 and a download to 6000:1, which is only read, as they come from the bus with 0x600 + NODE. */
static const uint8_t REQUESTS[][IO401_REQUEST_BYTES] = {{0x40, 0x01, 0x64, 0x01}, {0x2F, 0x00, 0x60, 0x01, 0xFF}};

/* A reply, an abort reply too, goes onto the bus with 0x580 + NODE; where there is none, nothing does. */
static void serve(io401_device *device, const uint8_t *request, size_t length)
{
    uint8_t reply[IO401_REPLY_BYTES];
    io401_request_answer answer = io401_request(device, request, length, reply, sizeof reply);
    printf("requested: number %08lX reply", (unsigned long)answer.number);
    if (answer.length == IO401_REPLY_BYTES) {
        for (size_t n = 0; n < answer.length; n++)
            printf(" %02X", reply[n]);
        printf("\n");
    } else {
        printf(" none\n");
    }
}

/* A frame that came before a tick of the timer, 0 for none, and the bus as in `tick`. */
typedef struct watch_tick {
    uint16_t identifier;
    int16_t bus;
} watch_tick;

/* Node 7, which no entry of 1016 names, goes on sending while the drive controller does not. */
static const watch_tick WATCH_TICKS[] = {
    {0, 0}, {0x700 + DRIVE, 0}, {0, 0}, {0x700 + DRIVE, 0}, {0x707, 0}, {0, 0}, {0x700 + DRIVE, 0}, {0x700 + DRIVE, 1},
};

/* A heartbeat comes with 0x700 plus its node's number. */
static void hear(io401_device *device, uint16_t identifier)
{
    if (identifier > 0x700 && identifier < 0x780)
        io401_heartbeat(device, (uint8_t)(identifier - 0x700));
}

/* The loss is raised by the device itself; the heartbeat that comes again does not clear it, the main loop does. */
static void run_watch_tick(io401_device *device, size_t at)
{
    uint8_t lines[IO401_LINE_BYTES];
    int16_t channels[IO401_ANALOGUE_OUTPUTS];
    hear(device, WATCH_TICKS[at].identifier);
    io401_elapsed(device, TICK_MILLISECONDS);
    follow_bus(device, WATCH_TICKS[at].bus);
    io401_drive(device, lines, IO401_LINE_BYTES, channels, IO401_ANALOGUE_OUTPUTS);
    printf("watch %zu: frame %03X state %u error %02lX drives %02X %d\n", at, WATCH_TICKS[at].identifier,
           io401_state(device), (unsigned long)io401_read(device, 0x1001, 0).value, lines[0], channels[0]);
}

int main(void)
{
    io401_device device;
    if (io401_create(&device, NODE) != 0)
        return 1;
    set_up(&device);
    io401_command(&device, IO401_START, NODE);
    for (size_t at = 0; at < sizeof TICKS / sizeof TICKS[0]; at++)
        run_tick(&device, at);
    printf("after the last tick:\n");
    show_entry(&device, 0x6000, 1);
    show_entry(&device, 0x6401, 1);
    show_entry(&device, 0x6422, 1);
    show_entry(&device, 0x6422, 1);
    show_entry(&device, 0x6200, 1);
    receive(&device);
    transmit(&device);
    serve(&device, REQUESTS[0], IO401_REQUEST_BYTES);
    serve(&device, REQUESTS[1], IO401_REQUEST_BYTES);
    for (size_t at = 0; at < sizeof WATCH_TICKS / sizeof WATCH_TICKS[0]; at++)
        run_watch_tick(&device, at);
    io401_command(&device, IO401_STOP, NODE);
    show_entry(&device, 0x6200, 1);
    transmit(&device);
    serve(&device, REQUESTS[0], IO401_REQUEST_BYTES);
    return 0;
}
