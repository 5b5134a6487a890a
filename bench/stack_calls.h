/* The calls whose stack is measured, each by itself, with the arguments that stack.c chooses. */
#ifndef STACK_CALLS_H
#define STACK_CALLS_H

#include <io401.h>
#include <string.h>

#define NODE 5
#define MESSAGES 4
#define DOWNLOAD_TOLD 0x23 /* stands for the four first bytes that tell a size */

/* What a call takes, kept out of the stack that is measured. */
static io401_device device;
static uint16_t index_now;
static uint8_t sub_now;
static uint32_t value_now;
static uint8_t bytes_now[4]; /* of that value */
static size_t size_now;
static uint8_t code_now;
static bool loss_now;
static uint8_t node_now;
static uint32_t milliseconds_now;
static uint8_t digital[IO401_LINE_BYTES];
static int16_t analogue[IO401_ANALOGUE_INPUTS];
static uint8_t lines[IO401_LINE_BYTES];
static int16_t channels[IO401_ANALOGUE_OUTPUTS];
static uint8_t frame[IO401_FRAME_BYTES + 1];
static size_t length_now;
static uint8_t first_now; /* of a request */
static uint8_t request[IO401_REQUEST_BYTES + 1];
static size_t request_length;
static uint8_t reply[IO401_REPLY_BYTES + 1];
static size_t reply_length;
static volatile uint32_t answered;

static void call_nothing(void) { answered = 0; }
static void call_create(void) { answered = io401_create(&device, NODE); }
static void call_read(void) { answered = io401_read(&device, index_now, sub_now).value; }
static void call_write(void) { answered = io401_write(&device, index_now, sub_now, bytes_now, size_now); }
static void call_command(void) { answered = io401_command(&device, code_now, NODE); }
static void call_raise(void) { answered = io401_raise(&device, loss_now); }
static void call_clear(void) { answered = io401_clear(&device, loss_now); }
static void call_heartbeat(void) { answered = io401_heartbeat(&device, node_now); }
static void call_elapsed(void) { answered = io401_elapsed(&device, milliseconds_now); }

static void call_write_value(void)
{
    answered = io401_write_value(&device, index_now, sub_now, value_now, size_now);
}

static void call_sample(void)
{
    answered = io401_sample(&device, digital, IO401_LINE_BYTES, analogue, IO401_ANALOGUE_INPUTS, lines,
                            IO401_LINE_BYTES).events;
}

static void call_drive(void)
{
    answered = io401_drive(&device, lines, IO401_LINE_BYTES, channels, IO401_ANALOGUE_OUTPUTS);
}

static void call_receive_1600(void) { answered = io401_receive_1600(&device, frame, length_now); }
static void call_receive_1601(void) { answered = io401_receive_1601(&device, frame, length_now); }
static void call_receive_1602(void) { answered = io401_receive_1602(&device, frame, length_now); }
static void call_receive_1603(void) { answered = io401_receive_1603(&device, frame, length_now); }
static void call_transmit_1A00(void) { answered = (uint32_t)io401_transmit_1A00(&device, frame, length_now).count; }
static void call_transmit_1A01(void) { answered = (uint32_t)io401_transmit_1A01(&device, frame, length_now).count; }
static void call_transmit_1A02(void) { answered = (uint32_t)io401_transmit_1A02(&device, frame, length_now).count; }
static void call_transmit_1A03(void) { answered = (uint32_t)io401_transmit_1A03(&device, frame, length_now).count; }

/* Of the entry, the value and, in a download that tells it, the size of now. */
static void lay_out_request(void)
{
    request[0] = (uint8_t)(first_now == DOWNLOAD_TOLD ? first_now | (4 - size_now) << 2 : first_now);
    request[1] = (uint8_t)index_now;
    request[2] = (uint8_t)(index_now >> 8);
    request[3] = sub_now;
    memcpy(request + 4, bytes_now, sizeof bytes_now);
}

static void call_request(void)
{
    answered = io401_request(&device, request, request_length, reply, reply_length).number;
}

static void (*const RECEIVES[MESSAGES])(void) = {call_receive_1600, call_receive_1601, call_receive_1602,
                                                 call_receive_1603};
static void (*const TRANSMITS[MESSAGES])(void) = {call_transmit_1A00, call_transmit_1A01, call_transmit_1A02,
                                                  call_transmit_1A03};

#endif
