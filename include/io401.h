/*
 * FOR x86-64 ALONE. The toolchain compiles for x86-64 Linux and nothing else, so the archive is for
 * controllers, gateways, benches and simulators on it. A port takes a compiler back end: the
 * toolchain compiling Rattle for the other processor. No source here depends on x86-64 beyond the
 * layout that is asserted below: a size_t of 8 bytes and a bool of one.
 *
 * A CiA 401 input/output device: 128 digital inputs, 128 digital outputs, 16 analogue inputs and
 * 8 analogue outputs, four process data messages each way, a service data server, and a watch of the
 * heartbeats of up to four nodes. Link with libio401.a, which `rt lib` in
 * crates/io401 writes and whose functions are proved.
 *
 * Memory: a device has 1,112 bytes; the archive has 13,890 of code and constants, no data of its own,
 * and allocates nothing. Stack of a call in bytes, from C through this header, as bench/stack.c
 * measures it with gcc 12.2 -O2: create 8, read 40, write 136, write_value 152, sample 168,
 * command 64, raise 64, clear 48, drive 8, receive 168, transmit 152, request 184, heartbeat 8,
 * elapsed 48.
 * Symbols needed from outside: none, not even memcpy. The code is for x86-64-v2, a processor with
 * SSE4.2; it uses the vector registers and the 128 bytes below the stack pointer (the red zone), as
 * any program on x86-64 Linux may.
 *
 * An accepted call answers number 0. A refused call answers the number that says why, and leaves
 * the device and every lent buffer as they were; what else it answers is 0.
 *
 * The caller owes:
 * - a device that io401_create has filled, whatever create answered; every flag in it 0 or 1. Only
 *   the calls change a device. It holds no pointer, so it may be copied and moved.
 * - for each length a pointer to at least that many elements, and for a length of 0 a pointer too:
 *   no pointer is ever null.
 * - buffers of one call that overlap neither each other nor the device.
 * - one call at a time on a device. The calls share nothing, so threads may call at the same time
 *   on different devices.
 */
#ifndef IO401_H
#define IO401_H

#include <stdbool.h>
#include <stddef.h>
#include <stdint.h>

#ifdef __cplusplus
extern "C" {
#endif

/* What a number other than 0 says of a read or a write: the abort codes of CiA 301. */
#define IO401_ABORT_STOPPED UINT32_C(0x08000022)          /* the node is stopped */
#define IO401_ABORT_NO_OBJECT UINT32_C(0x06020000)        /* no object has this index */
#define IO401_ABORT_NO_SUBINDEX UINT32_C(0x06090011)      /* the sub-index is above the last entry */
#define IO401_ABORT_READ_ONLY UINT32_C(0x06010002)        /* a write to an entry that is only read */
#define IO401_ABORT_TOO_LONG UINT32_C(0x06070012)         /* more bytes than the entry has */
#define IO401_ABORT_TOO_SHORT UINT32_C(0x06070013)        /* fewer bytes than the entry has */
#define IO401_ABORT_VALUE UINT32_C(0x06090030)            /* a value that the entry cannot have */
#define IO401_ABORT_VALUE_TOO_HIGH UINT32_C(0x06090031)   /* 6444 above 32767 */
#define IO401_ABORT_VALUE_TOO_LOW UINT32_C(0x06090032)    /* 6444 below -32768 */
#define IO401_ABORT_COUNT_NOT_ZERO UINT32_C(0x06010000)   /* an entry of a mapping while its count is not 0 */
#define IO401_ABORT_NOT_MAPPABLE UINT32_C(0x06040041)     /* an entry that cannot be mapped, or not so wide */
#define IO401_ABORT_MAPPING_TOO_LONG UINT32_C(0x06040042) /* a count above 8, or of entries with more than 64 bits */
#define IO401_ABORT_NODE_TWICE UINT32_C(0x06040043)       /* a node that another entry of 1016 watches already */

/* What it says of the other calls. */
#define IO401_BAD_NODE UINT32_C(1)            /* create: 0 or above 127; command: above 127 */
#define IO401_BAD_COMMAND UINT32_C(2)         /* command: none of the five */
#define IO401_BAD_DIGITAL_LENGTH UINT32_C(3)  /* sample: not 16 bytes of inputs */
#define IO401_BAD_ANALOGUE_LENGTH UINT32_C(4) /* sample: not 16 numbers */
#define IO401_BAD_EVENT_LENGTH UINT32_C(5)    /* sample: not 16 bytes for events */
#define IO401_BAD_FRAME_LENGTH UINT32_C(5)    /* transmit: not 8 bytes of frame; the call tells which 5 it is */
#define IO401_BAD_REPLY_LENGTH UINT32_C(5)    /* request: not 8 bytes for the reply */
#define IO401_BAD_DRIVE_LENGTH UINT32_C(6)    /* drive: not 16 bytes and 8 numbers */
#define IO401_BAD_REQUEST_LENGTH UINT32_C(7)  /* request: not 8 bytes of request */

/* Never a number: it stands in abort replies to requests, as the codes above do, IO401_ABORT_STOPPED excepted. */
#define IO401_ABORT_UNKNOWN_REQUEST UINT32_C(0x05040001) /* no upload, no expedited download, no abort */

/* Network commands, and the node number that means every node. */
#define IO401_START UINT8_C(1)
#define IO401_STOP UINT8_C(2)
#define IO401_PRE_OPERATIONAL UINT8_C(128)
#define IO401_RESET_NODE UINT8_C(129)
#define IO401_RESET_COMMUNICATION UINT8_C(130)
#define IO401_ALL_NODES UINT8_C(0)

/* The state of a node, as a heartbeat gives it. */
#define IO401_STATE_STOPPED UINT8_C(4)
#define IO401_STATE_OPERATIONAL UINT8_C(5)
#define IO401_STATE_PRE_OPERATIONAL UINT8_C(127)

/* The two causes of fault. */
#define IO401_INTERNAL_FAILURE false
#define IO401_COMMUNICATION_LOSS true

#define IO401_LINE_BYTES 16u       /* bytes of digital lines; line 1 is the lowest bit of the first */
#define IO401_ANALOGUE_INPUTS 16u
#define IO401_ANALOGUE_OUTPUTS 8u
#define IO401_LONGEST_ENTRY 4u     /* bytes; no entry of the dictionary has more */
#define IO401_FRAME_BYTES 8u       /* of a frame that is lent to transmit */
#define IO401_REQUEST_BYTES 8u     /* of a request to the server */
#define IO401_REPLY_BYTES 8u       /* of the buffer that is lent for the reply, and of every reply */
#define IO401_WATCH_ENTRIES 4u     /* of 1016, each for one node that is watched */

/*
 * The four bytes of an entry of a mapping, 1600 to 1603 and 1A00 to 1A03: which entry of the dictionary it
 * moves, and how many bits that one has. A receive mapping takes the outputs (6200, 6300, 6320) and 6411, a
 * transmit mapping the inputs (6000, 6100, 6120) and 6401; sub-index 0 of none. An entry of 0 moves nothing.
 * Entries, sub-indices 1 to 8, are written while the count, sub-index 0, is 0; then the count puts the first
 * so many in force. Numbers too high for their field give a value that no mapping takes; each is evaluated twice.
 */
#define IO401_MAPPING_ENTRY(index, sub, bits)                                                                         \
    (((uint64_t)(index) >> 16 | (uint64_t)(sub) >> 8 | (uint64_t)(bits) >> 8) != 0                                    \
         ? UINT32_C(0xFFFFFFFF)                                                                                       \
         : ((uint32_t)(index) << 16 | (uint32_t)(sub) << 8 | (uint32_t)(bits)))

/*
 * The four bytes of an entry of 1016, sub-indices 1 to 4: which node is watched, and how many milliseconds without
 * its heartbeat are communication loss (io401_heartbeat, io401_elapsed). An entry with 0 milliseconds, or with a
 * node outside 1 to 127, is unused and watches none. No two used entries name the same node. Writing an entry stops
 * its watch until the node's next heartbeat, with its own value too; either reset sets all four entries to 0.
 * Numbers too high for their field, above 255 and 65,535, give a value that 1016 refuses; each argument is
 * evaluated twice. For node 2 and 300 ms: io401_write_value(&device, 0x1016, 1, IO401_WATCH_ENTRY(2, 300), 4).
 */
#define IO401_WATCH_ENTRY(node, milliseconds)                                                                         \
    (((uint64_t)(node) >> 8 | (uint64_t)(milliseconds) >> 16) != 0                                                    \
         ? UINT32_C(0xFFFFFFFF)                                                                                       \
         : ((uint32_t)(node) << 16 | (uint32_t)(milliseconds)))

/* Elements of a device's arrays, as in crates/channels/src/fields.rt and crates/windows/src/lib.rt. */
#define IO401_OCTETS 22
#define IO401_FLAGS 12
#define IO401_WORDS 40
#define IO401_LIMITS 32
#define IO401_DELTAS 128
#define IO401_VALUES 56

/*
 * The arrays may be read, best through io401_read; element n - 1 of a column is channel n's. The last eight of
 * `deltas` are the four entries of 1016 and after them their watches: 0 while one waits for a first heartbeat,
 * else the milliseconds that it has added up, plus 1.
 */
typedef struct io401_device {
    uint8_t octets[IO401_OCTETS];  /* node number, state (IO401_STATE_..), 1029:1; 6421 (16); source bits (2); 2003 */
    bool flags[IO401_FLAGS];       /* the two causes, 6005, 6423; 6443 (8) */
    uint64_t words[IO401_WORDS];   /* twenty rows of 128 lines; the last eight are the bits of the filter's counts */
    int32_t limits[IO401_LIMITS];  /* 6424, 6425 (16 each) */
    uint32_t deltas[IO401_DELTAS]; /* 6426, 6427, 6428 (16 each); 1600 to 1603, 1A00 to 1A03 (9 each, by sub-index) */
    int16_t values[IO401_VALUES];  /* 6401, the last event's number (16 each); 6444, 6411, what is driven (8 each) */
} io401_device;

/* What a read answers: the entry's bytes as an unsigned number, and how many they are. */
typedef struct io401_read_answer {
    uint32_t number;
    uint32_t value;
    size_t size;
} io401_read_answer;

/* What a sample answers: bit n - 1 of events is 1 for an event on analogue input n. */
typedef struct io401_sample_answer {
    uint32_t number;
    uint16_t events;
} io401_sample_answer;

/* What a transmit answers: how many bytes of the frame it wrote, from the first on. */
typedef struct io401_transmit_answer {
    uint32_t number;
    size_t count;
} io401_transmit_answer;

/* What a request answers: how many bytes of reply there are to be sent, IO401_REPLY_BYTES or 0. */
typedef struct io401_request_answer {
    uint32_t number;
    size_t length;
} io401_request_answer;

/* C99 has no assertion for the compiler, but it refuses an array of -1 elements. */
#define IO401_ASSERT(name, holds) typedef char io401_assert_##name[(holds) ? 1 : -1]
IO401_ASSERT(bool, sizeof(bool) == 1);
IO401_ASSERT(size_t, sizeof(size_t) == 8);
IO401_ASSERT(read_answer, sizeof(io401_read_answer) == 16);
IO401_ASSERT(read_answer_value, offsetof(io401_read_answer, value) == 4);
IO401_ASSERT(read_answer_size, offsetof(io401_read_answer, size) == 8);
IO401_ASSERT(sample_answer, sizeof(io401_sample_answer) == 8);
IO401_ASSERT(sample_answer_events, offsetof(io401_sample_answer, events) == 4);
IO401_ASSERT(transmit_answer, sizeof(io401_transmit_answer) == 16);
IO401_ASSERT(transmit_answer_count, offsetof(io401_transmit_answer, count) == 8);
IO401_ASSERT(request_answer, sizeof(io401_request_answer) == 16);
IO401_ASSERT(request_answer_length, offsetof(io401_request_answer, length) == 8);

/*
 * The archive's functions, which firmware calls through those that follow. A device that is only read is const.
 * Two bools name one of four messages, so that no other can be named: `second_pair` is true for 1602, 1603,
 * 1A02 and 1A03, `second` for 1601, 1603, 1A01 and 1A03.
 */
uint32_t io401_create_arrays(io401_device *device, uint8_t number);
io401_read_answer io401_read_arrays(io401_device *device, uint16_t index, uint8_t sub);
uint32_t io401_write_arrays(io401_device *device, uint16_t index, uint8_t sub, const uint8_t *bytes, size_t length);
io401_sample_answer io401_sample_arrays(io401_device *device, const uint8_t *digital, size_t digital_length,
                                        const int16_t *analogue, size_t analogue_length, uint8_t *events,
                                        size_t events_length);
uint32_t io401_command_arrays(io401_device *device, uint8_t code, uint8_t node);
uint32_t io401_raise_arrays(io401_device *device, bool loss);
uint32_t io401_clear_arrays(io401_device *device, bool loss);
uint32_t io401_drive_arrays(const io401_device *device, uint8_t *lines, size_t lines_length, int16_t *channels,
                            size_t channels_length);
uint32_t io401_receive_arrays(io401_device *device, bool second_pair, bool second, const uint8_t *frame,
                              size_t length);
io401_transmit_answer io401_transmit_arrays(const io401_device *device, bool second_pair, bool second, uint8_t *frame,
                                            size_t length);
io401_request_answer io401_request_arrays(io401_device *device, const uint8_t *request, size_t request_length,
                                          uint8_t *reply, size_t reply_length);
uint32_t io401_heartbeat_arrays(io401_device *device, uint8_t node);
uint32_t io401_elapsed_arrays(io401_device *device, uint32_t milliseconds);

/* A whole device as the argument of a function above: a pointer to it, no copy. */
#define IO401_ARRAYS_OF(d) (d)

/*
 * A fresh device: pre-operational, no cause of fault, every object at its default. A node number
 * of 0 or above 127 is refused with IO401_BAD_NODE, and the device then has node number 127.
 */
static inline uint32_t io401_create(io401_device *device, uint8_t number)
{
    return io401_create_arrays(device, number);
}

/*
 * Reads an entry of the object dictionary, as 0x6000 and 1 for input lines 1 to 8. A read of
 * 6422:1 also clears the source bits; no other read changes the device. Refusals are the first
 * three of IO401_ABORT_.., the first that applies in the order listed above.
 */
static inline io401_read_answer io401_read(io401_device *device, uint16_t index, uint8_t sub)
{
    return io401_read_arrays(device, index, sub);
}

/*
 * Writes an entry: `length` bytes, the least significant first. The length must be the entry's
 * size. Refusals are IO401_ABORT_.., the first that applies in the order listed above; the last four
 * are two of a mapping's entries, one of its count and one of an entry of 1016, and all of these but
 * IO401_ABORT_NOT_MAPPABLE depend on what the device holds.
 */
static inline uint32_t io401_write(io401_device *device, uint16_t index, uint8_t sub, const uint8_t *bytes,
                                   size_t length)
{
    return io401_write_arrays(device, index, sub, bytes, length);
}

/*
 * Writes a value as `size` bytes; a negative number goes as (uint16_t)-5 and 2, or (uint32_t)-5 and
 * 4. Five bytes are more than any entry has, and io401_write answers every length above 4 alike: so
 * five are lent for a size above 4, and for a value that does not fit in the 1 to 3 bytes of its
 * size. Both are refused as too long, unless an earlier row refuses them. No answer is made up here.
 */
static inline uint32_t io401_write_value(io401_device *device, uint16_t index, uint8_t sub, uint32_t value,
                                         size_t size)
{
    const uint8_t bytes[IO401_LONGEST_ENTRY + 1] = {(uint8_t)value, (uint8_t)(value >> 8), (uint8_t)(value >> 16),
                                                    (uint8_t)(value >> 24), 0};
    const bool fits =
        size == 0 || size == IO401_LONGEST_ENTRY || (size < IO401_LONGEST_ENTRY && value >> (8 * size) == 0);
    return io401_write(device, index, sub, bytes, fits ? size : sizeof bytes);
}

/*
 * Takes one sample of all inputs: sixteen bytes of digital inputs and sixteen analogue inputs.
 * An input line takes a new value at once; with its filter on (6003) when as many samples in a row as the
 * filter length (2003:0, 1 to 255, fresh 3) have differed from the old one. A write of 2003:0 keeps the
 * counts and settles nothing by itself.
 * Fills the sixteen bytes of `events` with a 1 for each input line that has an event and a 0 for
 * each other. Events come while the node is operational; samples are taken in every state.
 */
static inline io401_sample_answer io401_sample(io401_device *device, const uint8_t *digital, size_t digital_length,
                                               const int16_t *analogue, size_t analogue_length, uint8_t *events,
                                               size_t events_length)
{
    return io401_sample_arrays(device, digital, digital_length, analogue, analogue_length, events, events_length);
}

/*
 * Obeys a network command, IO401_START to IO401_RESET_COMMUNICATION, for node number `node`.
 * A command for another node is accepted and does nothing.
 */
static inline uint32_t io401_command(io401_device *device, uint8_t code, uint8_t node)
{
    return io401_command_arrays(device, code, node);
}

/*
 * A cause of fault has appeared: communication loss where `loss` is true, else internal failure.
 * Never refused. When fault begins, an output whose error mode is 1 goes to its error value; a line drives it inverted
 * where its polarity is 1.
 */
static inline uint32_t io401_raise(io401_device *device, bool loss)
{
    return io401_raise_arrays(device, loss);
}

/* The cause is gone. Never refused. Outputs follow what was written again when fault ends. */
static inline uint32_t io401_clear(io401_device *device, bool loss)
{
    return io401_clear_arrays(device, loss);
}

/* Copies what the outputs drive into sixteen bytes of lines and eight numbers. */
static inline uint32_t io401_drive(const io401_device *device, uint8_t *lines, size_t lines_length, int16_t *channels,
                                   size_t channels_length)
{
    return io401_drive_arrays(device, lines, lines_length, channels, channels_length);
}

/*
 * Four calls for a received frame, one for each receive mapping. Each entry in force takes its bytes from
 * the frame, after those of the entry before, and is written as io401_write writes it, in order. A frame
 * may have any length, and is never refused. One shorter than its mapping does nothing, not even for the
 * entries that it has bytes for; nor does any while the node is not operational. Bytes beyond the mapping
 * are not read.
 */
static inline uint32_t io401_receive_1600(io401_device *device, const uint8_t *frame, size_t length)
{
    return io401_receive_arrays(device, false, false, frame, length);
}

static inline uint32_t io401_receive_1601(io401_device *device, const uint8_t *frame, size_t length)
{
    return io401_receive_arrays(device, false, true, frame, length);
}

static inline uint32_t io401_receive_1602(io401_device *device, const uint8_t *frame, size_t length)
{
    return io401_receive_arrays(device, true, false, frame, length);
}

static inline uint32_t io401_receive_1603(io401_device *device, const uint8_t *frame, size_t length)
{
    return io401_receive_arrays(device, true, true, frame, length);
}

/*
 * Four calls for a frame to be sent, one for each transmit mapping. Each entry in force is read as
 * io401_read reads it, and its bytes are written into the frame after those of the entry before, the
 * least significant first. Answers how many bytes were written; those beyond stay as they were. While the
 * node is not operational that is 0, and none is touched. `length` must be IO401_FRAME_BYTES, however
 * short the mapping is: all else is refused with IO401_BAD_FRAME_LENGTH, in every state of the node.
 */
static inline io401_transmit_answer io401_transmit_1A00(const io401_device *device, uint8_t *frame, size_t length)
{
    return io401_transmit_arrays(device, false, false, frame, length);
}

static inline io401_transmit_answer io401_transmit_1A01(const io401_device *device, uint8_t *frame, size_t length)
{
    return io401_transmit_arrays(device, false, true, frame, length);
}

static inline io401_transmit_answer io401_transmit_1A02(const io401_device *device, uint8_t *frame, size_t length)
{
    return io401_transmit_arrays(device, true, false, frame, length);
}

static inline io401_transmit_answer io401_transmit_1A03(const io401_device *device, uint8_t *frame, size_t length)
{
    return io401_transmit_arrays(device, true, true, frame, length);
}

/*
 * The service data server (SDO) of CiA 301: takes a request of a client as it came from the bus, and writes the
 * reply that is to be sent, into a buffer of its own. CAN identifiers are the caller's business: by default 0x600
 * plus the node number for requests, and 0x580 plus it for replies.
 *
 * Bytes 2 to 4 of a request name an entry: the index, its low byte first, and the sub-index. The last four are
 * data, the least significant first. The first, here in hexadecimal, says what is asked for:
 *   40 to 5F        upload: the entry is read as io401_read reads it; one of 6422:1 also clears the source bits
 *   2F, 2B, 27, 23  expedited download: the first 1, 2, 3, 4 bytes of data are written as io401_write writes them
 *   22, 26, 2A, 2E  expedited download that tells no size: as many bytes as the entry has
 *   30 to 3F        each as the one from 20 to 2F
 *   80 to 9F        the client's abort
 *   any other       unknown: segments, blocks, and downloads that are not expedited among them
 * Nothing but this read or write is done to the device, and what is not named here is not looked at.
 *
 * Every reply repeats bytes 2 to 4 of its request; a byte of it that is not named below is 0:
 *   4F, 4B, 43      uploaded; 1, 2, 4 bytes of data from byte 5 on, the least significant first
 *   60              downloaded
 *   80              aborted; the last four are the code, the least significant first: the number that the read or
 *                   write is refused with, or IO401_ABORT_UNKNOWN_REQUEST
 * The answer then has length IO401_REPLY_BYTES, and number 0 for an abort reply too: it is to be sent like any.
 *
 * Refused are, in this order, a request_length other than IO401_REQUEST_BYTES with IO401_BAD_REQUEST_LENGTH, and
 * a reply_length other than IO401_REPLY_BYTES with IO401_BAD_REPLY_LENGTH. After these, any request at all while
 * the node is stopped, and a client's abort, do nothing and get no reply: number 0, length 0, and the buffer stays
 * as it was.
 */
static inline io401_request_answer io401_request(io401_device *device, const uint8_t *request, size_t request_length,
                                                 uint8_t *reply, size_t reply_length)
{
    return io401_request_arrays(device, request, request_length, reply, reply_length);
}

/*
 * A heartbeat of a node has come. CAN identifiers are the caller's business: by default it is a frame with 0x700
 * plus that node's number. A boot-up message has that identifier too, with a byte 00; whether it counts is the
 * caller's choice. Where an entry of 1016 is used for that node, the first heartbeat since it was written, or since
 * it raised a loss, starts its watch, and each later one sets what it has added up to 0. A heartbeat of any other
 * node, 0 and those above 127 too, does nothing. None clears a communication loss: io401_clear and the two resets do.
 * Never refused, whatever the state of this device: the answer is 0.
 */
static inline uint32_t io401_heartbeat(io401_device *device, uint8_t node)
{
    return io401_heartbeat_arrays(device, node);
}

/*
 * Milliseconds that have elapsed since the last such call, any number, 0 too: the tick of a timer. Each watch that
 * has started adds them up, all of them, also where its heartbeat came in between: a loss may come early or late by
 * up to the milliseconds of one call. To avoid early, bring the time that has elapsed before each heartbeat. A watch
 * whose sum reaches or passes the time of its entry raises communication loss in this very call, as io401_raise does,
 * and then waits for a first heartbeat again; the other watches go on. The answer does not say which node was lost:
 * its watch stands at 0 in the last four of `deltas`, and did not before. A node that is never heard is never lost.
 * Never refused, whatever the state of this device: the answer is 0.
 */
static inline uint32_t io401_elapsed(io401_device *device, uint32_t milliseconds)
{
    return io401_elapsed_arrays(device, milliseconds);
}

/* The state of the node, IO401_STATE_... */
static inline uint8_t io401_state(const io401_device *device)
{
    return device->octets[1];
}

#ifdef __cplusplus
}
#endif

#endif
