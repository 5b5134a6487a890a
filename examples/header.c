/* The header alone, as a freestanding program includes it. */
#include <io401.h>

/* What the header says of memory. */
IO401_ASSERT(device, sizeof(io401_device) == 1112);
IO401_ASSERT(device_flags, offsetof(io401_device, flags) == 22);
IO401_ASSERT(device_words, offsetof(io401_device, words) == 40);
IO401_ASSERT(device_limits, offsetof(io401_device, limits) == 360);
IO401_ASSERT(device_deltas, offsetof(io401_device, deltas) == 488);
IO401_ASSERT(device_values, offsetof(io401_device, values) == 1000);

/* What it says of a request and its answer. */
IO401_ASSERT(served, sizeof(io401_request_answer) == 16 && offsetof(io401_request_answer, length) == 8);
IO401_ASSERT(served_bytes, IO401_REQUEST_BYTES == 8 && IO401_REPLY_BYTES == 8);
IO401_ASSERT(served_numbers, IO401_BAD_REQUEST_LENGTH == 7 && IO401_BAD_REPLY_LENGTH == 5);
IO401_ASSERT(served_abort, IO401_ABORT_UNKNOWN_REQUEST == 0x05040001);

/* What it says of an entry of 1016, as a constant. */
IO401_ASSERT(watched, IO401_WATCH_ENTRY(5, 500) == 0x000501F4 && IO401_WATCH_ENTRY(127, 65535) == 0x007FFFFF);
IO401_ASSERT(watched_too_high, IO401_WATCH_ENTRY(256, 500) == 0xFFFFFFFF && IO401_WATCH_ENTRY(5, 65536) == 0xFFFFFFFF);
IO401_ASSERT(watched_entries, IO401_WATCH_ENTRIES == 4);
IO401_ASSERT(watched_twice, IO401_ABORT_NODE_TWICE == 0x06040043);

uint32_t header_compiles(io401_device *device);
bool header_serves(io401_device *device, const uint8_t *request, uint8_t *reply);
bool header_watches(io401_device *device, uint8_t node, uint32_t milliseconds);
uint32_t header_lends(io401_device *device, const uint8_t *bytes);

uint32_t header_compiles(io401_device *device)
{
    return io401_create(device, 1);
}

bool header_serves(io401_device *device, const uint8_t *request, uint8_t *reply)
{
    return io401_request(device, request, IO401_REQUEST_BYTES, reply, IO401_REPLY_BYTES).length == IO401_REPLY_BYTES;
}

bool header_watches(io401_device *device, uint8_t node, uint32_t milliseconds)
{
    return io401_heartbeat(device, node) == 0 && io401_elapsed(device, milliseconds) == 0;
}

/* The archive's own functions, with a whole device as the header names it. */
uint32_t header_lends(io401_device *device, const uint8_t *bytes)
{
    const uint32_t number = io401_create_arrays(IO401_ARRAYS_OF(device), 1);
    return number != 0 ? number : io401_write_arrays(IO401_ARRAYS_OF(device), 0x6200, 1, bytes, 1);
}
