/*
 * The bridge for the calls on slots: keeps a state and a store, as a C program does, and answers
 * requests on standard input with the calls of zemrukste.h on them.
 *
 * Numbers are of 8 bytes, lowest byte first. A request is 12 numbers:
 *
 *   0        the kind: 0 begin, 1 zemrukste_new, 2 _open, 3 _open_down, 4 _receive, 5 _read,
 *            6 _streams, 7 _close, 8 to 12 the packed forms of 2 to 6
 *   1, 2     state_len and store_len: for a call how many of the bytes that are kept are lent
 *   3        the slot (for zemrukste_new S)
 *   4        the terminal (for zemrukste_new M)
 *   5 to 9   a and for a downlink release, mimo, processes, soft are 5 to 9; q, n and version are
 *            5 to 7; the code block is 5
 *   10       bits_len or out_len; for a downlink layers
 *   11       what *count and every byte of the output and its guards are before the call (the low
 *            byte)
 *
 * and behind a begin the bytes of state and store that are kept from then on, behind a reception
 * its bits. A begin is not answered. The answer to a call is 4 numbers: what the call gave back,
 * *count, a sum over the whole store, and 1 if the bits are the same as before; then the state,
 * STATE_KEPT bytes, and for zemrukste_read and zemrukste_streams the output between two guards of
 * 64 bytes. The sum is FNV-1a over 64 bits.
 *
 * The end of the input between two requests ends the bridge with exit status 0; a request cut
 * short, one of another kind and too long a slice with exit status 2.
 *
 * Freestanding but for read and write: no other library function, no memory but its own.
 */
#include "zemrukste.h"

extern long read(int file, void *bytes, unsigned long count);
extern long write(int file, const void *bytes, unsigned long count);

enum {
    NUMBERS = 12,
    STATE_KEPT = ZEMRUKSTE_STATE_LEN + 16,
    STORE_MAX = 8 * 5 * ZEMRUKSTE_ROOM_PER_BLOCK,
    BITS_MAX = 262144,
    OUTPUT_MAX = 65536,
    GUARD_LEN = 64,
    ANSWER_LEN = 32,
    BEGIN = 0,
    NEW = 1,
    RECEIVE = 4,
    READ = 5,
    STREAMS = 6,
    CLOSE = 7,
    RECEIVE_PACKED = 10,
    READ_PACKED = 11,
    STREAMS_PACKED = 12
};

static uint8_t request[8 * NUMBERS];
static uint8_t state[STATE_KEPT];
static uint8_t store[STORE_MAX];
static size_t store_kept;
static uint8_t bits[BITS_MAX];
static uint8_t answer[ANSWER_LEN + STATE_KEPT + GUARD_LEN + OUTPUT_MAX + GUARD_LEN];

/* Reads count bytes. Gives how many there were: fewer only at the end of the input. */
static size_t read_all(uint8_t *bytes, size_t count)
{
    size_t done = 0;
    while (done < count) {
        long got = read(0, bytes + done, count - done);
        if (got <= 0)
            break;
        done += (size_t)got;
    }
    return done;
}

/* Writes count bytes. Gives 0 if that cannot be done. */
static int write_all(const uint8_t *bytes, size_t count)
{
    size_t done = 0;
    while (done < count) {
        long put = write(1, bytes + done, count - done);
        if (put <= 0)
            return 0;
        done += (size_t)put;
    }
    return 1;
}

static size_t number(int place)
{
    size_t value = 0;
    for (int byte = 7; byte >= 0; byte--)
        value = value << 8 | request[8 * place + byte];
    return value;
}

static void put_number(int place, uint64_t value)
{
    for (int byte = 0; byte < 8; byte++)
        answer[8 * place + byte] = (uint8_t)(value >> 8 * byte);
}

static uint64_t sum(const uint8_t *bytes, size_t count)
{
    uint64_t value = 0xCBF29CE484222325u;
    for (size_t at = 0; at < count; at++)
        value = (value ^ bytes[at]) * 0x100000001B3u;
    return value;
}

/* The call that the request asks for. */
static uint32_t called(size_t kind, uint8_t *out, size_t *count)
{
    size_t lent = number(1), size = number(2), slot = number(3), length = number(10);
    uint16_t terminal = (uint16_t)number(4);

    switch (kind) {
    case NEW:
        return zemrukste_new(state, lent, slot, number(4));
    case 2:
        return zemrukste_open(state, lent, slot, terminal, number(5), store, size);
    case 8:
        return zemrukste_open_packed(state, lent, slot, terminal, number(5), store, size);
    case 3:
        return zemrukste_open_down(state, lent, slot, terminal, number(5), number(6), number(7), number(8), number(9),
                                   length, store, size);
    case 9:
        return zemrukste_open_down_packed(state, lent, slot, terminal, number(5), number(6), number(7), number(8),
                                          number(9), length, store, size);
    case RECEIVE:
        return zemrukste_receive(state, lent, slot, terminal, number(5), number(6), number(7), bits, length, store, size,
                                 count);
    case RECEIVE_PACKED:
        return zemrukste_receive_packed(state, lent, slot, terminal, number(5), number(6), number(7), bits, length, store,
                                        size, count);
    case READ:
        return zemrukste_read(state, lent, slot, terminal, store, size, out, length, count);
    case READ_PACKED:
        return zemrukste_read_packed(state, lent, slot, terminal, store, size, out, length, count);
    case STREAMS:
        return zemrukste_streams(state, lent, slot, terminal, number(5), store, size, out, length);
    case STREAMS_PACKED:
        return zemrukste_streams_packed(state, lent, slot, terminal, number(5), store, size, out, length);
    default:
        return zemrukste_close(state, lent, slot, terminal);
    }
}

/* Answers the call that has been read. Gives 0 if that cannot be done. */
static int serve(size_t kind)
{
    int receives = kind == RECEIVE || kind == RECEIVE_PACKED;
    int writes = kind == READ || kind == READ_PACKED || kind == STREAMS || kind == STREAMS_PACKED;
    size_t count = number(11), length = number(10), whole = ANSWER_LEN + STATE_KEPT;
    uint8_t *out = answer + ANSWER_LEN + STATE_KEPT + GUARD_LEN;
    uint64_t before = 0;
    uint32_t given;

    if (kind > STREAMS_PACKED || number(1) > STATE_KEPT || number(2) > store_kept)
        return 0;
    if ((kind != NEW && number(4) > 65535) || (receives && length > BITS_MAX) || (writes && length > OUTPUT_MAX))
        return 0;
    if (receives && read_all(bits, length) < length)
        return 0;
    if (receives)
        before = sum(bits, length);
    if (writes) {
        for (size_t at = 0; at < GUARD_LEN + length + GUARD_LEN; at++)
            answer[ANSWER_LEN + STATE_KEPT + at] = (uint8_t)count;
        whole += GUARD_LEN + length + GUARD_LEN;
    }
    given = called(kind, out, &count);
    put_number(0, given);
    put_number(1, count);
    put_number(2, sum(store, store_kept));
    put_number(3, !receives || sum(bits, length) == before);
    for (size_t at = 0; at < STATE_KEPT; at++)
        answer[ANSWER_LEN + at] = state[at];
    return write_all(answer, whole);
}

/* Keeps the state and the store that come behind the request. Gives 0 if that cannot be done. */
static int begin(void)
{
    store_kept = number(2);
    return number(1) == STATE_KEPT && store_kept <= STORE_MAX && read_all(state, STATE_KEPT) == STATE_KEPT &&
           read_all(store, store_kept) == store_kept;
}

int main(void)
{
    for (;;) {
        size_t got = read_all(request, sizeof request);
        if (got == 0)
            return 0;
        if (got < sizeof request || !(number(0) == BEGIN ? begin() : serve(number(0))))
            return 2;
    }
}
