/*
 * The bridge: answers requests on standard input with the calls of zemrukste.h, so that
 * a program that cannot be linked with the library can still call it.
 *
 * Numbers are lowest byte first. A request is 56 bytes:
 *
 *   byte 0         1 for zemrukste_build, 2 for zemrukste_sizes, 3 for zemrukste_build_two, 4 for
 *                  zemrukste_report_build, 5 for zemrukste_report_part, 6 for
 *                  zemrukste_control_build, 7 for zemrukste_control_whose, 8 for zemrukste_pack, 9
 *                  for zemrukste_unpack, 10 for zemrukste_build_down
 *   byte 1         what is lent as a null pointer, added (lengths 0 alone): 1 the block, the
 *                  header, the received run or the room, 2 the output, 4 the payload
 *   byte 2         the fill: what every byte of the output and its guards is before the call
 *   byte 3         0
 *   bytes 4 - 7    header_len, at most block_len, for zemrukste_build_two, else 0
 *   bytes 8 - 55   six numbers of 8 bytes: block_len (or a), q, n, version, g, out_len
 *
 * and for a build the block_len bytes of the block behind it; for zemrukste_build_two these are
 * the header and then the payload, which are lent far apart. zemrukste_sizes does not look at
 * q, n, version and g. For zemrukste_report_part the six numbers are received_len, q, n, a, o,
 * out_len. The two report calls have two more numbers behind the six, report_len (0 for
 * zemrukste_report_part) and control, then the block or the received run, then the report. For
 * the control calls the block is the payload or the run, q is the terminal and g is e;
 * zemrukste_control_whose has an out_len of 2, and its output is the terminal, lowest byte
 * first. A room to change is the block, and m is q. zemrukste_build_down has five more numbers
 * behind the six, before the block: release, mimo, processes, soft, layers. The answer is 8
 * bytes:
 *
 *   bytes 0 - 3    the number the call gave back
 *   byte 4         1 if the block (or run) and the report are the same after the call as
 *                  before, else 0
 *   bytes 5 - 7    0
 *
 * and then the whole output as the call left it, out_len bytes between two guards of 64.
 *
 * Requests come one behind another and are answered in their order. The end of the input
 * between two requests ends the bridge with exit status 0; a request cut short, one of
 * another kind, a block above 65,536 bytes, a run, a room or an output above 262,144 or a report
 * above 4,096 with exit status 2.
 *
 * Freestanding but for read and write: no other library function, no memory but its own.
 */
#include <stddef.h>
#include <stdint.h>

#include "zemrukste.h"

extern long read(int file, void *bytes, unsigned long count);
extern long write(int file, const void *bytes, unsigned long count);

enum {
    REQUEST_LEN = 56,
    MORE_LEN = 16,
    ANSWER_LEN = 8,
    GUARD_LEN = 64,
    BLOCK_MAX = 65536,
    RUN_MAX = 262144,
    REPORT_MAX = 4096,
    OUTPUT_MAX = 262144,
    BUILD = 1,
    SIZES = 2,
    BUILD_TWO = 3,
    REPORT_BUILD = 4,
    REPORT_PART = 5,
    CONTROL_BUILD = 6,
    CONTROL_WHOSE = 7,
    PACK = 8,
    UNPACK = 9,
    BUILD_DOWN = 10,
    DOWN_LEN = 40,
    NULL_BLOCK = 1,
    NULL_OUTPUT = 2,
    NULL_PAYLOAD = 4
};

static uint8_t request[REQUEST_LEN + DOWN_LEN];
static uint8_t block[RUN_MAX];
static uint8_t block_before[RUN_MAX];
static uint8_t report[REPORT_MAX];
static uint8_t report_before[REPORT_MAX];
static uint8_t header[BLOCK_MAX];
static uint8_t answer[ANSWER_LEN + GUARD_LEN + OUTPUT_MAX + GUARD_LEN];

/* Reads count bytes. Gives how many there were: fewer only at the end of the input. */
static size_t read_all(uint8_t *bytes, size_t count)
{
    size_t done = 0;
    while (done < count) {
        long got = read(0, bytes + done, count - done);
        if (got <= 0)
            break;
        done += (size_t)got;
    }
    return done;
}

/* Writes count bytes. Gives 0 if that cannot be done. */
static int write_all(const uint8_t *bytes, size_t count)
{
    size_t done = 0;
    while (done < count) {
        long put = write(1, bytes + done, count - done);
        if (put <= 0)
            return 0;
        done += (size_t)put;
    }
    return 1;
}

/* The number at place 0 to 10 of the request. */
static uint64_t number(int place)
{
    uint64_t value = 0;
    for (int byte = 7; byte >= 0; byte--)
        value = value << 8 | request[8 + 8 * place + byte];
    return value;
}

/* The header's length, bytes 4 to 7 of the request. */
static size_t header_length(void)
{
    size_t value = 0;
    for (int byte = 7; byte >= 4; byte--)
        value = value << 8 | request[byte];
    return value;
}

static void copy(uint8_t *to, const uint8_t *from, size_t count)
{
    for (size_t at = 0; at < count; at++)
        to[at] = from[at];
}

static void fill(uint8_t *bytes, uint8_t value, size_t count)
{
    for (size_t at = 0; at < count; at++)
        bytes[at] = value;
}

static uint8_t same(const uint8_t *one, const uint8_t *other, size_t count)
{
    uint8_t difference = 0;
    for (size_t at = 0; at < count; at++)
        difference |= one[at] ^ other[at];
    return difference == 0;
}

/* Whose the run is, with the terminal in the two bytes of out. */
static uint32_t whose(const uint8_t *run, size_t run_len, uint8_t *out)
{
    uint16_t terminal = (uint16_t)(out[0] | out[1] << 8);
    uint32_t given = zemrukste_control_whose(run, run_len, &terminal);
    out[0] = (uint8_t)terminal;
    out[1] = (uint8_t)(terminal >> 8);
    return given;
}

/* The call that the request asks for, on the block and the report that have been read. */
static uint32_t called(uint8_t kind, uint8_t nulls, size_t header_len, size_t length, size_t report_len, uint8_t *out,
                       size_t out_len)
{
    const uint8_t *lent = nulls & NULL_BLOCK ? NULL : block;
    size_t q = (size_t)number(1), n = (size_t)number(2), third = (size_t)number(3), fourth = (size_t)number(4);

    if (kind == BUILD)
        return zemrukste_build(lent, length, q, n, third, fourth, out, out_len);
    if (kind == SIZES)
        return zemrukste_sizes((size_t)number(0), out, out_len);
    if (kind == BUILD_TWO)
        return zemrukste_build_two(nulls & NULL_BLOCK ? NULL : header, header_len,
                                   nulls & NULL_PAYLOAD ? NULL : block + header_len, length - header_len, q, n, third,
                                   fourth, out, out_len);
    if (kind == REPORT_BUILD)
        return zemrukste_report_build(report, report_len, (size_t)number(7), lent, length, q, n, third, fourth, out,
                                      out_len);
    if (kind == REPORT_PART)
        return zemrukste_report_part(third, q, n, fourth, (size_t)number(7), lent, length, out, out_len);
    if (kind == CONTROL_BUILD)
        return zemrukste_control_build(lent, length, (uint16_t)q, fourth, out, out_len);
    if (kind == PACK)
        return zemrukste_pack(q, lent, length, out, out_len);
    if (kind == UNPACK)
        return zemrukste_unpack(q, lent, length, out, out_len);
    if (kind == CONTROL_WHOSE)
        return whose(lent, length, out);
    return zemrukste_build_down(lent, length, (size_t)number(6), (size_t)number(7), (size_t)number(8),
                                (size_t)number(9), (size_t)number(10), q, n, third, fourth, out, out_len);
}

/* Answers the request that has been read. Gives 0 if that cannot be done. */
static int serve(void)
{
    uint8_t kind = request[0], nulls = request[1];
    uint64_t length = kind == SIZES ? 0 : number(0), report_len = 0, out_len = number(5);
    size_t header_len = header_length();
    size_t first_len = kind == BUILD_TWO ? header_len : (size_t)length;
    uint8_t *out = answer + ANSWER_LEN + GUARD_LEN;
    uint32_t given;
    size_t whole;

    if (kind < BUILD || kind > BUILD_DOWN || out_len > OUTPUT_MAX)
        return 0;
    if ((kind == CONTROL_BUILD && number(1) > 65535) || (kind == CONTROL_WHOSE && out_len != 2))
        return 0;
    if (length > (kind == REPORT_PART || kind >= PACK ? RUN_MAX : BLOCK_MAX) || header_len > (kind == BUILD_TWO ? length : 0))
        return 0;
    if (kind == REPORT_BUILD || kind == REPORT_PART) {
        if (read_all(request + REQUEST_LEN, MORE_LEN) < MORE_LEN)
            return 0;
        report_len = number(6);
    }
    if (kind == BUILD_DOWN && read_all(request + REQUEST_LEN, DOWN_LEN) < DOWN_LEN)
        return 0;
    if (report_len > REPORT_MAX || ((nulls & NULL_BLOCK) && first_len > 0) || ((nulls & NULL_OUTPUT) && out_len > 0)
        || ((nulls & NULL_PAYLOAD) && header_len < length))
        return 0;
    if (read_all(block, (size_t)length) < length || read_all(report, (size_t)report_len) < report_len)
        return 0;
    copy(block_before, block, (size_t)length);
    copy(report_before, report, (size_t)report_len);
    copy(header, block, header_len);
    fill(answer, 0, ANSWER_LEN);
    whole = GUARD_LEN + (size_t)out_len + GUARD_LEN;
    fill(answer + ANSWER_LEN, request[2], whole);
    given = called(kind, nulls, header_len, (size_t)length, (size_t)report_len,
                   nulls & NULL_OUTPUT ? NULL : out, (size_t)out_len);
    for (int byte = 0; byte < 4; byte++)
        answer[byte] = (uint8_t)(given >> 8 * byte);
    answer[4] = same(block, block_before, (size_t)length) & same(report, report_before, (size_t)report_len) &
                same(header, block_before, header_len);
    return write_all(answer, ANSWER_LEN + whole);
}

int main(void)
{
    for (;;) {
        size_t got = read_all(request, REQUEST_LEN);
        if (got == 0)
            return 0;
        if (got < REQUEST_LEN || !serve())
            return 2;
    }
}
