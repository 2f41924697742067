/* What the cell's scheduler does: asks for the sizes of a block, builds its codeword, also from two
 * buffers and for a downlink, meets a refusal, sends a report with a charge limit, and a car its grant.
 * It prints what it got. Only write(2) of the C library is used, so that the program needs no C headers but the compiler's own. */
#include "zemrukste.h"

#ifdef __cplusplus
extern "C"
#endif
long write(int fd, const void *bytes, size_t count);

static void put(const char *text)
{
    size_t n = 0;
    while (text[n] != 0)
        n++;
    write(1, text, n);
}

static void put_number(uint32_t number)
{
    char digits[10];
    size_t at = sizeof digits;
    do {
        digits[--at] = (char)('0' + number % 10);
        number /= 10;
    } while (number != 0);
    write(1, digits + at, sizeof digits - at);
}

static uint32_t number_at(const uint8_t *bytes)
{
    return (uint32_t)bytes[0] | (uint32_t)bytes[1] << 8 | (uint32_t)bytes[2] << 16 | (uint32_t)bytes[3] << 24;
}

static void put_bits(const uint8_t *bits, size_t count)
{
    char digit;
    for (size_t i = 0; i < count; i++) {
        digit = (char)('0' + bits[i]);
        write(1, &digit, 1);
    }
}

/* A report of four bits and a charge limit of 80 kilowatts in one run, and the report back out of it with three wrong bits. */
static void put_report(void)
{
    static const uint8_t report[4] = {1, 0, 1, 1};
    static const uint8_t limit[16] = {0, 0, 0, 0, 0, 0, 0, 0, 0, 1, 0, 1, 0, 0, 0, 0};
    uint8_t run[32 + 132], back[4];

    put("report 1011 in 32 control bits, then a limit of 80 in 132: ");
    if (zemrukste_report_build(report, sizeof report, 32, limit, sizeof limit, 2, 1, 0, 132, run, sizeof run) != 0)
        return;
    put_bits(run, 32);
    put(" ");
    put_bits(run + 32, 24);
    put("..\n");
    run[0] ^= 1;
    run[7] ^= 1;
    run[30] ^= 1;
    put("the report of that run with three control bits wrong: ");
    if (zemrukste_report_part(sizeof limit, 2, 1, sizeof back, 32, run, sizeof run, back, sizeof back) != 0)
        return;
    put_bits(back, sizeof back);
    put("\n");
    put("the same with four control bits in all: refused with ");
    put_number(zemrukste_report_part(sizeof limit, 2, 1, sizeof back, 4, run, 4 + 132, back, sizeof back));
    put("\n");
}

/* A grant for terminal 9, and whose a run of payload and check is that the decoder chip gives. */
static int control(void)
{
    static const uint8_t grant[8] = {1, 0, 1, 1, 0, 0, 1, 0};
    static const uint8_t run[24] = {1, 0, 1, 1, 0, 0, 1, 0, 1, 0, 0, 0, 0, 1, 1, 1, 1, 0, 0, 1, 0, 0, 0, 0};
    uint8_t message[72];
    uint16_t terminal = 0;

    put("grant 10110010 for terminal 9, E = 72: ");
    if (zemrukste_control_build(grant, sizeof grant, 9, 72, message, sizeof message) != 0)
        return 1;
    put_bits(message, sizeof message);
    put("\nthe run ");
    put_bits(run, sizeof run);
    put(" is terminal ");
    if (zemrukste_control_whose(run, sizeof run, &terminal) != 0)
        return 1;
    put_number(terminal);
    put("'s\nthe same less its last nine bits: refused with ");
    put_number(zemrukste_control_whose(run, 15, &terminal));
    put("\n");
    return 0;
}

/* A room of one code block in its packed form, and back: the value above 3 becomes 2. */
static int change(void)
{
    static uint8_t room[ZEMRUKSTE_ROOM_PER_BLOCK] = {0, 1, 2, 3, 9, 1, 0, 2}, back[ZEMRUKSTE_ROOM_PER_BLOCK];
    static uint8_t packed[ZEMRUKSTE_PACKED_PER_BLOCK];

    put("a room that begins 01239102, packed: ");
    if (zemrukste_pack(1, room, sizeof room, packed, sizeof packed) != 0)
        return 1;
    put_number(packed[0]);
    put(" ");
    put_number(packed[1]);
    put(", and back: ");
    if (zemrukste_unpack(1, packed, sizeof packed, back, sizeof back) != 0)
        return 1;
    put_bits(back, 8);
    put("\nthe same for six code blocks: refused with ");
    put_number(zemrukste_pack(6, room, sizeof room, packed, sizeof packed));
    put("\n");
    return 0;
}

/* The block 1 to a unit with 512 soft bits for eight processes, so that the circle is cut at 64 of its 192 places, and with one
 * soft bit less. */
static int down(void)
{
    static const uint8_t block[1] = {1};
    uint8_t out[24];

    put("the block 1 to a unit with 512 soft bits for 8 processes, version 1, G = 24: ");
    if (zemrukste_build_down(block, sizeof block, 8, 1, 8, 512, 1, 2, 1, 1, 24, out, sizeof out) != 0)
        return 1;
    put_bits(out, sizeof out);
    put("\nthe same with 511: refused with ");
    put_number(zemrukste_build_down(block, sizeof block, 8, 1, 8, 511, 1, 2, 1, 1, 24, out, sizeof out));
    put("\n");
    return 0;
}

int main(void)
{
    static const uint8_t block[1] = {1};
    static const uint8_t header[3] = {1, 0, 1}, payload[5] = {1, 1, 0, 0, 1}, joined[8] = {1, 0, 1, 1, 1, 0, 0, 1};
    static const char *const names[6] = {"blocks", "longs", "long", "shorts", "short", "filler"};
    uint8_t sizes[24];
    uint8_t out[25] = {0};
    uint8_t again[24] = {0};
    char text[24];
    uint32_t number;
    size_t i;

    put("sizes of a block of 6121 bits:");
    if (zemrukste_sizes(6121, sizes, sizeof sizes) != 0)
        return 1;
    for (i = 0; i < 6; i++) {
        put(" ");
        put(names[i]);
        put(" ");
        put_number(number_at(sizes + 4 * i));
    }
    put("\n");

    put("codeword of the block 1, Q = 2, N = 1, version 0, G = 24: ");
    out[24] = 7;
    if (zemrukste_build(block, sizeof block, 2, 1, 0, 24, out, sizeof out) != 0)
        return 1;
    for (i = 0; i < 24; i++)
        text[i] = (char)('0' + out[i]);
    write(1, text, sizeof text);
    put(out[24] == 7 ? "\n" : " and a byte past G was written\n");

    put("codeword of 101 and 11001 in two buffers, the rest as before: ");
    if (zemrukste_build_two(header, sizeof header, payload, sizeof payload, 2, 1, 0, 24, out, sizeof out) != 0)
        return 1;
    for (i = 0; i < 24; i++)
        text[i] = (char)('0' + out[i]);
    write(1, text, sizeof text);
    put("\n");
    if (zemrukste_build(joined, sizeof joined, 2, 1, 0, 24, again, sizeof again) != 0)
        return 1;
    for (i = 0; i < 24 && out[i] == again[i]; i++)
        ;
    put(i == 24 ? "which is that of 10111001 in one\n" : "which is not that of 10111001 in one\n");

    if (down() != 0)
        return 1;

    put("the block 1 with version 4: refused with ");
    number = zemrukste_build(block, sizeof block, 2, 1, 4, 24, out, sizeof out);
    put_number(number);
    put("\n");

    put_report();

    put("no block at all: refused with ");
    number = zemrukste_build(0, 0, 2, 1, 0, 24, out, sizeof out);
    put_number(number);
    put("\n");
    if (control() != 0)
        return 1;
    return change();
}
