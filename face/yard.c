/* June in C: the story of examples/june.txt, told by the calls on slots. Car 7's limit is heard and released; car 9 comes into the
 * same slot, and until its own data is heard nothing is released, least of all car 7's limit. The program keeps the state and the
 * store, hands both to each call, and prints what it got. Only write(2) of the C library is used, so that it needs no C headers but
 * the compiler's own. */
#include "zemrukste.h"

#ifdef __cplusplus
extern "C"
#endif
long write(int fd, const void *bytes, size_t count);

enum { LIMIT_LEN = 16, WHOLE_LEN = 132 };

static uint8_t state[ZEMRUKSTE_STATE_LEN];
static uint8_t store[ZEMRUKSTE_ROOM_PER_BLOCK];

static void put(const char *text)
{
    size_t n = 0;
    while (text[n] != 0)
        n++;
    write(1, text, n);
}

static void put_number(size_t number)
{
    char digits[20];
    size_t at = sizeof digits;
    do {
        digits[--at] = (char)('0' + number % 10);
        number /= 10;
    } while (number != 0);
    write(1, digits + at, sizeof digits - at);
}

/* What a call gave back: ok, or the number of the refusal. */
static void put_answer(uint32_t number)
{
    put(number == ZEMRUKSTE_OK ? "ok" : "refused ");
    if (number != ZEMRUKSTE_OK)
        put_number(number);
}

static void open_for(uint16_t terminal)
{
    put("open for car ");
    put_number(terminal);
    put(": ");
    put_answer(zemrukste_open(state, sizeof state, 0, terminal, LIMIT_LEN, store, sizeof store));
    put("\n");
}

static void close_for(uint16_t terminal)
{
    put("close for car ");
    put_number(terminal);
    put(": ");
    put_answer(zemrukste_close(state, sizeof state, 0, terminal));
    put("\n");
}

/* A transmission of a limit: its codeword of so many bits goes over the air and is received. */
static void send(uint16_t terminal, uint8_t limit, size_t version, size_t g)
{
    uint8_t block[LIMIT_LEN], codeword[WHOLE_LEN];
    size_t i, count = 0;
    uint32_t number;

    for (i = 0; i < LIMIT_LEN; i++)
        block[i] = (uint8_t)(i < 8 ? 0 : limit >> (LIMIT_LEN - 1 - i) & 1);
    put("car ");
    put_number(terminal);
    put(" sends ");
    put_number(limit);
    put(" kW, version ");
    put_number(version);
    put(", ");
    put_number(g);
    put(" bits: ");
    number = zemrukste_build(block, sizeof block, 2, 1, version, g, codeword, sizeof codeword);
    if (number == ZEMRUKSTE_OK)
        number = zemrukste_receive(state, sizeof state, 0, terminal, 2, 1, version, codeword, g, store, sizeof store, &count);
    put_answer(number);
    if (number == ZEMRUKSTE_OK) {
        put(", data places that lack a bit: ");
        put_number(count);
    }
    put("\n");
}

static void read_for(uint16_t terminal)
{
    uint8_t block[LIMIT_LEN];
    size_t i, limit = 0, count = 0;
    uint32_t number = zemrukste_read(state, sizeof state, 0, terminal, store, sizeof store, block, sizeof block, &count);

    put("read for car ");
    put_number(terminal);
    put(": ");
    put_answer(number);
    if (number == ZEMRUKSTE_LACKING) {
        put(", data places that lack a bit: ");
        put_number(count);
    }
    if (number == ZEMRUKSTE_OK) {
        for (i = 0; i < LIMIT_LEN; i++)
            limit = 2 * limit + block[i];
        put(", ");
        put_number(limit);
        put(" kW");
    }
    put("\n");
}

int main(void)
{
    put("one slot for one code block: ");
    put_answer(zemrukste_new(state, sizeof state, 1, 1));
    put("\n");

    open_for(7);
    send(7, 80, 0, WHOLE_LEN);
    read_for(7);
    close_for(7);

    put("-- the room still holds car 7's bits; car 9 comes, and its first transmission is lost\n");
    open_for(9);
    send(9, 40, 2, 64);
    read_for(9);
    read_for(7);

    put("-- a repeat brings the data but for two places, the next repeat the rest\n");
    send(9, 40, 0, 130);
    read_for(9);
    send(9, 40, 3, 64);
    read_for(9);
    close_for(9);
    read_for(9);
    return 0;
}
