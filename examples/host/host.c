/*
 * A host in C: loads a method image, runs it a step at a time, and reads what record 0 was given from the lent memory; then some refusals,
 * and those that only a host can get: of a state memory of another length, and of an output that is too short.
 *
 * usage: host IMAGE
 */
#include <stdio.h>
#include <string.h>

#include "amulingsad.h"

/* Where record 0 keeps its status, 1 while it runs (docs/STATE.md). */
#define STATUS 8158

/* Where record 0 keeps its environment : how many values, and the values, newest first, low byte first. */
#define ENVIRONMENT_COUNT (8158 + 4)
#define ENVIRONMENT (8158 + 77)

static uint8_t state[AMUL_STATE_SIZE];

static int32_t environment_value(int place) {
    const uint8_t *bytes = state + ENVIRONMENT + 4 * place;
    uint32_t value = bytes[0] | bytes[1] << 8 | bytes[2] << 16 | (uint32_t)bytes[3] << 24;
    return (int32_t)value;
}

/* Runs a step at a time and says which record or end was taken. The last line is that of the program trace. */
static uint8_t run(void) {
    static const char *const verdicts[] = {"spent", "finished", "stuck"};
    unsigned made = 0;
    uint8_t next = 0, verdict = AMUL_SPENT;
    while (verdict == AMUL_SPENT) {
        uint16_t steps;
        uint8_t number = amul_run(state, sizeof state, 1, next, &steps, &next, &verdict);
        if (number != 0) {
            return number;
        }
        if (steps == 1) {
            unsigned position = (next + 95u) % 96;
            printf("%u %c%u\n", ++made, position < 32 ? 'R' : 'E', position < 32 ? position : position - 32);
        }
        if (steps == 1 && next == 1 && state[ENVIRONMENT_COUNT] == 2) {
            printf("gas %d, result %d\n", (int)environment_value(1), (int)environment_value(0));
        }
    }
    printf("%s %u %u\n", verdicts[verdict], made, (unsigned)next);
    return 0;
}

/* Calls that are refused: the number of each, and that the state memory is as it was. */
static void refusals(uint8_t *image, size_t image_len) {
    static uint8_t before[AMUL_STATE_SIZE];
    static uint8_t out[511];
    const uint8_t code[1] = {0x03};
    memcpy(before, state, sizeof state);
    image[100] ^= 1;
    printf("a damaged image: %u\n", amul_load(state, sizeof state, image, image_len));
    printf("record 40: %u\n", amul_ask_record(state, sizeof state, 40));
    printf("a state memory that is too short: %u\n", amul_ask_end(state, sizeof state - 1, 0));
    printf("an output that is too short: %u\n", amul_write(code, sizeof code, out, sizeof out));
    printf("the state memory is %s\n", memcmp(before, state, sizeof state) == 0 ? "as it was" : "changed");
}

/* Asks of a state memory of another length: 24 comes before 1 (a status of 3 is none), 2 and 16, and every byte stays. */
static void lengths(void) {
    static const struct {
        size_t len;
        uint8_t status;
        char kind;
        uint32_t number;
    } asks[] = {
        {AMUL_STATE_SIZE - 1, 1, 'R', 0},  {AMUL_STATE_SIZE + 1, 1, 'R', 0},  {1, 1, 'R', 0},
        {AMUL_STATE_SIZE - 1, 3, 'R', 0},  {AMUL_STATE_SIZE - 1, 1, 'R', 32}, {AMUL_STATE_SIZE + 1, 1, 'E', 64},
        {AMUL_STATE_SIZE + 1, 3, 'E', 0},
    };
    static uint8_t lent[AMUL_STATE_SIZE + 1], before[AMUL_STATE_SIZE + 1];
    const uint8_t code[1] = {0x03};
    uint8_t image[512];
    amul_write(code, sizeof code, image, sizeof image);
    amul_load(lent, AMUL_STATE_SIZE, image, sizeof image);
    for (size_t i = 0; i < sizeof asks / sizeof asks[0]; i++) {
        lent[STATUS] = asks[i].status;
        memcpy(before, lent, sizeof lent);
        uint8_t number = asks[i].kind == 'R' ? amul_ask_record(lent, asks[i].len, asks[i].number)
                                             : amul_ask_end(lent, asks[i].len, asks[i].number);
        printf("%zu bytes, status %u, %c %u: %u, %s\n", asks[i].len, asks[i].status, asks[i].kind, (unsigned)asks[i].number, number,
               memcmp(before, lent, sizeof lent) == 0 ? "as it was" : "changed");
    }
}

/* A number that nearly any change of a byte changes. */
static unsigned digest(const uint8_t *bytes, size_t len) {
    unsigned sum = 1;
    for (size_t i = 0; i < len; i++) {
        sum = (sum * 31 + bytes[i]) % 65521;
    }
    return sum;
}

/* Writes at the borders of a code's length and of the room: 26 comes before 27, and what is past the room or the blocks stays. */
static void writes(void) {
    static const struct {
        size_t code_len, out_len;
    } borders[] = {
        {0, 8704},   {0, 0},      {1, 8704},    {506, 511},   {506, 512},   {506, 8704},  {507, 1023},
        {507, 1024}, {507, 8704}, {8156, 8191}, {8156, 8192}, {8156, 8704}, {8157, 8704}, {8157, 0},
    };
    static uint8_t code[8157], out[8704];
    for (size_t i = 0; i < sizeof code; i++) {
        code[i] = (uint8_t)(i % 251 + 1);
    }
    for (size_t i = 0; i < sizeof borders / sizeof borders[0]; i++) {
        memset(out, 170, sizeof out);
        uint8_t number = amul_write(code, borders[i].code_len, out, borders[i].out_len);
        printf("write %zu into %zu: %u, digest %u\n", borders[i].code_len, borders[i].out_len, number, digest(out, sizeof out));
    }
}

int main(int argc, char **argv) {
    static uint8_t image[AMUL_IMAGE_SIZE + 1]; /* one more, so that a longer image is seen */
    FILE *file = argc == 2 ? fopen(argv[1], "rb") : NULL;
    if (file == NULL) {
        fprintf(stderr, "usage: host IMAGE\n");
        return 2;
    }
    size_t image_len = fread(image, 1, sizeof image, file);
    fclose(file);

    uint8_t number = amul_load(state, sizeof state, image, image_len);
    if (number == 0) {
        number = run();
    }
    if (number != 0) {
        printf("refused %u\n", number);
        return 1;
    }
    uint8_t count, lowest;
    if (amul_free_ends(state, sizeof state, &count, &lowest) == 0) {
        printf("%u ends are free, the lowest is %u\n", count, lowest);
    }
    refusals(image, image_len);
    lengths();
    writes();
    return 0;
}
