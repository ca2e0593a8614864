/* Gets every answer of lefasumu.h from the library, and compares the header's numbers with what the calls return. Compiled as C and as C++. */
#include "../../lefasumu.h"

#include <stdio.h>
#include <string.h>

#define SLOTS 6
#define ROW 128
#define NUMBERS LEFASUMU_MEMORY
#define HEARD ((SLOTS + 6) * ROW)
#define WRITTEN (SLOTS * ROW)

static double memory[NUMBERS], before[NUMBERS], input[HEARD], left[WRITTEN], right[WRITTEN];

/* What the outputs hold before a call: more than any output can be. */
static const double mark = 1e300;

static int failed = 0;

/* A call must answer as it is said. After LEFASUMU_DONE both outputs are written whole; after any other answer no buffer has changed. */
static void call(const char *what, uint32_t wanted, const char *line, size_t input_length, size_t left_length) {
    uint32_t answer;
    size_t i, written = 0;
    memcpy(before, memory, sizeof memory);
    for (i = 0; i < WRITTEN; i++)
        left[i] = right[i] = mark;
    answer = lefasumu_frame(memory, NUMBERS, (const uint8_t *)line, strlen(line), input, input_length, 64, left, left_length, right, WRITTEN);
    if (answer != wanted) {
        printf("c-api: %s: answer %u, the header has %u\n", what, (unsigned)answer, (unsigned)wanted);
        failed = 1;
    }
    if (answer != LEFASUMU_DONE && memcmp(before, memory, sizeof memory) != 0) {
        printf("c-api: %s: the memory changed\n", what);
        failed = 1;
    }
    for (i = 0; i < WRITTEN; i++)
        written += (size_t)(left[i] < mark) + (size_t)(right[i] < mark);
    if (written != (answer == LEFASUMU_DONE ? 2u * WRITTEN : 0u)) {
        printf("c-api: %s: %lu numbers of the outputs were written\n", what, (unsigned long)written);
        failed = 1;
    }
}

static void number(const char *what, uint32_t found, uint32_t wanted) {
    if (found != wanted) {
        printf("c-api: %s: %u, wanted %u\n", what, (unsigned)found, (unsigned)wanted);
        failed = 1;
    }
}

int main(void) {
    const char *cued = "010000010005000000000000000000";
    number("lefasumu_memory", (uint32_t)lefasumu_memory(), NUMBERS);
    number("start", lefasumu_start(memory, NUMBERS, SLOTS), LEFASUMU_DONE);
    number("start with another length", lefasumu_start(memory, NUMBERS - 1, SLOTS), LEFASUMU_BUFFERS);
    call("an empty line first", LEFASUMU_QUIET, "", HEARD, WRITTEN);
    call("a letter that is no digit", LEFASUMU_CHARACTER, "0100000100050000000000000000zz", HEARD, WRITTEN);
    call("an odd count of digits", LEFASUMU_LENGTH, "01000001000500000000000000000", HEARD, WRITTEN);
    call("a mode of 6", LEFASUMU_FIELD, "010600010005000000000000000000", HEARD, WRITTEN);
    call("a row too few", LEFASUMU_BUFFERS, cued, HEARD - ROW, WRITTEN);
    call("an output too short", LEFASUMU_BUFFERS, cued, HEARD, WRITTEN - 1);
    input[7] = 1048577.0;
    call("a sample too large", LEFASUMU_SAMPLE, cued, HEARD, WRITTEN);
    input[7] = 1048576.0;
    call("a cue line", LEFASUMU_DONE, cued, HEARD, WRITTEN);
    call("an empty line after it", LEFASUMU_DONE, "", HEARD, WRITTEN);
    return failed;
}
