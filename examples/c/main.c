/* Plays three frames through the C API: one with cues, one that holds them, and one whose line is damaged. */
#include "../../lefasumu.h"

#include <stdio.h>
#include <string.h>

enum { SLOTS = 8, ROW = 128, NUMBERS = LEFASUMU_MEMORY };

static double memory[NUMBERS], input[(SLOTS + 6) * ROW], left[SLOTS * ROW], right[SLOTS * ROW];

static uint32_t play(const char *line) {
    uint32_t answer = lefasumu_frame(memory, NUMBERS, (const uint8_t *)line, strlen(line), input, (SLOTS + 6) * ROW, 64, left, SLOTS * ROW, right, SLOTS * ROW);
    printf("answer %u, band 20 of the last slot: left %.6f, right %.6f\n", (unsigned)answer, left[(SLOTS - 1) * ROW + 40], right[(SLOTS - 1) * ROW + 40]);
    return answer;
}

int main(void) {
    if (lefasumu_memory() != NUMBERS || lefasumu_start(memory, NUMBERS, SLOTS) != 0)
        return 1;
    for (size_t i = 0; i < (SLOTS + 6) * ROW; i++)
        input[i] = i % 2 == 0 ? 0.5 : 0.0;
    /* IID in one envelope, 10 bands, frequency rows: every index 5 */
    int failed = play("010000010005000000000000000000") != 0;
    failed |= play("") != 0;
    failed |= play("0100000100050000000000000000zz") != 2;
    return failed;
}
