/* correction PATTERN TIMES: corrects the fourth word of seven bits so many times, and prints the answer. With PATTERN 128 it calls a
 * function that hands its number back, in two instructions, so that what the calls themselves take can be subtracted. */
#include <stdint.h>
#include <stdio.h>
#include <stdlib.h>

#include "fiskrogn.h"

static uint32_t handed_back(uint32_t word) { return word; }

int main(int argc, char **argv) {
    if (argc != 3) return 2;
    uint32_t pattern = (uint32_t)strtoul(argv[1], NULL, 10), word = 512 + 4 * pattern, answer = 0;
    uint32_t (*volatile correct)(uint32_t) = pattern < 128 ? fiskrogn_correct : handed_back;
    for (unsigned long times = strtoul(argv[2], NULL, 10); times > 0; times--) answer = correct(word);
    printf("%lu\n", (unsigned long)answer);
    return 0;
}
