/* How a capture process keeps its walk with Fiskrogn: reads lines of one system from standard input, as bytes, and judges each.
 * usage: capture SYSTEM START < lines
 * The lines have no header. It stops at the first refusal and says what it was. Status: 0 where every line was accepted, 1 where one was
 * refused, 2 where the input could not be read, there was none, or the use is wrong. */
#include <fiskrogn.h>

#include <stdio.h>
#include <stdlib.h>

/* A number of one to nine digits; what is longer, or no number, stands for none. */
static int number_of(const char *text, uint32_t *number) {
    char *end;
    if (*text < '0' || *text > '9') return 0;
    unsigned long long value = strtoull(text, &end, 10);
    *number = (uint32_t)value;
    return *end == '\0' && end - text <= 9;
}

int main(int argc, char **argv) {
    uint32_t system, line;
    if (argc != 3 || !number_of(argv[1], &system) || !number_of(argv[2], &line)) {
        fprintf(stderr, "usage: capture SYSTEM START < lines\n");
        return 2;
    }
    uint32_t lines_read = 0, repairs = 0, fallen = 0, tally = 0;
    size_t size = system == 525 ? 2 * 1716 : 2 * 1728;
    static uint8_t bytes[2 * 1728];

    /* one fourth word by itself: 624 is 628 with bit 2 inverted */
    uint32_t word = fiskrogn_correct(624);
    printf("624 corrects to %u, bit %u\n", word % 4096u, word / 4096u);

    for (;;) {
        size_t got = fread(bytes, 1, size, stdin);
        /* bytes before a failed read are no line that was cut short */
        if (ferror(stdin)) {
            perror("capture: the input could not be read");
            return 2;
        }
        if (got == 0) break;
        uint32_t answer = fiskrogn_judge(system, line, lines_read, repairs, fallen, tally, bytes, got);
        if (FISKROGN_REFUSED(answer)) {
            printf("line %u refused: %u at %u\n", line, FISKROGN_NUMBER(answer), FISKROGN_PLACE(answer));
            return 1;
        }
        lines_read += 1;
        repairs += answer;
        fallen = FISKROGN_FALLEN(fiskrogn_correct(bytes[6] + 256u * bytes[7]));
        tally = (FISKROGN_TURNS(system, line) ? 0 : tally) + answer;
        line = line == system ? 1 : line + 1;
    }
    if (lines_read == 0) {
        fprintf(stderr, "capture: there is no line to judge\n");
        return 2;
    }
    printf("%u lines, %u repairs, %u in this field\n", lines_read, repairs, tally);
    if (fflush(stdout) != 0) {
        perror("capture: the output could not be written");
        return 2;
    }
    return 0;
}
