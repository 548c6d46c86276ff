/* The speed of Fiskrogn beside memcpy and plain C, measured side by side in one run. Prints ratios, never times. Before a table is measured
 * every result of its rows is compared with plain C's.
 * usage: bench [MIB]    how much material to stream, 40 MiB unless told; with 1 it is a test of that comparison.
 *        bench record SYSTEM START LINES clean|repaired|long|short    a recording to standard output, clean, with one bit inverted in each code,
 *                     or with the space between EAV and SAV of every line one long packet, or packets without user words. */
#include "../include/fiskrogn.h"

#include <stdio.h>
#include <stdlib.h>
#include <string.h>
#include <time.h>

uint32_t speed_judge(uint32_t system, uint32_t line, const uint16_t *words, size_t count);
uint32_t speed_take(uint32_t system, uint32_t line, const uint16_t *words, size_t count, uint16_t *y, size_t ys, uint16_t *cb,
                    size_t cbs, uint16_t *cr, size_t crs);
uint32_t speed_in_turn(uint32_t system, uint32_t line, const uint16_t *words, size_t count, uint16_t *y, size_t ys, uint16_t *cb,
                       size_t cbs, uint16_t *cr, size_t crs);
uint32_t speed_write(uint32_t system, uint32_t line, const uint16_t *y, size_t ys, const uint16_t *cb, size_t cbs,
                     const uint16_t *cr, size_t crs, const uint16_t *between, size_t betweens, const uint16_t *active, size_t actives,
                     uint16_t *words, size_t count);
uint32_t speed_code(const uint16_t *words, size_t count, uint16_t *out, size_t room);
uint32_t speed_decode(const uint16_t *words, size_t count, uint16_t *out, size_t room);
uint32_t speed_ask(uint32_t system, uint32_t start, const uint8_t *trailer, size_t trailer_size, const uint8_t *index, size_t index_size,
                   uint64_t length, uint32_t a, uint32_t b);

enum { RUN = 65536, ROUNDS = 7 };
enum { CODE = 4, Y_SAMPLES = 720, C_SAMPLES = 360, LAST_WORD = 1023, FIRST_SAMPLE = 4, LAST_SAMPLE = 1019, EVEN_FILL = 512, ODD_FILL = 64 };

typedef struct {
    uint32_t system;
    size_t words, sav, lines;
} System;

enum { WORDS_525 = 1716, WORDS_625 = 1728 };
static const System systems[] = {{525, WORDS_525, 272, 525}, {625, WORDS_625, 284, 625}};

/* ---- the material of one system: lines in turn, written by plain C, of random samples */
static const System *now;
static uint16_t *store, *target;
static size_t count; /* lines */
static uint16_t y[Y_SAMPLES], cb[C_SAMPLES], cr[C_SAMPLES];

/* the packets of every line, ready to be written: none, one long one, or as many without user words as the space between holds */
enum Packets { NO_PACKETS, LONG_PACKET, SHORT_PACKETS };
enum { HEADER = 6, MOST_USERS = 255, MOST_READY = 280 };
static uint16_t ready[MOST_READY];
static size_t ready_words;

static uint32_t number_of(size_t k) { return (uint32_t)(k % now->lines + 1); }

static uint16_t sample(void) {
    static uint64_t state = 656;
    state = state * 6364136223846793005u + 1442695040888963407u;
    return (uint16_t)(FIRST_SAMPLE + (state >> 33) % (LAST_SAMPLE - FIRST_SAMPLE + 1));
}

static void draw_samples(void) {
    for (size_t i = 0; i < Y_SAMPLES; i++) y[i] = sample();
    for (size_t i = 0; i < C_SAMPLES; i++) cb[i] = sample(), cr[i] = sample();
}

static uint16_t inverted(unsigned nine) { return (uint16_t)(nine | (nine >> 8 ^ 1) << 9); }

static uint16_t header_word(unsigned byte) { return inverted(byte | (unsigned)__builtin_parity(byte) << 8); }

static size_t put_packet(uint16_t *w, size_t users) {
    const uint16_t header[HEADER] = {0, LAST_WORD, LAST_WORD, header_word(0x61), header_word(0x01), header_word((unsigned)users)};
    memcpy(w, header, sizeof header);
    for (size_t i = 0; i < users; i++) w[HEADER + i] = sample();
    unsigned sum = 0;
    for (size_t i = 3; i < HEADER + users; i++) sum += w[i] & 511;
    w[HEADER + users] = inverted(sum & 511);
    return HEADER + users + 1;
}

static void make_ready(enum Packets packets) {
    size_t room = now->sav - CODE;
    ready_words = 0;
    if (packets == LONG_PACKET) ready_words = put_packet(ready, MOST_USERS);
    if (packets == SHORT_PACKETS)
        while (ready_words + HEADER + 1 <= room) ready_words += put_packet(ready + ready_words, 0);
}

static void check(int right, const char *what) {
    if (!right) {
        printf("FAILED: %s\n", what);
        exit(1);
    }
}

/* ---- what C does instead: the same words, and the same judgement of a clean line, leaving at the first fault, and in two passes */
static uint16_t fourth(const System *s, uint32_t line, int h) {
    int f = s->system == 525 ? line >= 266 || line <= 3 : line >= 313;
    int v = s->system == 525 ? line <= 19 || (line >= 264 && line <= 282) : line >= 624 || line <= 22 || (line >= 311 && line <= 335);
    return (uint16_t)(512 | f << 8 | v << 7 | h << 6 | (v ^ h) << 5 | (f ^ h) << 4 | (f ^ v) << 3 | (f ^ v ^ h) << 2);
}

static int code_differs(const uint16_t *w, uint16_t due) {
    return w[0] < LAST_WORD - 3 || w[0] > LAST_WORD || w[1] > 3 || w[2] > 3 || w[3] > LAST_WORD || __builtin_popcount((w[3] ^ due) >> 2) > 1;
}

static int is_blank(const System *s, uint32_t line) { return fourth(s, line, 0) >> 7 & 1; }

static uint16_t fill(size_t i) { return i % 2 ? ODD_FILL : EVEN_FILL; }

static void plain_code(uint16_t *w, uint16_t last) { w[0] = LAST_WORD, w[1] = 0, w[2] = 0, w[3] = last; }

static void plain_write(const System *s, uint32_t line, uint16_t *w) {
    for (size_t i = 0; i < s->words; i++) w[i] = fill(i);
    memcpy(w + CODE, ready, 2 * ready_words);
    plain_code(w, fourth(s, line, 1));
    plain_code(w + s->sav, fourth(s, line, 0));
    if (is_blank(s, line)) return;
    for (size_t i = 0; i < C_SAMPLES; i++) {
        uint16_t *group = w + s->sav + CODE + 4 * i;
        group[0] = cb[i], group[1] = y[2 * i], group[2] = cr[i], group[3] = y[2 * i + 1];
    }
}

/* the words of the packet at w, of which so many are left, or 0 where it is no good one */
static size_t plain_packet(const uint16_t *w, size_t left) {
    size_t users = w[5] & 255;
    unsigned sum = 0;
    for (size_t i = 3; i < HEADER; i++)
        if (w[i] != header_word(w[i] & 255)) return 0;
    if (left < HEADER + users + 1) return 0;
    for (size_t i = 3; i < HEADER + users; i++) {
        if (i >= HEADER && (w[i] < FIRST_SAMPLE || w[i] > LAST_SAMPLE)) return 0;
        sum += w[i] & 511;
    }
    return w[HEADER + users] == inverted(sum & 511) ? HEADER + users + 1 : 0;
}

static uint32_t plain_space(const uint16_t *w, size_t start, size_t end) {
    while (end - start > HEADER && w[start] == 0 && w[start + 1] == LAST_WORD && w[start + 2] == LAST_WORD) {
        size_t size = plain_packet(w + start, end - start);
        if (!size) return 1;
        start += size;
    }
    for (size_t i = start; i < end; i++)
        if (w[i] != fill(i)) return 1;
    return 0;
}

static uint32_t plain_judge(const System *s, uint32_t line, const uint16_t *w) {
    if (code_differs(w, fourth(s, line, 1)) || code_differs(w + s->sav, fourth(s, line, 0))) return 1;
    int blank = is_blank(s, line);
    if (plain_space(w, CODE, s->sav)) return 1;
    for (size_t i = s->sav + CODE; i < s->words; i++) {
        if (blank ? w[i] != fill(i) : w[i] < FIRST_SAMPLE || w[i] > LAST_SAMPLE) return 1;
    }
    return 0;
}

static unsigned not_fill(const uint16_t *w, size_t start, size_t end) {
    unsigned bad = 0;
    for (size_t i = start; i < end; i += 2) bad |= (unsigned)(w[i] ^ EVEN_FILL) | (unsigned)(w[i + 1] ^ ODD_FILL);
    return bad;
}

static uint32_t two_pass_judge(const System *s, uint32_t line, const uint16_t *w) {
    unsigned bad = code_differs(w, fourth(s, line, 1)) | code_differs(w + s->sav, fourth(s, line, 0));
    bad |= not_fill(w, CODE, s->sav) && plain_space(w, CODE, s->sav);
    if (is_blank(s, line))
        bad |= not_fill(w, s->sav + CODE, s->words);
    else
        for (size_t i = s->sav + CODE; i < s->words; i++) bad |= (uint16_t)(w[i] - FIRST_SAMPLE) > LAST_SAMPLE - FIRST_SAMPLE;
    return bad ? 1 + plain_judge(s, line, w) : 0;
}

/* ---- each row: one pass over the material, or over runs of serial words */
static void copy(void) { memcpy(target, store, 2 * count * now->words); }

#define OVER_LINES(name, call)                                 \
    static void name(void) {                                   \
        uint32_t wrong = 0;                                    \
        for (size_t k = 0; k < count; k++) {                   \
            uint32_t line = number_of(k);                      \
            const uint16_t *words = store + k * now->words;    \
            wrong |= (call);                                   \
        }                                                      \
        check(wrong == 0, #name);                              \
    }

OVER_LINES(plain_c, plain_judge(now, line, words))
OVER_LINES(two_pass_c, two_pass_judge(now, line, words))
OVER_LINES(judge_words, speed_judge(now->system, line, words, now->words))
OVER_LINES(judge_bytes, fiskrogn_judge(now->system, line, 0, 0, 0, 0, (const uint8_t *)words, 2 * now->words))
OVER_LINES(take_lines, speed_take(now->system, line, words, now->words, y, Y_SAMPLES, cb, C_SAMPLES, cr, C_SAMPLES))
OVER_LINES(in_turn, speed_in_turn(now->system, line, words, now->words, y, Y_SAMPLES, cb, C_SAMPLES, cr, C_SAMPLES))
OVER_LINES(write_lines, speed_write(now->system, line, y, Y_SAMPLES, cb, C_SAMPLES, cr, C_SAMPLES, ready, ready_words, ready, 0,
                                    target + (words - store), now->words))

/* ---- what is compared before it is timed: lines are written as C writes them, judged as C judges them, and taken as what was written */
static void fill_store(enum Packets packets) {
    draw_samples();
    make_ready(packets);
    for (size_t k = 0; k < count; k++) plain_write(now, number_of(k), store + k * now->words);
}

typedef uint32_t Taking(uint32_t, uint32_t, const uint16_t *, size_t, uint16_t *, size_t, uint16_t *, size_t, uint16_t *, size_t);

static void compare_taken(Taking *taking, const System *s, uint32_t line, const uint16_t *words, uint32_t number) {
    uint16_t y_taken[Y_SAMPLES] = {0}, cb_taken[C_SAMPLES] = {0}, cr_taken[C_SAMPLES] = {0};
    int samples = !is_blank(s, line);
    check(taking(s->system, line, words, s->words, y_taken, Y_SAMPLES, cb_taken, C_SAMPLES, cr_taken, C_SAMPLES) == number,
          "lines are taken as C judges them");
    for (size_t i = 0; i < Y_SAMPLES; i++) check(y_taken[i] == samples * y[i], "Y is what C wrote");
    for (size_t i = 0; i < C_SAMPLES; i++) check(cb_taken[i] == samples * cb[i] && cr_taken[i] == samples * cr[i], "CB and CR are what C wrote");
}

static void compare_line(const System *s, uint32_t line, const uint16_t *words) {
    uint32_t number = plain_judge(s, line, words);
    check(number == 0 && two_pass_judge(s, line, words) == number, "C judges its own lines");
    check(speed_judge(s->system, line, words, s->words) == number, "words are judged as C judges them");
    check(fiskrogn_judge(s->system, line, 0, 0, 0, 0, (const uint8_t *)words, 2 * s->words) == number, "bytes are judged as C judges them");
    compare_taken(speed_take, s, line, words, number);
    compare_taken(speed_in_turn, s, line, words, number);
}

static void compare_lines(void) {
    copy();
    check(memcmp(target, store, 2 * count * now->words) == 0, "memcpy copies");
    memset(target, 0, 2 * count * now->words);
    write_lines();
    check(memcmp(target, store, 2 * count * now->words) == 0, "lines are written as C writes them");
    for (size_t k = 0; k < count; k++) compare_line(now, number_of(k), store + k * now->words);
}

/* ---- serial words: C bit by bit, and word by word with the same two short steps */
static uint16_t plain_words[RUN], channel_words[RUN], back[RUN];

static void code_bit_by_bit(void) {
    unsigned past = 0, last = 0;
    for (size_t i = 0; i < RUN; i++) {
        unsigned out = 0;
        for (int b = 0; b < 10; b++) {
            unsigned x = (plain_words[i] >> b ^ past >> 4 ^ past >> 8) & 1;
            last ^= x;
            past = past << 1 | x;
            out |= last << b;
        }
        channel_words[i] = (uint16_t)out;
    }
}

static void decode_bit_by_bit(void) {
    unsigned past = 0, last = 0;
    for (size_t i = 0; i < RUN; i++) {
        unsigned out = 0;
        for (int b = 0; b < 10; b++) {
            unsigned bit = channel_words[i] >> b & 1, x = bit ^ last;
            last = bit;
            out |= ((x ^ past >> 4 ^ past >> 8) & 1) << b;
            past = past << 1 | x;
        }
        back[i] = (uint16_t)out;
    }
}

static void code_word_by_word(void) {
    unsigned held = 0, last = 0;
    for (size_t i = 0; i < RUN; i++) {
        unsigned low = plain_words[i] ^ held >> 4 ^ held;
        unsigned s = (plain_words[i] ^ low << 5 ^ held >> 4 ^ low << 9 ^ held) & 1023;
        unsigned c = s ^ s << 1;
        c ^= c << 2;
        c ^= c << 4;
        c = (c ^ c << 8 ^ (0 - last)) & 1023;
        channel_words[i] = (uint16_t)c;
        held = s >> 1;
        last = c >> 9;
    }
}

static void decode_word_by_word(void) {
    unsigned held = 0, last = 0;
    for (size_t i = 0; i < RUN; i++) {
        unsigned c = channel_words[i], s = (c ^ c << 1 ^ last) & 1023;
        back[i] = (uint16_t)((s ^ s << 5 ^ held >> 4 ^ s << 9 ^ held) & 1023);
        held = s >> 1;
        last = c >> 9;
    }
}

static void code(void) { check(speed_code(plain_words, RUN, channel_words, RUN) == 0, "coding"); }
static void decode(void) { check(speed_decode(channel_words, RUN, back, RUN) == 0, "decoding"); }

/* ---- measuring: rounds in turn over all rows, the best of each */
typedef struct {
    const char *name;
    void (*run)(void);
    double best;
} Row;

static double seconds(void) {
    struct timespec t;
    clock_gettime(CLOCK_MONOTONIC, &t);
    return (double)t.tv_sec + 1e-9 * (double)t.tv_nsec;
}

static void measure(Row *rows, size_t n, int times) {
    for (size_t i = 0; i < n; i++) rows[i].best = 1e9;
    for (int round = 0; round < ROUNDS; round++)
        for (size_t i = 0; i < n; i++) {
            double began = seconds();
            for (int k = 0; k < times; k++) rows[i].run();
            double took = seconds() - began;
            if (took < rows[i].best) rows[i].best = took;
        }
}

static void lines_table(const System *s, size_t mib) {
    now = s;
    count = mib * 1048576 / (2 * s->words);
    fill_store(NO_PACKETS);
    compare_lines();
    Row rows[] = {{"memcpy", copy, 0},         {"plain C, first fault", plain_c, 0}, {"C in two passes", two_pass_c, 0},
                  {"judge words", judge_words, 0}, {"judge bytes", judge_bytes, 0},      {"take", take_lines, 0},
                  {"judge, then take", in_turn, 0}, {"write", write_lines, 0}};
    size_t n = sizeof rows / sizeof *rows;
    measure(rows, n, 1);
    printf("%u lines            of memcpy   times plain C\n", s->system);
    for (size_t i = 0; i < n; i++) printf("%-22s %8.2f %12.1f\n", rows[i].name, rows[0].best / rows[i].best, rows[1].best / rows[i].best);
}

/* lines with packets beside lines without, in one run: how quickly each judge goes, of the same judge where there are none */
static void packets_table(const System *s) {
    static const char *names[] = {"no packets", "one long packet", "packets without users"};
    double best[3][2];
    for (int k = 0; k < 3; k++) {
        Row rows[] = {{"judge words", judge_words, 0}, {"judge bytes", judge_bytes, 0}};
        now = s;
        fill_store((enum Packets)k);
        compare_lines();
        measure(rows, 2, 1);
        for (int i = 0; i < 2; i++) best[k][i] = rows[i].best;
    }
    printf("%u lines            judge words   judge bytes\n", s->system);
    for (int k = 0; k < 3; k++) printf("%-22s %8.2f %13.2f\n", names[k], best[0][0] / best[k][0], best[0][1] / best[k][1]);
}

/* a run gives these words, whatever stood where it writes them */
static void compare_run(void (*run)(void), uint16_t *given, const uint16_t *due, const char *what) {
    memset(given, 0, RUN * sizeof *given);
    run();
    check(memcmp(due, given, RUN * sizeof *given) == 0, what);
}

static void serial_table(void) {
    for (size_t i = 0; i < RUN; i++) plain_words[i] = (uint16_t)(sample() & 1023);
    code_bit_by_bit();
    static uint16_t coded[RUN];
    memcpy(coded, channel_words, sizeof coded);
    compare_run(code_word_by_word, channel_words, coded, "C by words codes as C by bits");
    compare_run(code, channel_words, coded, "coding agrees with C by bits");
    compare_run(decode_bit_by_bit, back, plain_words, "C by bits decodes");
    compare_run(decode_word_by_word, back, plain_words, "C by words decodes as C by bits");
    compare_run(decode, back, plain_words, "decoding agrees with C by bits");
    Row rows[] = {{"code, C by bits", code_bit_by_bit, 0},     {"code, C by words", code_word_by_word, 0},     {"code", code, 0},
                  {"decode, C by bits", decode_bit_by_bit, 0}, {"decode, C by words", decode_word_by_word, 0}, {"decode", decode, 0}};
    measure(rows, 6, 20);
    printf("serial words           times C by bits   times C by words\n");
    for (size_t i = 0; i < 6; i++) {
        const Row *bits = &rows[i / 3 * 3];
        printf("%-22s %10.1f %18.2f\n", rows[i].name, bits[0].best / rows[i].best, bits[1].best / rows[i].best);
    }
}

/* ---- asking over an index of a million entries, beside a copy of its bytes */
enum { ENTRIES = 1000000, ENTRY = 6, TRAILER = 16, LINES_A_UNIT = 10 };
static uint8_t asked_index[ENTRIES * ENTRY], copied_index[ENTRIES * ENTRY], asked_trailer[TRAILER];
static const uint64_t asked_lines = (uint64_t)ENTRIES * LINES_A_UNIT, asked_offset = (uint64_t)ENTRIES * LINES_A_UNIT * 2 * WORDS_625;

static void put_number(uint8_t *at, uint64_t number, int bytes) {
    for (int i = 0; i < bytes; i++) at[i] = (uint8_t)(number >> 8 * i);
}

static uint32_t ask_of(uint32_t a, uint32_t b) {
    return speed_ask(625, 1, asked_trailer, TRAILER, asked_index, sizeof asked_index, asked_offset + sizeof asked_index + TRAILER, a, b);
}

static void ask(void) { check(ask_of(0, (uint32_t)asked_lines - 1) == 0, "asking"); }
static void copy_index(void) { memcpy(copied_index, asked_index, sizeof asked_index); }

static void index_table(void) {
    for (uint32_t i = 0; i < ENTRIES; i++) {
        put_number(asked_index + i * ENTRY, i * LINES_A_UNIT, 4);
        put_number(asked_index + i * ENTRY + 4, 1 + i % 2, 2);
    }
    put_number(asked_trailer, asked_offset, 8);
    put_number(asked_trailer + 8, ENTRIES, 4);
    put_number(asked_trailer + 12, asked_lines, 4);
    check(ask_of(0, (uint32_t)asked_lines) == 20 && ask_of(1, 0) == 20, "a range that leaves the file is told");
    asked_index[sizeof asked_index - 2] = 3;
    check(ask_of(0, 0) == 19, "the last entry is looked at");
    asked_index[sizeof asked_index - 2] = 1;
    copy_index();
    check(memcmp(copied_index, asked_index, sizeof asked_index) == 0, "memcpy copies");
    Row rows[] = {{"memcpy", copy_index, 0}, {"ask", ask, 0}};
    measure(rows, 2, 5);
    printf("a million entries      of memcpy\n%-22s %8.2f\n", "ask", rows[0].best / rows[1].best);
}

/* ---- a recording for the confirming program */
static int write_recording(uint32_t system, uint32_t start, size_t lines, const char *kind) {
    static uint16_t line[WORDS_625];
    now = &systems[system == 625];
    uint16_t header[2] = {(uint16_t)system, (uint16_t)start};
    fwrite(header, 2, 2, stdout);
    draw_samples();
    make_ready(*kind == 'l' ? LONG_PACKET : *kind == 's' ? SHORT_PACKETS : NO_PACKETS);
    for (size_t k = 0; k < lines; k++) {
        check(speed_write(system, number_of(start - 1 + k), y, Y_SAMPLES, cb, C_SAMPLES, cr, C_SAMPLES, ready, ready_words, ready, 0, line, now->words) == 0,
              "a line is written");
        if (*kind == 'r') line[CODE - 1] ^= 4, line[now->sav + CODE - 1] ^= 256;
        fwrite(line, 2, now->words, stdout);
    }
    return ferror(stdout) != 0;
}

int main(int argc, char **argv) {
    if (argc == 6 && strcmp(argv[1], "record") == 0)
        return write_recording((uint32_t)atoi(argv[2]), (uint32_t)atoi(argv[3]), strtoul(argv[4], NULL, 10), argv[5]);
    size_t mib = argc > 1 ? strtoul(argv[1], NULL, 10) : 40;
    store = malloc(mib * 1048576);
    target = malloc(mib * 1048576);
    check(store && target && mib > 0, "memory");
    for (size_t i = 0; i < 2; i++) {
        lines_table(&systems[i], mib);
        packets_table(&systems[i]);
    }
    serial_table();
    index_table();
    return 0;
}
