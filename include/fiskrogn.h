/* Fiskrogn for the capture process: two calls, both proved for every argument. Link with -lfiskrogn (pkg-config fiskrogn) where it is
 * installed, or with target/staticlib/libcapture.a of a checkout.
 *
 * Each call answers one 32-bit number. An answer of 65,536 or more is a refusal: its number times 65,536 plus its place. In a few words:
 * 1 the system, 2 the line number, 3 the byte count, 4 the walk's counts, 5 a word over 1023, 6 one of the first three words of a timing
 * code, 7 bit 9 of its fourth, 8 no legal code within one bit, 9 not the code due here, 10 no fill, 11 a reserved word for a sample or in an
 * ancillary packet, 14 no legal code within one bit, and an odd number of ones where 8 has an even one, 15 the parity of a packet's header,
 * 16 its checksum, 17 a packet that runs past its space. The place is 0 from fiskrogn_correct and for 1 to 4; otherwise it is the word's
 * offset in the line. fiskrogn(3) has the list, and docs/FORMAT.md of the sources, "Refusal numbers", the one whole table.
 */
#ifndef FISKROGN_H
#define FISKROGN_H

#include <stddef.h>
#include <stdint.h>

#define FISKROGN_REFUSED(answer) ((answer) >= 65536u)
#define FISKROGN_NUMBER(answer) ((answer) / 65536u)
#define FISKROGN_PLACE(answer) ((answer) % 65536u)

/* Whether V is 0 in the word that fiskrogn_correct answered, 1 or 0, where that is no refusal. */
#define FISKROGN_FALLEN(answer) (((answer) & 128u) == 0u)

/* Whether F of this line differs from that of the line before it, 1 or 0. */
#define FISKROGN_TURNS(system, line) ((system) == 525u ? (line) == 4u || (line) == 266u : (line) == 1u || (line) == 313u)

/* Corrects the fourth word of a timing code. Refuses with 5, with 7, and a code that has no legal one within one inverted bit with
 * 8 where its seven bits have an even number of ones, so that at least two are wrong, and with 14 where they have an odd number, so that at
 * least three are; in that order, place 0. Otherwise answers the corrected word with both low bits 0, plus 4,096 times the number (2 to 8) of
 * the bit that was repaired, or plus nothing if the word was clean. */
uint32_t fiskrogn_correct(uint32_t word);

/* Judges the line that a walk awaits, lent as `count` bytes, two per word, low byte first. The walk is given by all that it holds: its
 * system, the awaited line, the lines read and the repairs so far; its record, `fallen`: whether V was 0 in the last accepted line, 0 for no
 * and anything else for yes; and its `tally`: the number of repaired codes on accepted lines since the latest accepted line whose F differs
 * from the accepted line before it, that line included, or since the start. A fresh walk has 0 for both; a tally that exceeds the repairs is
 * refused with 4. Refuses with 1, 2, 4, 3 in that order, then at the lowest offset with a fault. An accepted line answers its repairs, 0 to
 * 2; the caller advances its own walk.
 *
 * The record counts only in 525, on lines 11 to 19 and 274 to 282, where after yes V = 0 is due. What the caller keeps of an accepted line
 * for the next call is that line's own V, bit 7 of the corrected fourth word of its EAV, bytes 6 and 7 of the line:
 *     fallen = FISKROGN_FALLEN(fiskrogn_correct(bytes[6] + 256u * bytes[7]));
 *
 * The tally begins anew on a line whose F differs from that of the line before, which are lines 4 and 266 in 525 and lines 1 and 313 in 625,
 * and the answer, the line's repairs, is added. With `line` the line that was judged, before it is advanced:
 *     tally = (FISKROGN_TURNS(system, line) ? 0 : tally) + answer; */
uint32_t fiskrogn_judge(uint32_t system, uint32_t line, uint32_t lines_read, uint32_t repairs, uint32_t fallen, uint32_t tally,
                        const uint8_t *bytes, size_t count);

#endif
