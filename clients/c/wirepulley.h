/* Wirepulley: one study case for GB transmission charges in, a tariff sheet or a refusal out.
 *
 * Link with target/staticlib/libwirepulley.a, which `./do library` makes (x86-64 Linux, on a processor of x86-64-v2 or later: a library
 * does not look at where it runs). It needs memcpy and memset and nothing else:
 * no heap, no files, no locks, no state, so any number of threads may call it. A call takes at most WIREPULLEY_STACK bytes of stack;
 * a stack that is too small ends the program by a signal, since frames are taken page by page.
 *
 * Every call has one answer, whatever the bytes and numbers are. What the checker cannot see is kept by the caller:
 *   - each pointer leads to as many elements as its count says; where the count is 0 the pointer is not used and may be NULL;
 *   - `answer` leads to four numbers and is never NULL;
 *   - runs (int64_t) and `answer` (uint64_t) are aligned for their type, as in any C call; bytes may stand anywhere;
 *   - `sheet` and `answer` overlap neither each other nor anything else that the call is given.
 *
 * A case is of edition 1 or 2. Edition 1 has one background and three solutions: base, wider and local. Edition 2 has two backgrounds,
 * year round and peak: its base and wider solutions are year round's, and peak has a base and a wider solution of its own. A share file
 * may go with it. wirepulley_write_shared and wirepulley_judge_shared take all of this. wirepulley_write_five and wirepulley_judge_five
 * take either edition without a share file, wirepulley_write and wirepulley_judge edition 1 alone: their clients stay as they are.
 *
 * An answer is four numbers. Rows count from 1. A newer library may have refusals above 16, so look a number up in a table of your own
 * only where the table has it. This table goes by number; the order of judging stands below it.
 *
 *   number                          system     row                           length
 *   0  accepted                     0          0                             bytes of the sheet
 *   1  the file is not whole        0          0                             0
 *      (length, trailer, version, edition, counts, chain of sections), or a run has another length than nodes plus circuits, a run of
 *      peak in edition 1 another than 0; more than 512 circuits, or 480 in a file of version 2, or 320 in one of edition 2
 *   2  a setting out of its range   0          0                             0
 *   3  a node row malformed, out    0          the node                      0
 *      of range, or its name seen earlier
 *   4  a circuit row malformed,     0          the circuit                   0
 *      out of range, an end unknown, or both ends the same; a factor that is neither 0 nor 1,000 to 30,000, or 0 at 320 or 525 kV
 *   5  a station row malformed,     0          the station                   0
 *      out of range, its node unknown, or its identifier seen earlier
 *   6  a node out of reach of the   0          the lowest such node          0
 *      reference
 *   7  a total out of its range, or 0          0                             0
 *      total TEC below total demand (TEC of every plant type counts here, interconnectors' too)
 *   8  a proposed number out of     the system the number's place in its     0
 *      range, or the reference's               run, circuits after nodes
 *      potential not 0
 *   9  balance broken at a node     the system the lowest such node          0
 *   10 the misses' sum too high     the system 0                             0
 *   11 a direction in doubt: a base 1 or 4     the lowest such circuit       0
 *      flow above 200,000,000 and up to 400,000,000 mW, in the background that the circuit counts for; always 1 in edition 1
 *   12 `sheet` shorter than the     0          0                             0
 *      sheet (never of the two that judge)
 *   13 no chargeable TEC: all of it 0          0                             0
 *      is of interconnectors (plant type 3); at least one kilowatt has to be of another type
 *   14 generation does not scale to 0          0                             0
 *      demand in a background of edition 2: the plant types with a fixed share come to more than demand, or the others have less TEC
 *      than is left of it (below)
 *   15 a background in doubt, in    0          the lowest such circuit       0
 *      edition 2: a circuit's year round flow is greater than its peak flow by more than 400,000,000 and up to 800,000,000 mW
 *   16 the share file of edition 2  0          0 for its length or a load    0
 *      is wrong (below)                        factor, else the lowest zone
 *                                              with a fault
 *
 * Systems: 1 base, 2 wider, 3 local (in edition 2: year round's base and wider, and local), 4 peak base, 5 peak wider. The first that
 * holds is answered, in this order: 1 to 7; 13; 14; 16; 8, 9, 10 of system 1, then of 4; 15; 11; 8, 9, 10 of system 2, then of 5, then
 * of 3; 12. Edition 1 has no 14, 15 and 16 and no systems 4 and 5.
 *
 * A file is of version 1 or 2, as its last eight bytes say (version, length). In version 2 a circuit row has 48 bytes: behind the 44 of
 * version 1 a factor in thousandths, for a subsea or HVDC circuit. It is used for both lengths of the row in place of the settings'
 * factors; 0 means those. 320 and 525 kV have none there, so they need one, and are refused as 4 in version 1. A case of edition 1 of
 * up to 480 circuits without factors has the same answer in either version. The longest file is of version 1: 63,616 bytes.
 *
 * The settings name the edition, in the four bytes at offset 52: 0 is edition 1, 2 is edition 2, and any other number is refused as 1.
 * Edition 2 is in files of version 2 alone. It has nine sections, since peak base and peak wider follow the local solution, and so a
 * trailer of 80 bytes in place of 64. The longest file of edition 2 has 61,072 bytes.
 *
 * The backgrounds of edition 2. Some plant types run at a fixed share of their TEC: year round 1 at 70 %, 2 at 85 %, 3 at 100 %, 5 at
 * 50 % and 6 at 0; at peak 1 and 3 at 0. The other types share what is left of demand. A circuit without local mark counts for year
 * round where its base flow is greater there by more than 800,000,000 mW in magnitude, and for peak where it is not greater by more than
 * 400,000,000; its length stands in the wider solution of that background alone. A marked circuit goes by year round.
 *
 * The sheet of edition 2. Its `C` line has peak's C, then year round's. A `G` or `D` line has the zone; peak's metres, metres after C and
 * tariff; year round's three; the residual, and the total of both tariffs and the residual. `L` and `R` lines are those of edition 1.
 *
 * The share file of edition 2 is numbers of four bytes, little-endian: for each generation zone, 1 first, the next zone inward, 0 for the
 * one centre and for zones without TEC; then the load factors of plant types 1 to 7 in thousandths, 0 to 1,000. So its length is
 * 4 x (generation zones + 7) bytes, at most 156. An empty one is none, and edition 1 does not look at it. A zone has a fault where it
 * names one that does not exist or has no TEC, names one though it has no TEC itself, is a second centre (it has TEC and names none, and
 * so does a lower zone), or where following the numbers from it never ends. TEC of every plant type counts here.
 *
 * With a share file year round's three on a `G` line are the not-shared metres, these plus C and their tariff; the shared metres and their
 * tariff follow. The total leaves the shared tariff out: that is paid on other kilowatts, the zone's chargeable TEC of each plant type
 * times the type's load factor, added up and rounded down to a kilowatt. The other lines have their form, and C is the same.
 *
 * Interconnectors do not pay. Their TEC counts in scaling and in zonal averages, and not in C, generation's income and its residual.
 * So what the sheet charges on chargeable TEC and on demand, plus its two remainders, is the allowed revenue. A generation zone or a
 * node whose TEC is all of interconnectors still has its line, and nobody pays by it. In edition 2 plant type 1 (intermittent) does not
 * pay peak's tariff, and does not count in peak's C: it pays the zone's total less that tariff.
 */
#ifndef WIREPULLEY_H
#define WIREPULLEY_H

#include <stddef.h>
#include <stdint.h>

#ifdef __cplusplus
extern "C" {
#endif

/* No sheet is longer: a buffer of this many bytes is never refused as 12. Without a share file 16,362 are enough, for edition 1 alone
 * 14,240. */
#define WIREPULLEY_LONGEST_SHEET 17258

/* No call takes more bytes of stack than this, whatever it is given: leave a thread that calls the library so much beside its own. Before
 * edition 2 it was 160,000, and 256,000 with the older kit: a client that is linked anew has to be compiled anew, if it goes by this
 * number. */
#define WIREPULLEY_STACK 400000

/* How many numbers an answer has. */
#define WIREPULLEY_ANSWER 4

/* Judges a case of either edition and writes its sheet.
 *
 *   file, file_len               the bytes of a case file; the solutions in it are counted and not looked at
 *   base, base_len               base solution: a potential for each node, then a flow for each circuit, in table order
 *   wider, wider_len             wider solution, the same
 *   local, local_len             local solution, the same
 *   peak_base, peak_base_len     peak's base solution, the same; edition 1 has none, so the count is 0
 *   peak_wider, peak_wider_len   peak's wider solution, the same; edition 1 has none, so the count is 0
 *   share, share_len             the bytes of a share file; where there is none the count is 0
 *   sheet, sheet_len             accepted: the sheet is at the front, and the bytes behind it are as they were.
 *                                Refused: every byte is as it was.
 *   answer                       gets number, system, row and length, whatever they are
 *
 * Returns the answer's number. */
uint64_t wirepulley_write_shared(const uint8_t *file, size_t file_len, const int64_t *base, size_t base_len, const int64_t *wider,
                                 size_t wider_len, const int64_t *local, size_t local_len, const int64_t *peak_base,
                                 size_t peak_base_len, const int64_t *peak_wider, size_t peak_wider_len, const uint8_t *share,
                                 size_t share_len, uint8_t *sheet, size_t sheet_len, uint64_t answer[WIREPULLEY_ANSWER]);

/* Judges a case of either edition and writes no sheet: the same answer as wirepulley_write_shared gives with room enough for the sheet. So
 * where the case is accepted, length is the length that a buffer for the sheet needs. The arguments are those of
 * wirepulley_write_shared.
 *
 * Returns the answer's number, never 12. */
uint64_t wirepulley_judge_shared(const uint8_t *file, size_t file_len, const int64_t *base, size_t base_len, const int64_t *wider,
                                 size_t wider_len, const int64_t *local, size_t local_len, const int64_t *peak_base,
                                 size_t peak_base_len, const int64_t *peak_wider, size_t peak_wider_len, const uint8_t *share,
                                 size_t share_len, uint64_t answer[WIREPULLEY_ANSWER]);

/* The form of wirepulley_write_shared without a share file: what that gives where the share's count is 0. The arguments are those of
 * wirepulley_write_shared.
 *
 * Returns the answer's number, never 16. */
uint64_t wirepulley_write_five(const uint8_t *file, size_t file_len, const int64_t *base, size_t base_len, const int64_t *wider,
                               size_t wider_len, const int64_t *local, size_t local_len, const int64_t *peak_base,
                               size_t peak_base_len, const int64_t *peak_wider, size_t peak_wider_len, uint8_t *sheet,
                               size_t sheet_len, uint64_t answer[WIREPULLEY_ANSWER]);

/* The form of wirepulley_judge_shared without a share file: the same answer as wirepulley_write_five gives with room enough for the
 * sheet.
 *
 * Returns the answer's number, neither 12 nor 16. */
uint64_t wirepulley_judge_five(const uint8_t *file, size_t file_len, const int64_t *base, size_t base_len, const int64_t *wider,
                               size_t wider_len, const int64_t *local, size_t local_len, const int64_t *peak_base,
                               size_t peak_base_len, const int64_t *peak_wider, size_t peak_wider_len,
                               uint64_t answer[WIREPULLEY_ANSWER]);

/* The three-run form of wirepulley_write_five, for edition 1: what that gives where both counts of peak are 0. So a file of edition 2,
 * whose peak solutions are then missing, is refused as 1. The arguments are those of wirepulley_write_five.
 *
 * Returns the answer's number. */
uint64_t wirepulley_write(const uint8_t *file, size_t file_len, const int64_t *base, size_t base_len, const int64_t *wider,
                          size_t wider_len, const int64_t *local, size_t local_len, uint8_t *sheet, size_t sheet_len,
                          uint64_t answer[WIREPULLEY_ANSWER]);

/* The three-run form of wirepulley_judge_five, for edition 1: the same answer as wirepulley_write gives with room enough for the sheet.
 *
 * Returns the answer's number, never 12. */
uint64_t wirepulley_judge(const uint8_t *file, size_t file_len, const int64_t *base, size_t base_len, const int64_t *wider,
                          size_t wider_len, const int64_t *local, size_t local_len, uint64_t answer[WIREPULLEY_ANSWER]);

#ifdef __cplusplus
}
#endif

#endif
