/* What the example and the test share: reasons in words, and the solutions that stand in a case file. */
#ifndef EXAMPLE_H
#define EXAMPLE_H

#include <inttypes.h>
#include <stdio.h>
#include <string.h>

#include "wirepulley.h"

/* Settings and the shorter trailer are the shortest file; the longest file and run are of version 1, which holds more circuits. */
enum { SHORTEST_FILE = 128, LONGEST_FILE = 63616, LONGEST_RUN = 256 + 512 };
/* A share file has a number for each plant type behind one for each generation zone. */
enum { PLANT_TYPES = 7, LONGEST_SHARE = 4 * (32 + PLANT_TYPES) };
/* The tables stand first: settings, nodes, circuits and stations. Then come the solutions, three or, in edition 2, five. */
enum { TABLES = 4 };
enum { BASE, WIDER, LOCAL, PEAK_BASE, PEAK_WIDER, RUNS };
/* Where the settings name the edition. */
enum { EDITION = 52 };

/* A solution copied out of the file. */
struct run {
    int64_t numbers[LONGEST_RUN];
    size_t count;
};

/* What a number means, in words. The table ends where this program's knowledge does: a newer library may answer more. */
static inline const char *reason(uint64_t number) {
    static const char *const REASONS[] = {
        "accepted",
        "the file is not whole",
        "a setting is out of its range",
        "a node row is malformed, out of range, or its name was seen earlier",
        "a circuit row is malformed, out of range, without the factor that it needs, or an end of it is unknown, or its ends are equal",
        "a station row is malformed, out of range, its node unknown, or its identifier was seen earlier",
        "a node cannot be reached from the reference",
        "a total is out of its range, or total TEC is below total demand",
        "a proposed number is out of range, or the reference's potential is not 0",
        "the balance is broken at a node",
        "the misses sum up too high",
        "a circuit's direction is in doubt",
        "the buffer is shorter than the sheet",
        "no TEC is chargeable: all of it is of interconnectors (plant type 3)",
        "generation does not scale to demand in a background: fixed plant types come to more, or the others have less than is left",
        "it is in doubt whether a circuit counts for year round or for peak",
        "the share file has a wrong length or load factor (row 0), or a zone names one that it may not, is a second centre, or circles",
    };
    return number < sizeof REASONS / sizeof REASONS[0] ? REASONS[number] : "a reason this program does not know";
}

/* Prints number, system and row to one file, as other programs read them, and the reason to another, for people. */
static inline void print_refusal(const uint64_t *answer, FILE *numbers, FILE *words) {
    fprintf(numbers, "refused %" PRIu64 " %" PRIu64 " %" PRIu64 "\n", answer[0], answer[1], answer[2]);
    fprintf(words, "example: %s\n", reason(answer[0]));
}

static inline uint64_t little_endian(const uint8_t *bytes, size_t size) {
    uint64_t number = 0;
    for (size_t i = size; i > 0; i--)
        number = number << 8 | bytes[i - 1];
    return number;
}

/* How many solutions the file's edition has; of an edition that does not exist as many as of edition 1, since the library refuses it. */
static inline unsigned solutions_of(const uint8_t *file) {
    return little_endian(file + EDITION, 4) == 2 ? RUNS : LOCAL + 1;
}

/* The trailer: offset and count of each section, then version and length. 64 bytes, or 80 in edition 2. */
static inline size_t trailer_size(unsigned solutions) { return 8 * (TABLES + solutions + 1); }

/* Copies a solution from where its entry in the trailer says that it stands. Where nothing can stand there the run is empty. */
static inline void copy_run(const uint8_t *file, size_t length, const uint8_t *entry, struct run *run) {
    uint64_t offset = little_endian(entry, 4), count = little_endian(entry + 4, 4);
    run->count = 0;
    if (count > LONGEST_RUN || offset + 8 * count > length)
        return;
    for (; run->count < count; run->count++) {
        uint64_t bits = little_endian(file + offset + 8 * run->count, 8);
        memcpy(&run->numbers[run->count], &bits, sizeof bits);
    }
}

/* Copies the solutions of a file of either edition; those that it has not are empty. Of a damaged file some may be empty too, or be any
 * bytes of it: the library refuses such a file as 1, as it does every file whose edition or trailer is wrong. */
static inline void copy_runs(const uint8_t *file, size_t length, struct run runs[RUNS]) {
    for (unsigned k = 0; k < RUNS; k++)
        runs[k].count = 0;
    if (length < SHORTEST_FILE)
        return;
    unsigned solutions = solutions_of(file);
    const uint8_t *trailer = file + length - trailer_size(solutions);
    for (unsigned k = 0; k < solutions; k++)
        copy_run(file, length, trailer + 8 * (TABLES + k), &runs[k]);
}

#endif
