/* Tests what the header says of counts of 0, of interconnectors, of versions, of editions and of share files, and the example's words and
 * its care with damaged files. Case KILN is on standard input.
 *
 *   ./test CASE SHARE SHEET   the tutorial's case of edition 2, a share file for it, and the sheet that these give
 *
 * Exit status: 0 all is as it should be, 1 something is not (printed). A library that used a pointer whose count is 0 would end this
 * program by a signal: no memory is at NULL. */
#include "example.h"

enum { ROOM = 500, UNTOUCHED = 7 };
/* The sections of the tables that are changed here, the bytes of a row, and where fields stand in it. */
enum { SETTINGS, NODES, CIRCUITS, STATIONS };
enum { CIRCUIT_1 = 44, CIRCUIT_2 = 48, VOLTAGE = 24, MARK = 40, FACTOR = 44 };
enum { STATION = 32, TYPE = 24, TEC = 28 };
/* KILN's rows: three circuits and two stations of type 7, 200,000 kW at NODA and 100,000 at NODB. */
enum { A_B, B_C, A_C, CIRCUIT_ROWS, MORE = CIRCUIT_ROWS * (CIRCUIT_2 - CIRCUIT_1) };
enum { NODA, NODB };
enum { INTERMITTENT = 1, NUCLEAR = 2, INTERCONNECTOR = 3, PEAKING = 6, OTHER = 7 };

static const char KILN_SHEET[] = "C -20289\n"
                                 "G 1 28333 8044 144792 21874 166666\n"
                                 "D 1 -4200 16089 289602 43731 333333\n"
                                 "L NODA 0 0\n"
                                 "L NODB 0 0\n"
                                 "R 200000 50000\n";
/* In edition 2 peak has all of KILN's figures, and year round none: the prices are the same. */
static const char KILN_SHEET_2[] = "C -20289 0\n"
                                   "G 1 28333 8044 144792 0 0 0 21874 166666\n"
                                   "D 1 -4200 16089 289602 0 0 0 43731 333333\n"
                                   "L NODA 0 0\n"
                                   "L NODB 0 0\n"
                                   "R 200000 50000\n";
/* With a share file year round's tariff is in two parts: of no metres both are 0. */
static const char KILN_SHEET_SHARED[] = "C -20289 0\n"
                                        "G 1 28333 8044 144792 0 0 0 0 0 21874 166666\n"
                                        "D 1 -4200 16089 289602 0 0 0 43731 333333\n"
                                        "L NODA 0 0\n"
                                        "L NODB 0 0\n"
                                        "R 200000 50000\n";
/* KILN has one generation zone. */
enum { KILN_SHARE = 4 * (1 + PLANT_TYPES) };
/* The tutorial's four zones: A lies behind B, and B behind D, the centre; C has no TEC. */
enum { ZONE_A = 1, ZONE_B, ZONE_C, ZONE_D, TUTORIAL_ZONES = ZONE_D };

/* What a call is given, but for the answer. */
struct lent {
    const uint8_t *file;
    size_t length;
    const int64_t *run[RUNS];
    size_t count[RUNS];
    const uint8_t *share;
    size_t share_length;
    uint8_t *sheet;
    size_t room;
};

static uint8_t file[LONGEST_FILE], changed_file[LONGEST_FILE], sheet[ROOM];
/* KILN's solutions, and those of KILN in edition 2. */
static struct run runs[RUNS], runs_2[RUNS];
/* The tutorial's case with its solutions, its share file, and its sheet. */
static uint8_t tutorial_file[LONGEST_FILE], tutorial_share[LONGEST_SHARE];
static size_t tutorial_length, tutorial_share_length;
static struct run tutorial_runs[RUNS];
static char tutorial_sheet[ROOM];
/* A share file that may be changed, with room for one that is too long. */
static uint8_t share[LONGEST_SHARE + 200];
static int failures;

static void check(int holds, const char *what) {
    if (!holds) {
        printf("test: %s: not so\n", what);
        failures++;
    }
}

static void put_u32(uint8_t *bytes, uint32_t number) {
    for (unsigned k = 0; k < 4; k++)
        bytes[k] = (uint8_t)(number >> 8 * k);
}

static void lend_run(struct lent *lent, unsigned k, const struct run *run) {
    lent->run[k] = run->numbers;
    lent->count[k] = run->count;
}

static void lend_share(struct lent *lent, size_t length) {
    lent->share = share;
    lent->share_length = length;
}

static void no_share(struct lent *lent) {
    lent->share = NULL;
    lent->share_length = 0;
}

/* KILN with a fresh buffer, and no share file. */
static struct lent kiln(size_t length) {
    struct lent lent;
    lent.file = file;
    lent.length = length;
    for (unsigned k = 0; k < RUNS; k++)
        lend_run(&lent, k, &runs[k]);
    no_share(&lent);
    memset(sheet, UNTOUCHED, sizeof sheet);
    lent.sheet = sheet;
    lent.room = sizeof sheet;
    return lent;
}

/* KILN in the file that may be changed. */
static struct lent kiln_to_change(size_t length) {
    struct lent lent = kiln(length);
    memcpy(changed_file, file, length);
    lent.file = changed_file;
    return lent;
}

/* The changed file's trailer, and where a section stands in it. */
static uint8_t *trailer_of(const struct lent *lent) { return changed_file + lent->length - trailer_size(solutions_of(lent->file)); }

static uint8_t *section(const struct lent *lent, unsigned number) {
    return changed_file + little_endian(trailer_of(lent) + 8 * number, 4);
}

static void set_station(const struct lent *lent, unsigned row, uint32_t type, uint32_t kw) {
    uint8_t *station = section(lent, STATIONS) + row * STATION;
    put_u32(station + TYPE, type);
    put_u32(station + TEC, kw);
}

/* Gives a circuit of a changed file of version 2 another voltage and factor. */
static void set_circuit(const struct lent *lent, unsigned row, uint32_t voltage, uint32_t factor) {
    uint8_t *circuit = section(lent, CIRCUITS) + row * CIRCUIT_2;
    put_u32(circuit + VOLTAGE, voltage);
    put_u32(circuit + FACTOR, factor);
}

static void set_mark(const struct lent *lent, unsigned row) { put_u32(section(lent, CIRCUITS) + row * CIRCUIT_2 + MARK, 1); }

/* KILN with other plant types for its two stations. */
static struct lent kiln_of_types(size_t length, uint32_t at_noda, uint32_t at_nodb) {
    struct lent lent = kiln_to_change(length);
    set_station(&lent, NODA, at_noda, 200000);
    set_station(&lent, NODB, at_nodb, 100000);
    return lent;
}

/* KILN in version 2, every factor 0: four bytes more behind each circuit row, later sections farther back, another version and length. */
static struct lent kiln_of_version_2(size_t length) {
    struct lent lent = kiln_to_change(length);
    const size_t rows = (size_t)(section(&lent, CIRCUITS) - changed_file), behind = rows + CIRCUIT_ROWS * CIRCUIT_1;
    memset(changed_file + rows, 0, sizeof changed_file - rows);
    for (unsigned row = 0; row < CIRCUIT_ROWS; row++)
        memcpy(changed_file + rows + row * CIRCUIT_2, file + rows + row * CIRCUIT_1, CIRCUIT_1);
    memcpy(changed_file + behind + MORE, file + behind, length - behind);
    lent.length = length + MORE;
    uint8_t *trailer = trailer_of(&lent);
    for (unsigned number = STATIONS; number <= TABLES + LOCAL; number++)
        put_u32(trailer + 8 * number, (uint32_t)little_endian(trailer + 8 * number, 4) + MORE);
    put_u32(trailer + 56, 2);
    put_u32(trailer + 60, (uint32_t)lent.length);
    return lent;
}

/* Behind the solutions of a changed file of version 2 two more, those of peak, and a trailer that has them and ends with the length. */
static void add_peak(struct lent *lent) {
    uint8_t trailer[80];
    const uint32_t count = (uint32_t)runs[BASE].count, bytes = 8 * count, end = (uint32_t)lent->length - 64;
    memcpy(trailer, trailer_of(lent), 56);
    for (unsigned k = PEAK_BASE; k <= PEAK_WIDER; k++) {
        put_u32(trailer + 8 * (TABLES + k), end + (k - PEAK_BASE) * bytes);
        put_u32(trailer + 8 * (TABLES + k) + 4, count);
    }
    lent->length = end + 2 * bytes + sizeof trailer;
    put_u32(trailer + 72, 2);
    put_u32(trailer + 76, (uint32_t)lent->length);
    put_u32(changed_file + EDITION, 2);
    memcpy(changed_file + lent->length - sizeof trailer, trailer, sizeof trailer);
}

/* KILN in edition 2. Type 7 is variable in both backgrounds, so both have KILN's base flows. None is greater year round, so every circuit
 * counts for peak: KILN's wider solution is peak's, and that of year round is 0, as the local one is. */
static struct lent kiln_of_edition_2(size_t length) {
    struct lent lent = kiln_of_version_2(length);
    static const unsigned OF_KILN[RUNS] = {BASE, LOCAL, LOCAL, BASE, WIDER};
    add_peak(&lent);
    for (unsigned k = 0; k < RUNS; k++) {
        runs_2[k] = runs[OF_KILN[k]];
        for (size_t i = 0; i < runs_2[k].count; i++) {
            uint64_t bits = (uint64_t)runs_2[k].numbers[i];
            put_u32(section(&lent, TABLES + k) + 8 * i, (uint32_t)bits);
            put_u32(section(&lent, TABLES + k) + 8 * i + 4, (uint32_t)(bits >> 32));
        }
        lend_run(&lent, k, &runs_2[k]);
    }
    return lent;
}

/* The same with other plant types for its two stations. */
static struct lent edition_2_of_types(size_t length, uint32_t at_noda, uint32_t at_nodb) {
    struct lent lent = kiln_of_edition_2(length);
    set_station(&lent, NODA, at_noda, 200000);
    set_station(&lent, NODB, at_nodb, 100000);
    return lent;
}

/* The base solution of KILN's network where so many of its 150,000 kW, a multiple of 4, are generated at NODA and the rest at NODB.
 * KILN has 100,000 at NODA. x is 100, 100 and 200, so a kilowatt more there and one less at NODB puts a quarter on A_C. */
static struct run base_with(int64_t at_noda) {
    const int64_t mw = 1000000, a_c = at_noda / 4 + 30000, b_c = 120000 - a_c, a_b = at_noda - a_c;
    struct run run = {{200 * a_c * mw, 100 * b_c * mw, 0, a_b * mw, b_c * mw, a_c * mw}, 6};
    return run;
}

static void no_file(struct lent *lent) {
    lent->file = NULL;
    lent->length = 0;
}

static void no_run(struct lent *lent, unsigned k) {
    lent->run[k] = NULL;
    lent->count[k] = 0;
}

static void no_sheet(struct lent *lent) {
    lent->sheet = NULL;
    lent->room = 0;
}

/* The six calls. Those of five runs leave the share file out, those of three peak's runs too. */
static uint64_t write_shared(const struct lent *lent, uint64_t *answer) {
    return wirepulley_write_shared(lent->file, lent->length, lent->run[BASE], lent->count[BASE], lent->run[WIDER], lent->count[WIDER],
                                   lent->run[LOCAL], lent->count[LOCAL], lent->run[PEAK_BASE], lent->count[PEAK_BASE],
                                   lent->run[PEAK_WIDER], lent->count[PEAK_WIDER], lent->share, lent->share_length, lent->sheet,
                                   lent->room, answer);
}

static uint64_t judge_shared(const struct lent *lent, uint64_t *answer) {
    return wirepulley_judge_shared(lent->file, lent->length, lent->run[BASE], lent->count[BASE], lent->run[WIDER], lent->count[WIDER],
                                   lent->run[LOCAL], lent->count[LOCAL], lent->run[PEAK_BASE], lent->count[PEAK_BASE],
                                   lent->run[PEAK_WIDER], lent->count[PEAK_WIDER], lent->share, lent->share_length, answer);
}

static uint64_t write_five(const struct lent *lent, uint64_t *answer) {
    return wirepulley_write_five(lent->file, lent->length, lent->run[BASE], lent->count[BASE], lent->run[WIDER], lent->count[WIDER],
                                 lent->run[LOCAL], lent->count[LOCAL], lent->run[PEAK_BASE], lent->count[PEAK_BASE],
                                 lent->run[PEAK_WIDER], lent->count[PEAK_WIDER], lent->sheet, lent->room, answer);
}

static uint64_t judge_five(const struct lent *lent, uint64_t *answer) {
    return wirepulley_judge_five(lent->file, lent->length, lent->run[BASE], lent->count[BASE], lent->run[WIDER], lent->count[WIDER],
                                 lent->run[LOCAL], lent->count[LOCAL], lent->run[PEAK_BASE], lent->count[PEAK_BASE],
                                 lent->run[PEAK_WIDER], lent->count[PEAK_WIDER], answer);
}

static uint64_t write_three(const struct lent *lent, uint64_t *answer) {
    return wirepulley_write(lent->file, lent->length, lent->run[BASE], lent->count[BASE], lent->run[WIDER], lent->count[WIDER],
                            lent->run[LOCAL], lent->count[LOCAL], lent->sheet, lent->room, answer);
}

static uint64_t judge_three(const struct lent *lent, uint64_t *answer) {
    return wirepulley_judge(lent->file, lent->length, lent->run[BASE], lent->count[BASE], lent->run[WIDER], lent->count[WIDER],
                            lent->run[LOCAL], lent->count[LOCAL], answer);
}

typedef uint64_t call(const struct lent *lent, uint64_t *answer);
/* Each form as it judges and as it writes. */
enum { JUDGE, WRITE };
static call *const SHARED[] = {judge_shared, write_shared}, *const FIVE[] = {judge_five, write_five},
                  *const THREE[] = {judge_three, write_three};

static int answers(call *one, const struct lent *lent, uint64_t number, uint64_t system, uint64_t row, uint64_t length) {
    uint64_t answer[WIREPULLEY_ANSWER];
    return one(lent, answer) == number && answer[0] == number && answer[1] == system && answer[2] == row && answer[3] == length;
}

static int untouched(const uint8_t *bytes, size_t count) {
    for (size_t i = 0; i < count; i++)
        if (bytes[i] != UNTOUCHED)
            return 0;
    return 1;
}

/* Whether the form of five runs is given all that is lent, and that of three. */
static int is_five(const struct lent *lent) { return lent->share_length == 0; }
static int is_three(const struct lent *lent) {
    return is_five(lent) && lent->count[PEAK_BASE] == 0 && lent->count[PEAK_WIDER] == 0;
}

/* Both functions of a form refuse by these numbers, and the buffer stays as it was. */
static void refused_by(call *const form[], const char *what, const struct lent *lent, uint64_t number, uint64_t system, uint64_t row) {
    check(answers(form[WRITE], lent, number, system, row, 0), what);
    check(answers(form[JUDGE], lent, number, system, row, 0), what);
    check(untouched(sheet, sizeof sheet), what);
}

/* So do those of every form that can be given this. */
static void refused(const char *what, const struct lent *lent, uint64_t number, uint64_t system, uint64_t row) {
    refused_by(SHARED, what, lent, number, system, row);
    if (is_five(lent))
        refused_by(FIVE, what, lent, number, system, row);
    if (is_three(lent))
        refused_by(THREE, what, lent, number, system, row);
}

/* Both functions of a form accept: the sheet is at the front, and the bytes behind it are as they were. */
static void accepted_by(call *const form[], const char *what, const struct lent *lent, const char *expected) {
    const size_t length = strlen(expected);
    memset(sheet, UNTOUCHED, sizeof sheet);
    check(answers(form[JUDGE], lent, 0, 0, 0, length), what);
    check(untouched(sheet, sizeof sheet), "judging writes no sheet");
    check(answers(form[WRITE], lent, 0, 0, 0, length), what);
    check(memcmp(sheet, expected, length) == 0 && untouched(sheet + length, ROOM - length), what);
    memset(sheet, UNTOUCHED, sizeof sheet);
}

/* So do those of every form that can be given this. */
static void accepted(const char *what, const struct lent *lent, const char *expected) {
    accepted_by(SHARED, what, lent, expected);
    if (is_five(lent))
        accepted_by(FIVE, what, lent, expected);
    if (is_three(lent))
        accepted_by(THREE, what, lent, expected);
}

/* A buffer of the sheet's length is enough. A shorter one is refused as 12 and stays as it was, and the case is judged all the same. */
static void needs_room(call *const form[], struct lent lent, const char *expected) {
    const size_t length = strlen(expected), rooms[] = {1, length - 1};
    lent.room = length;
    accepted_by(form, "an exact buffer", &lent, expected);
    for (size_t i = 0; i < sizeof rooms / sizeof rooms[0]; i++) {
        lent.room = rooms[i];
        check(answers(form[WRITE], &lent, 12, 0, 0, 0), "a short buffer is refused as 12");
        check(untouched(sheet, sizeof sheet), "a short buffer stays as it was");
    }
    no_sheet(&lent);
    check(answers(form[WRITE], &lent, 12, 0, 0, 0), "a case without a sheet is refused as 12");
    check(answers(form[JUDGE], &lent, 0, 0, 0, length), "a case without a sheet is judged");
}

static void test_no_file_and_no_runs(size_t length) {
    struct lent lent = kiln(length);
    no_file(&lent);
    refused("no file", &lent, 1, 0, 0);
    for (unsigned k = BASE; k <= LOCAL; k++) {
        lent = kiln(length);
        no_run(&lent, k);
        refused("a run that is not there", &lent, 1, 0, 0);
    }
    lent = kiln(length);
    for (unsigned k = 0; k < RUNS; k++)
        no_run(&lent, k);
    refused("no runs", &lent, 1, 0, 0);
    no_file(&lent);
    refused("no file and no runs", &lent, 1, 0, 0);
    no_sheet(&lent);
    refused("no file, no runs and no sheet", &lent, 1, 0, 0);
}

static void test_no_sheet(size_t length) {
    struct lent lent = kiln(length);
    no_sheet(&lent);
    lent.length = length - 1;
    refused("a cut file without a sheet", &lent, 1, 0, 0);
    lent.length = length;
    lent.run[BASE] = runs[WIDER].numbers;
    refused("the wider solution as base, without a sheet", &lent, 9, 1, 1);
    lent.run[BASE] = runs[BASE].numbers;
    struct run changed = runs[WIDER];
    changed.numbers[5] = INT64_MIN;
    lent.run[WIDER] = changed.numbers;
    refused("a number out of range, without a sheet", &lent, 8, 2, 6);
}

static void test_no_chargeable_tec(size_t length) {
    struct lent lent = kiln_of_types(length, INTERCONNECTOR, INTERCONNECTOR);
    refused("interconnectors alone", &lent, 13, 0, 0);
    no_sheet(&lent);
    refused("interconnectors alone, without a sheet", &lent, 13, 0, 0);
    lent = kiln_of_types(length, INTERCONNECTOR, OTHER);
    set_station(&lent, NODB, OTHER, 0);
    refused("interconnectors and a station without TEC", &lent, 13, 0, 0);
    set_station(&lent, NODB, OTHER, 1);
    refused("one chargeable kilowatt, and solutions of other tables", &lent, 9, 1, 1);
}

/* 13 comes after 7 and before 8 of the base solution. */
static void test_order_of_13(size_t length) {
    struct run base = runs[BASE];
    base.numbers[0] = INT64_MIN;
    struct lent lent = kiln(length);
    lent.run[BASE] = base.numbers;
    refused("a base number out of range", &lent, 8, 1, 1);
    lent = kiln_of_types(length, INTERCONNECTOR, INTERCONNECTOR);
    lent.run[BASE] = base.numbers;
    refused("interconnectors alone, and a base number out of range", &lent, 13, 0, 0);
    set_station(&lent, NODA, INTERCONNECTOR, 0);
    refused("interconnectors alone, and less TEC than demand", &lent, 7, 0, 0);
}

/* KILN with an interconnector at NODB: C, generation's income and its residual go by NODA's 200,000 kW and not by all 300,000. */
static void test_one_interconnector(size_t length) {
    static const char EXPECTED[] = "C -17990\n"
                                   "G 1 28333 10343 186174 63826 250000\n"
                                   "D 1 -4200 13790 248220 85113 333333\n"
                                   "L NODA 0 0\n"
                                   "L NODB 0 0\n"
                                   "R 0 50000\n";
    struct lent lent = kiln_of_types(length, OTHER, INTERCONNECTOR);
    accepted("an interconnector does not pay", &lent, EXPECTED);
}

/* The solutions in a file are these. */
static int holds_runs(const struct lent *lent, const struct run expected[RUNS]) {
    static struct run copied[RUNS];
    copy_runs(lent->file, lent->length, copied);
    for (unsigned k = 0; k < RUNS; k++)
        if (copied[k].count != expected[k].count || memcmp(copied[k].numbers, expected[k].numbers, 8 * copied[k].count) != 0)
            return 0;
    return 1;
}

/* One case in either version has one sheet; version 2 also has factors, which KILN's solutions are not solved for. */
static void test_version_2(size_t length) {
    struct lent lent = kiln_of_version_2(length);
    accepted("version 2 has the sheet of version 1", &lent, KILN_SHEET);
    check(holds_runs(&lent, runs), "solutions stand in version 2 too");
    set_circuit(&lent, A_B, 320, 1000);
    set_circuit(&lent, A_C, 525, 1000);
    accepted("KILN's own factor at 320 and 525", &lent, KILN_SHEET);
    lent = kiln_of_version_2(length);
    set_circuit(&lent, B_C, 400, 2000);
    refused("twice the length that is solved for", &lent, 10, 2, 0);
    set_circuit(&lent, B_C, 400, 999);
    refused("a factor below its range", &lent, 4, 0, B_C + 1);
    set_circuit(&lent, A_B, 320, 0);
    refused("320 kV without a factor", &lent, 4, 0, A_B + 1);
    changed_file[lent.length - 8] = 1;
    refused("rows of version 2 in version 1", &lent, 1, 0, 0);
}

static void test_edition_2(size_t length) {
    struct lent lent = kiln_of_edition_2(length);
    accepted("edition 2", &lent, KILN_SHEET_2);
    check(holds_runs(&lent, runs_2), "five solutions stand in edition 2");
    needs_room(SHARED, lent, KILN_SHEET_2);
    needs_room(FIVE, lent, KILN_SHEET_2);
    refused_by(THREE, "edition 2 with three runs", &lent, 1, 0, 0);
    static const uint32_t OTHERS[] = {1, 3, 256 + 2, UINT32_MAX};
    for (size_t i = 0; i < sizeof OTHERS / sizeof OTHERS[0]; i++) {
        put_u32(changed_file + EDITION, OTHERS[i]);
        refused("an edition that does not exist", &lent, 1, 0, 0);
    }
    put_u32(changed_file + EDITION, 0);
    refused("nine sections in edition 1", &lent, 1, 0, 0);
    put_u32(changed_file + EDITION, 2);
    changed_file[lent.length - 8] = 1;
    refused("edition 2 in version 1", &lent, 1, 0, 0);
}

/* Each of the five runs has nodes plus circuits numbers in edition 2; in edition 1 those of peak have none. */
static void test_lengths_of_runs(size_t length) {
    struct lent lent = kiln_of_edition_2(length);
    for (unsigned k = 0; k < RUNS; k++) {
        lend_run(&lent, k, &runs_2[k]);
        lent.count[k] = runs_2[k].count - 1;
        refused("a run that is too short", &lent, 1, 0, 0);
        lent.count[k] = runs_2[k].count + 1;
        refused("a run that is too long", &lent, 1, 0, 0);
        no_run(&lent, k);
        refused("a run of edition 2 that is not there", &lent, 1, 0, 0);
        lend_run(&lent, k, &runs_2[k]);
    }
    for (unsigned k = PEAK_BASE; k <= PEAK_WIDER; k++) {
        lent = kiln(length);
        lend_run(&lent, k, &runs_2[k]);
        refused("a run of peak in edition 1", &lent, 1, 0, 0);
        lent.count[k] = 1;
        refused("one number of peak in edition 1", &lent, 1, 0, 0);
    }
}

/* KILN's demand is 150,000 kW. A background is too small or too great alone; equal is enough. 14 comes after 13 and before 8. */
static void test_scaling(size_t length) {
    struct lent lent = edition_2_of_types(length, NUCLEAR, OTHER);
    refused("85 % of 200,000 kW fixed year round", &lent, 14, 0, 0);
    lent = edition_2_of_types(length, PEAKING, OTHER);
    refused("100,000 kW variable year round", &lent, 14, 0, 0);
    set_station(&lent, NODB, OTHER, 150000);
    refused("150,000 kW variable year round, and solutions of other tables", &lent, 9, 1, 1);
    lent = edition_2_of_types(length, INTERMITTENT, OTHER);
    refused("100,000 kW variable at peak", &lent, 14, 0, 0);
    no_sheet(&lent);
    refused("100,000 kW variable at peak, without a sheet", &lent, 14, 0, 0);
    struct run base = runs[BASE];
    base.numbers[0] = INT64_MIN;
    lent.run[BASE] = base.numbers;
    refused("100,000 kW variable at peak, and a base number out of range", &lent, 14, 0, 0);
    lent = edition_2_of_types(length, INTERCONNECTOR, INTERCONNECTOR);
    refused("interconnectors alone in edition 2", &lent, 13, 0, 0);
}

/* 152,000 kW at NODA and 8,000 of nuclear at NODB. At peak both run at 150/160, so NODA at 142,500; year round NODB has 85 %, 6,800, and
 * NODA 143,200. These 700 more put 525 more on A_B, and 175 on A_C and B_C. */
static void test_background_in_doubt(size_t length) {
    struct lent lent = kiln_of_edition_2(length);
    struct run year_round = base_with(143200), peak = base_with(142500);
    set_station(&lent, NODA, OTHER, 152000);
    set_station(&lent, NODB, NUCLEAR, 8000);
    lend_run(&lent, BASE, &year_round);
    lend_run(&lent, PEAK_BASE, &peak);
    refused("525 kW between year round and peak", &lent, 15, 0, A_B + 1);
    no_sheet(&lent);
    refused("525 kW between year round and peak, without a sheet", &lent, 15, 0, A_B + 1);
    set_mark(&lent, A_B);
    refused("a marked circuit, whose length peak's wider solution still has", &lent, 10, 5, 0);
    lend_run(&lent, PEAK_BASE, &year_round);
    refused("year round's base solution at peak", &lent, 9, 4, 1);
}

/* 150,000 of 300,000 kW run, so 40,400 of NODA's 80,800: 300 on A_B, in both backgrounds, and the circuit counts for peak. */
static void test_direction_in_doubt(size_t length) {
    struct run base = base_with(40400);
    struct lent lent = kiln_of_edition_2(length);
    set_station(&lent, NODA, OTHER, 80800);
    set_station(&lent, NODB, OTHER, 219200);
    lend_run(&lent, BASE, &base);
    lend_run(&lent, PEAK_BASE, &base);
    refused("300 kW at peak", &lent, 11, 4, A_B + 1);
    set_mark(&lent, A_B);
    refused("300 kW year round on a marked circuit", &lent, 11, 1, A_B + 1);
    lent = kiln_to_change(length);
    set_station(&lent, NODA, OTHER, 80800);
    set_station(&lent, NODB, OTHER, 219200);
    lend_run(&lent, BASE, &base);
    refused("300 kW in edition 1", &lent, 11, 1, A_B + 1);
}

/* Systems are judged in the order 1, 4, 2, 5, 3: with a wrong number in the run of each, and then mended one after the other. */
static void test_order_of_systems(size_t length) {
    static const unsigned ORDER[RUNS] = {BASE, PEAK_BASE, WIDER, PEAK_WIDER, LOCAL};
    struct run changed[RUNS];
    struct lent lent = kiln_of_edition_2(length);
    for (unsigned k = 0; k < RUNS; k++) {
        changed[k] = runs_2[k];
        changed[k].numbers[k] = INT64_MAX;
        lend_run(&lent, k, &changed[k]);
    }
    for (unsigned i = 0; i < RUNS; i++) {
        unsigned k = ORDER[i];
        refused("a number out of range in this system and later ones", &lent, 8, k + 1, k + 1);
        changed[k] = runs_2[k];
        changed[k].numbers[3] += 1;
        refused("a flow out of balance in this system", &lent, 9, k + 1, 1);
        changed[k] = runs_2[k];
        changed[k].numbers[0] += 100000000;
        refused("misses too high in this system", &lent, 10, k + 1, 0);
        changed[k] = runs_2[k];
    }
    accepted("all systems are mended", &lent, KILN_SHEET_2);
}

/* A share file of KILN in edition 2: all zeros is a centre, and load factors of 0. An empty one is none. */
static void test_share(size_t length) {
    struct lent lent = kiln_of_edition_2(length);
    memset(share, 0, sizeof share);
    lend_share(&lent, 0);
    accepted("an empty share file", &lent, KILN_SHEET_2);
    lend_share(&lent, KILN_SHARE);
    accepted("a share file", &lent, KILN_SHEET_SHARED);
    needs_room(SHARED, lent, KILN_SHEET_SHARED);
    accepted_by(FIVE, "the form of five runs has no share file", &lent, KILN_SHEET_2);
    for (size_t count = 1; count <= sizeof share; count++) {
        lend_share(&lent, count);
        if (count != KILN_SHARE)
            refused("a share file of a wrong length", &lent, 16, 0, 0);
    }
    no_sheet(&lent);
    refused("a share file of a wrong length, without a sheet", &lent, 16, 0, 0);
}

/* Row 0 is for load factors too, and comes before a zone. */
static void test_load_factors(size_t length) {
    struct lent lent = kiln_of_edition_2(length);
    memset(share, 0, sizeof share);
    lend_share(&lent, KILN_SHARE);
    for (unsigned plant = 1; plant <= PLANT_TYPES; plant++) {
        put_u32(share + 4 * plant, 1001);
        refused("a load factor above its range", &lent, 16, 0, 0);
        put_u32(share + 4 * plant, UINT32_MAX);
        refused("the greatest number as a load factor", &lent, 16, 0, 0);
        put_u32(share + 4 * plant, 1000);
        accepted("the greatest load factor", &lent, KILN_SHEET_SHARED);
    }
    put_u32(share, 1);
    refused("a zone that names itself", &lent, 16, 0, 1);
    put_u32(share, 2);
    refused("a zone that names one that does not exist", &lent, 16, 0, 1);
    put_u32(share + 4, 1001);
    refused("a zone that names one that does not exist, and a load factor", &lent, 16, 0, 0);
}

/* 16 comes after 14 and before 8 of the base solution. Edition 1 has none. */
static void test_order_of_16(size_t length) {
    struct lent lent = edition_2_of_types(length, NUCLEAR, OTHER);
    lend_share(&lent, 1);
    refused("a share file of one byte, and generation that does not scale", &lent, 14, 0, 0);
    lent = kiln_of_edition_2(length);
    lend_share(&lent, 1);
    struct run base = runs[BASE];
    base.numbers[0] = INT64_MIN;
    lend_run(&lent, BASE, &base);
    refused("a share file of one byte, and a base number out of range", &lent, 16, 0, 0);
    lent.length--;
    refused("a share file of one byte, and a cut file", &lent, 1, 0, 0);
    lent = kiln(length);
    memset(share, UINT8_MAX, sizeof share);
    static const size_t LENGTHS[] = {1, KILN_SHARE, sizeof share};
    for (size_t i = 0; i < sizeof LENGTHS / sizeof LENGTHS[0]; i++) {
        lend_share(&lent, LENGTHS[i]);
        accepted("any share file in edition 1", &lent, KILN_SHEET);
    }
}

/* The tutorial's case with a copy of its share file that may be changed. */
static struct lent tutorial(void) {
    struct lent lent = kiln(0);
    lent.file = tutorial_file;
    lent.length = tutorial_length;
    for (unsigned k = 0; k < RUNS; k++)
        lend_run(&lent, k, &tutorial_runs[k]);
    memcpy(share, tutorial_share, sizeof tutorial_share);
    lend_share(&lent, tutorial_share_length);
    return lent;
}

/* The tutorial is refused at a row where this zone names that one in its share file. */
static void zone_is_refused(const char *what, unsigned zone, uint32_t next, uint64_t row) {
    struct lent lent = tutorial();
    put_u32(share + 4 * (zone - 1), next);
    refused(what, &lent, 16, 0, row);
}

static void test_tutorial(void) {
    struct lent lent = tutorial();
    check(tutorial_share_length == 4 * (TUTORIAL_ZONES + PLANT_TYPES), "the tutorial's share file is of four zones");
    accepted("the tutorial with its share file", &lent, tutorial_sheet);
    needs_room(SHARED, lent, tutorial_sheet);
    lent.share_length -= 4;
    refused("a load factor too few", &lent, 16, 0, 0);
    zone_is_refused("a zone that does not exist", ZONE_B, TUTORIAL_ZONES + 1, ZONE_B);
    zone_is_refused("a zone without TEC is named", ZONE_B, ZONE_C, ZONE_B);
    zone_is_refused("a zone without TEC names one", ZONE_C, ZONE_D, ZONE_C);
    zone_is_refused("of two centres the higher number is the second", ZONE_A, 0, ZONE_D);
    zone_is_refused("a circle of all zones", ZONE_D, ZONE_A, ZONE_A);
    zone_is_refused("a zone that leads into a circle", ZONE_D, ZONE_B, ZONE_A);
}

/* A file of so many bytes, of an edition, whose trailer says of each section: offset, count. So many numbers are taken of each of its
 * solutions, and none of those that the edition has not. */
static void takes(size_t length, uint32_t edition, uint32_t offset, uint32_t count, size_t expected) {
    static struct run copied[RUNS];
    memset(changed_file, 0, length);
    put_u32(changed_file + EDITION, edition);
    const unsigned solutions = edition == 2 ? RUNS : LOCAL + 1;
    for (uint8_t *entry = changed_file + length - trailer_size(solutions); entry < changed_file + length; entry += 8) {
        put_u32(entry, offset);
        put_u32(entry + 4, count);
    }
    copy_runs(changed_file, length, copied);
    for (unsigned k = 0; k < RUNS; k++)
        check(copied[k].count == (k < solutions ? expected : 0), "only solutions that can stand in a file are taken");
}

static void test_claims(void) {
    static const uint32_t EDITIONS[] = {0, 1, 2, 3};
    const uint32_t last = LONGEST_FILE - 8 * LONGEST_RUN;
    for (size_t i = 0; i < sizeof EDITIONS / sizeof EDITIONS[0]; i++) {
        takes(SHORTEST_FILE + 16, EDITIONS[i], 0, 1, 1);
        takes(LONGEST_FILE, EDITIONS[i], last, LONGEST_RUN, LONGEST_RUN);
        takes(LONGEST_FILE, EDITIONS[i], last + 1, LONGEST_RUN, 0);
        takes(LONGEST_FILE, EDITIONS[i], 0, LONGEST_RUN + 1, 0);
        takes(LONGEST_FILE, EDITIONS[i], UINT32_MAX, 1, 0);
        takes(LONGEST_FILE, EDITIONS[i], 8, UINT32_MAX, 0);
    }
    takes(SHORTEST_FILE, 0, 0, 1, 1);
    takes(SHORTEST_FILE - 1, 0, 0, 1, 0);
}

/* The example's way with a file that is cut or whose trailer says anything: the library refuses it as 1. */
static int is_no_file(struct lent lent) {
    static struct run copied[RUNS];
    copy_runs(lent.file, lent.length, copied);
    for (unsigned k = 0; k < RUNS; k++)
        lend_run(&lent, k, &copied[k]);
    return answers(write_shared, &lent, 1, 0, 0, 0) && untouched(sheet, sizeof sheet);
}

static void test_damaged_files(size_t length) {
    static const uint32_t CLAIMS[] = {0, 5, 7, LONGEST_RUN, LONGEST_RUN + 1, 0x1fffffff, 0x80000000, UINT32_MAX};
    enum { COUNT_OF_CLAIMS = sizeof CLAIMS / sizeof CLAIMS[0] };
    struct lent lent = kiln_of_edition_2(length), whole = lent;
    for (lent.length = 0; lent.length < whole.length; lent.length++)
        check(is_no_file(lent), "a cut file of edition 2");
    lent = whole;
    uint8_t *entry = trailer_of(&lent) + 8 * (TABLES + PEAK_WIDER);
    for (unsigned i = 0; i < COUNT_OF_CLAIMS * COUNT_OF_CLAIMS; i++) {
        put_u32(entry, CLAIMS[i / COUNT_OF_CLAIMS]);
        put_u32(entry + 4, CLAIMS[i % COUNT_OF_CLAIMS]);
        check(is_no_file(lent), "a trailer that claims anything");
    }
    lent = kiln_to_change(length);
    put_u32(changed_file + EDITION, 2);
    check(is_no_file(lent), "edition 2 over a trailer of edition 1");
}

/* What the example prints for a refusal, both files in one. */
static int prints(uint64_t number, const char *expected) {
    const uint64_t answer[WIREPULLEY_ANSWER] = {number, 2, 7, 0};
    char said[300] = "";
    FILE *both = tmpfile();
    if (both == NULL)
        return 0;
    print_refusal(answer, both, both);
    rewind(both);
    said[fread(said, 1, sizeof said - 1, both)] = 0;
    fclose(both);
    return strcmp(said, expected) == 0;
}

static void test_words(void) {
    static const char UNKNOWN[] = "a reason this program does not know";
    static const uint64_t BEYOND[] = {17, 18, 255, UINT64_MAX / 8 + 1, UINT64_MAX};
    for (uint64_t number = 0; number <= 16; number++) {
        check(strcmp(reason(number), UNKNOWN) != 0, "numbers to 16 are known");
        for (uint64_t other = 0; other < number; other++)
            check(strcmp(reason(number), reason(other)) != 0, "each number has words of its own");
    }
    for (size_t i = 0; i < sizeof BEYOND / sizeof BEYOND[0]; i++)
        check(strcmp(reason(BEYOND[i]), UNKNOWN) == 0, "a number beyond the table is not known");
    check(prints(1, "refused 1 2 7\nexample: the file is not whole\n"), "the words of 1");
    check(prints(12, "refused 12 2 7\nexample: the buffer is shorter than the sheet\n"), "the words of 12");
    check(prints(13, "refused 13 2 7\nexample: no TEC is chargeable: all of it is of interconnectors (plant type 3)\n"),
          "the words of 13");
    check(prints(14, "refused 14 2 7\nexample: generation does not scale to demand in a background: fixed plant types come to more, or the "
                     "others have less than is left\n"),
          "the words of 14");
    check(prints(15, "refused 15 2 7\nexample: it is in doubt whether a circuit counts for year round or for peak\n"), "the words of 15");
    check(prints(16, "refused 16 2 7\nexample: the share file has a wrong length or load factor (row 0), or a zone names one that it may "
                     "not, is a second centre, or circles\n"),
          "the words of 16");
    check(prints(17, "refused 17 2 7\nexample: a reason this program does not know\n"), "the words of 17");
    check(prints(UINT64_MAX, "refused 18446744073709551615 2 7\nexample: a reason this program does not know\n"),
          "the words of the last number");
}

/* The bytes of a file, at most so many; none where it cannot be opened. */
static size_t read_file(const char *name, void *bytes, size_t most) {
    FILE *from = fopen(name, "rb");
    if (from == NULL)
        return 0;
    size_t length = fread(bytes, 1, most, from);
    fclose(from);
    return length;
}

/* Takes in the tutorial's three files: whether each is there. */
static int read_tutorial(char *const names[3]) {
    tutorial_length = read_file(names[0], tutorial_file, sizeof tutorial_file);
    tutorial_share_length = read_file(names[1], tutorial_share, sizeof tutorial_share);
    copy_runs(tutorial_file, tutorial_length, tutorial_runs);
    return tutorial_length > 0 && tutorial_share_length > 0 && read_file(names[2], tutorial_sheet, sizeof tutorial_sheet - 1) > 0;
}

int main(int argc, char **argv) {
    size_t length = fread(file, 1, sizeof file, stdin);
    if (length < SHORTEST_FILE || argc != 4 || !read_tutorial(argv + 1)) {
        puts("test: no case on standard input, or no case, share file and sheet as arguments");
        return 1;
    }
    copy_runs(file, length, runs);
    struct lent lent = kiln(length);
    accepted("KILN is accepted", &lent, KILN_SHEET);
    needs_room(SHARED, lent, KILN_SHEET);
    needs_room(FIVE, lent, KILN_SHEET);
    needs_room(THREE, lent, KILN_SHEET);
    test_no_file_and_no_runs(length);
    test_no_sheet(length);
    test_no_chargeable_tec(length);
    test_order_of_13(length);
    test_one_interconnector(length);
    test_version_2(length);
    test_edition_2(length);
    test_lengths_of_runs(length);
    test_scaling(length);
    test_background_in_doubt(length);
    test_direction_in_doubt(length);
    test_order_of_systems(length);
    test_share(length);
    test_load_factors(length);
    test_order_of_16(length);
    test_tutorial();
    test_claims();
    test_damaged_files(length);
    test_words();
    return failures == 0 ? 0 : 1;
}
