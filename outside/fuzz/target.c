/* Fuzz target of the library's six entries, for libFuzzer.
 *
 * An input is eight bytes that choose buffers, run lengths and the length of a share file, then the share file, then a case file. Every
 * lent block is a heap block of exactly its length. The answers of all entries and the whole buffers are held to the reference, those
 * that are lent no share file to what it says with that empty, those that are lent three runs to what it says with peak's two empty too.
 * The mutator mends the trailer half of the time, of version 1 or 2 and of the edition that the settings name, turns a mended file into
 * one of the other version or the other edition now and then, puts solutions of the changed tables into the file a quarter of the time,
 * and a share file by chance, sound or with a fault, before the file an eighth of the time. */
#include <stdint.h>
#include <stdio.h>
#include <stdlib.h>
#include <string.h>

#include "../../clients/c/wirepulley.h"

enum { CONTROL = 8, TRAILER = 64, TRAILER_EDITION_2 = 80, SETTINGS = 64, ZERO = 52, TABLES = 4, RUNS = 5, LONGEST_RUN = 1024 };
/* Where the eight bytes have the share file's length, and its greatest. */
enum { SHARE = 2, LONGEST_SHARE = 255 };

void reference_write(const uint8_t *file, size_t file_len, const int64_t *const *runs, const size_t *run_lens, const uint8_t *share,
                     size_t share_len, uint8_t *sheet, size_t sheet_len, uint64_t *answer);
void reference_judge(const uint8_t *file, size_t file_len, const int64_t *const *runs, const size_t *run_lens, const uint8_t *share,
                     size_t share_len, uint64_t *answer);
void reference_solve(uint8_t *file, size_t file_len);
size_t reference_rewrite(uint8_t *file, size_t file_len, size_t most, int edition);
size_t reference_share(const uint8_t *file, size_t file_len, uint32_t seed, int fault, uint8_t *share, size_t most);
size_t LLVMFuzzerMutate(uint8_t *data, size_t size, size_t max_size);

static uint32_t u32_at(const uint8_t *bytes) { return bytes[0] | bytes[1] << 8 | bytes[2] << 16 | (uint32_t)bytes[3] << 24; }

static void put_u32(uint8_t *bytes, size_t number) {
    for (int k = 0; k < 4; k++)
        bytes[k] = (uint8_t)(number >> 8 * k);
}

/* A block of exactly so many bytes. */
static void *block(size_t size) {
    void *made = malloc(size);
    if (made == NULL && size > 0)
        abort();
    return made;
}

/* Whether a file names edition 2; the size of its trailer, and how many solutions it has. */
static int is_edition_2(const uint8_t *file, size_t length) { return length >= SETTINGS && u32_at(file + ZERO) == 2; }
static size_t trailer_size(int two) { return two ? TRAILER_EDITION_2 : TRAILER; }
static unsigned runs_of(int two) { return two ? RUNS : 3; }

/* Solution 0 to 4 from where the trailer says that it stands; none where it cannot, or the edition has none. Its length is changed as
 * asked. */
static int64_t *run_of(const uint8_t *file, size_t length, unsigned solution, unsigned change, size_t *count) {
    int two = is_edition_2(file, length);
    uint64_t offset = 0, rows = 0;
    if (length >= trailer_size(two) && solution < runs_of(two)) {
        const uint8_t *entry = file + length - trailer_size(two) + 8 * (TABLES + solution);
        offset = u32_at(entry), rows = u32_at(entry + 4);
        if (rows > LONGEST_RUN || offset + 8 * rows > length)
            offset = rows = 0;
    }
    *count = change == 1 && rows > 0 ? rows - 1 : change == 2 ? rows + 1 : change == 3 ? 0 : rows;
    int64_t *run = block(8 * *count);
    for (size_t i = 0; i < *count; i++)
        run[i] = 0;
    if (rows > 0 && *count > 0)
        memcpy(run, file + offset, 8 * (*count < rows ? *count : rows));
    return run;
}

static void differ(const char *what, const char *form, const uint64_t *ours, const uint64_t *theirs) {
    fprintf(stderr, "DIFFERENCE: %s, %s: ours %lu %lu %lu %lu, reference %lu %lu %lu %lu\n", what, form, ours[0], ours[1], ours[2], ours[3],
            theirs[0], theirs[1], theirs[2], theirs[3]);
    abort();
}

/* A result, and the lent numbers afterwards. */
static void hold(const char *what, const char *form, uint64_t result, const uint64_t *answer, const uint64_t *expected) {
    if (result != expected[0] || memcmp(answer, expected, 8 * WIREPULLEY_ANSWER) != 0)
        differ(what, form, answer, expected);
}

/* What is lent to a call, and what the reference says has to come of it: answers of the entry that writes and of the one that judges. */
struct call {
    uint8_t *file, *share, *sheet, *expected_sheet;
    size_t length, share_len, sheet_len, counts[RUNS];
    int64_t *runs[RUNS];
    uint64_t *answer, written[WIREPULLEY_ANSWER], judged[WIREPULLEY_ANSWER];
};

/* Asks the reference, with runs and a share file of these lengths. */
static void expect(struct call *call, const size_t *counts, size_t share_len) {
    const int64_t *const *runs = (const int64_t *const *)call->runs;
    memset(call->expected_sheet, 0x5a, call->sheet_len);
    reference_write(call->file, call->length, runs, counts, call->share, share_len, call->expected_sheet, call->sheet_len, call->written);
    memcpy(call->judged, call->written, sizeof call->judged);
    /* The judgement is the same answer; where the buffer is too short, it is the answer with room enough. */
    if (call->written[0] == 12)
        reference_judge(call->file, call->length, runs, counts, call->share, share_len, call->judged);
}

#define THREE_RUNS call->file, call->length, runs[0], n[0], runs[1], n[1], runs[2], n[2]
#define FIVE_RUNS THREE_RUNS, runs[3], n[3], runs[4], n[4]
#define FIVE_RUNS_AND_SHARE FIVE_RUNS, call->share, call->share_len
#define SHEET call->sheet, call->sheet_len

/* The forms: lent a share file, five runs, three. */
enum form { SHARED, FIVE, THREE };
static const char *const FORMS[] = {"with a share file", "five runs", "three runs"};

static uint64_t write_by(enum form form, struct call *call, uint64_t *answer) {
    int64_t *const *runs = call->runs;
    const size_t *n = call->counts;
    return form == SHARED ? wirepulley_write_shared(FIVE_RUNS_AND_SHARE, SHEET, answer)
           : form == FIVE ? wirepulley_write_five(FIVE_RUNS, SHEET, answer)
                          : wirepulley_write(THREE_RUNS, SHEET, answer);
}

static uint64_t judge_by(enum form form, struct call *call, uint64_t *answer) {
    int64_t *const *runs = call->runs;
    const size_t *n = call->counts;
    return form == SHARED ? wirepulley_judge_shared(FIVE_RUNS_AND_SHARE, answer)
           : form == FIVE ? wirepulley_judge_five(FIVE_RUNS, answer)
                          : wirepulley_judge(THREE_RUNS, answer);
}

/* Holds both entries of one form to what is expected. */
static void hold_form(struct call *call, enum form form) {
    uint64_t *answer = call->answer;
    memset(call->sheet, 0x5a, call->sheet_len);
    memset(answer, 0x5a, 8 * WIREPULLEY_ANSWER);
    hold("the answer", FORMS[form], write_by(form, call, answer), answer, call->written);
    if (memcmp(call->sheet, call->expected_sheet, call->sheet_len) != 0)
        differ("the buffer", FORMS[form], call->written, call->written);
    memset(answer, 0x5a, 8 * WIREPULLEY_ANSWER);
    hold("the judgement", FORMS[form], judge_by(form, call, answer), answer, call->judged);
}

/* How many of an input's bytes are its share file. */
static size_t share_length(const uint8_t *data, size_t size) { return data[SHARE] < size - CONTROL ? data[SHARE] : size - CONTROL; }

/* Every form with what it is lent: without a share file that is as with an empty one, of three runs as of five of which peak's are. */
static void hold_forms(struct call *call) {
    const size_t *n = call->counts;
    expect(call, n, call->share_len);
    hold_form(call, SHARED);
    if (call->share_len > 0)
        expect(call, n, 0);
    hold_form(call, FIVE);
    if (n[3] + n[4] > 0)
        expect(call, (size_t[RUNS]){n[0], n[1], n[2], 0, 0}, 0);
    hold_form(call, THREE);
}

int LLVMFuzzerTestOneInput(const uint8_t *data, size_t size) {
    if (size < CONTROL)
        return -1;
    struct call call = {.share_len = share_length(data, size), .sheet_len = data[0] | (data[1] & 15) << 8};
    if (data[1] & 128)
        call.sheet_len = WIREPULLEY_LONGEST_SHEET;
    call.length = size - CONTROL - call.share_len;
    call.file = block(call.length), call.share = block(call.share_len);
    call.sheet = block(call.sheet_len), call.expected_sheet = block(call.sheet_len), call.answer = block(8 * WIREPULLEY_ANSWER);
    memcpy(call.share, data + CONTROL, call.share_len);
    memcpy(call.file, data + CONTROL + call.share_len, call.length);
    for (unsigned k = 0; k < RUNS; k++)
        call.runs[k] = run_of(call.file, call.length, k, data[3 + k] > 240 ? data[3 + k] & 3 : 0, &call.counts[k]);
    hold_forms(&call);
    free(call.file), free(call.share), free(call.sheet), free(call.expected_sheet), free(call.answer);
    for (unsigned k = 0; k < RUNS; k++)
        free(call.runs[k]);
    return 0;
}

/* A count of the trailer, or a small one in its place. */
static size_t count_at(const uint8_t *trailer, unsigned section, size_t least, size_t most) {
    size_t count = u32_at(trailer + 8 * section + 4);
    return count < least || count > most ? least + count % 7 : count;
}

/* Makes a whole file of a file: rows as its trailer counts them, of edition 2 where the settings say so and else of edition 1, there of
 * version 2 where the trailer says so and else of version 1, zeros for what is missing, a trailer that fits. Gives its length. */
static size_t mend(uint8_t *file, size_t length, size_t most) {
    int edition_2 = is_edition_2(file, length);
    size_t size = trailer_size(edition_2), sections = TABLES + runs_of(edition_2), end = 0, offset = 0;
    uint8_t old[TRAILER_EDITION_2] = {0};
    if (length >= size)
        memcpy(old, file + length - size, size);
    int two = edition_2 || u32_at(old + size - 8) == 2;
    const size_t sizes[TABLES + RUNS] = {64, 24, two ? 48 : 44, 32, 8, 8, 8, 8, 8};
    size_t most_circuits = edition_2 ? 320 : two ? 480 : 512;
    size_t counts[TABLES + RUNS] = {1, count_at(old, 1, 1, 256), count_at(old, 2, 0, most_circuits), count_at(old, 3, 0, 512)};
    for (size_t k = 0; k < sections; k++) {
        counts[k] = k < TABLES ? counts[k] : counts[1] + counts[2];
        end += counts[k] * sizes[k];
    }
    if (end + size > most)
        return length;
    size_t kept = length < size ? length : length - size;
    if (kept < end)
        memset(file + kept, 0, end - kept);
    uint8_t *trailer = file + end;
    for (size_t k = 0; k < sections; k++) {
        put_u32(trailer + 8 * k, offset);
        put_u32(trailer + 8 * k + 4, counts[k]);
        offset += counts[k] * sizes[k];
    }
    put_u32(trailer + size - 8, two ? 2 : 1);
    put_u32(trailer + size - 4, end + size);
    put_u32(file + ZERO, edition_2 ? 2 : 0);
    return end + size;
}

/* Puts a share file by chance in place of the one before a case file, where there is room. Gives how many bytes both have. */
static size_t put_share(uint8_t *data, size_t old, size_t length, size_t most, unsigned seed) {
    uint8_t share[LONGEST_SHARE];
    size_t count = reference_share(data + CONTROL + old, length, seed, seed >> 16 & 1, share, sizeof share);
    if (count + length > most)
        return old + length;
    memmove(data + CONTROL + count, data + CONTROL + old, length);
    memcpy(data + CONTROL, share, count);
    data[SHARE] = (uint8_t)count;
    return count + length;
}

size_t LLVMFuzzerCustomMutator(uint8_t *data, size_t size, size_t max_size, unsigned seed) {
    size = LLVMFuzzerMutate(data, size, max_size);
    if (size < CONTROL || seed % 2 == 0)
        return size;
    size_t before = CONTROL + share_length(data, size), most = max_size - before;
    if (size < before + SETTINGS || max_size < before + SETTINGS + TRAILER_EDITION_2)
        return size;
    size_t length = mend(data + before, size - before, most);
    if (seed % 32 < 8)
        length = reference_rewrite(data + before, length, most, seed % 32 < 4);
    if (seed % 4 == 1)
        reference_solve(data + before, length);
    if (seed % 8 == 5)
        return CONTROL + put_share(data, before - CONTROL, length, max_size - CONTROL, seed);
    return before + length;
}
