/* Calls the library for another program, one request after another, each in memory where nothing beside what is lent can be touched.
 *
 * A request: ten u32 (where the blocks stand; what the buffers are filled from; the counts of file, base, wider, local, peak base, peak
 * wider, share file and sheet), the file's bytes, the five runs, the share file's bytes. What comes back: the result of
 * wirepulley_judge_shared and its numbers, the result of wirepulley_write_shared and its numbers, and the sheet's buffer whole; then the
 * same of the forms of five runs, which are not lent the share file, and of those of three, which are lent the first three runs. All
 * little-endian.
 *
 * Each block ends where a page begins that may not be touched (where = 0), or starts where one ends (where = 1). What is only read is
 * lent through a view that may not be written, and what is empty by NULL (where = 1). A call that touches more ends this program by a
 * signal. */
#define _GNU_SOURCE
#include <stdio.h>
#include <stdlib.h>
#include <string.h>
#include <sys/mman.h>
#include <unistd.h>

#include "../clients/c/wirepulley.h"

enum { PAGE = 4096 };
enum { CASE, BASE, WIDER, LOCAL, PEAK_BASE, PEAK_WIDER, SHARE, SHEET, COUNTED, ANSWER = COUNTED, BLOCKS };
enum form { SHARED, FIVE, THREE };

/* A block's memory: what the library is lent, and where this program writes to it and reads from it. */
struct block {
    uint8_t *lent, *ours;
    size_t most, size;
};

static struct block blocks[BLOCKS];
static const size_t MOST[BLOCKS] = {262144, 65536, 65536, 65536, 65536, 65536, 65536, 65536, PAGE};
static const size_t WIDTH[BLOCKS] = {1, 8, 8, 8, 8, 8, 1, 1, 8};

static void fail(const char *what) {
    perror(what);
    exit(2);
}

/* Two views of one memory: ours, and the lent one between two pages that may not be touched. */
static void make(struct block *block, size_t most, int protection) {
    int memory = memfd_create("block", 0);
    if (memory < 0 || ftruncate(memory, (off_t)most) != 0)
        fail("caller: memory");
    uint8_t *room = mmap(NULL, most + 2 * PAGE, PROT_NONE, MAP_PRIVATE | MAP_ANONYMOUS, -1, 0);
    uint8_t *ours = mmap(NULL, most, PROT_READ | PROT_WRITE, MAP_SHARED, memory, 0);
    if (room == MAP_FAILED || ours == MAP_FAILED ||
        mmap(room + PAGE, most, protection, MAP_SHARED | MAP_FIXED, memory, 0) == MAP_FAILED)
        fail("caller: memory");
    *block = (struct block){.lent = room + PAGE, .ours = ours, .most = most};
}

/* Exactly so many bytes; false where the input ended before the first. */
static int take(void *to, size_t size) {
    size_t got = fread(to, 1, size, stdin);
    if (got == 0 && feof(stdin))
        return 0;
    if (got != size)
        fail("caller: the request is cut short");
    return 1;
}

static void give(const void *from, size_t size) {
    if (fwrite(from, 1, size, stdout) != size)
        fail("caller: the answer cannot be written");
}

static size_t offset(const struct block *block, uint32_t where) { return where == 0 ? block->most - block->size : 0; }
static uint8_t *lent(unsigned k, uint32_t where) {
    return where == 1 && blocks[k].size == 0 ? NULL : blocks[k].lent + offset(&blocks[k], where);
}
static uint8_t *ours(unsigned k, uint32_t where) { return blocks[k].ours + offset(&blocks[k], where); }

/* What stands in the lent buffers before a call: byte i of the sheet is fill + i, number i of the answer is fill + i. */
static void fill_buffers(uint32_t where, uint32_t fill) {
    uint8_t *sheet = ours(SHEET, where);
    for (size_t i = 0; i < blocks[SHEET].size; i++)
        sheet[i] = (uint8_t)(fill + i);
    uint64_t *answer = (uint64_t *)ours(ANSWER, where);
    for (size_t i = 0; i < WIREPULLEY_ANSWER; i++)
        answer[i] = fill + i;
}

/* Reads what is lent; false where a count is too great or the request is cut short. */
static int take_blocks(const uint32_t *count, uint32_t where) {
    blocks[ANSWER].size = WIDTH[ANSWER] * WIREPULLEY_ANSWER;
    for (unsigned k = 0; k < COUNTED; k++) {
        blocks[k].size = WIDTH[k] * count[k];
        if (blocks[k].size > MOST[k] || (k < SHEET && blocks[k].size > 0 && !take(ours(k, where), blocks[k].size)))
            return 0;
    }
    return 1;
}

/* Tells what a call left behind. */
static void give_answer(uint64_t result, uint32_t where) {
    give(&result, sizeof result);
    give(ours(ANSWER, where), blocks[ANSWER].size);
}

#define THREE_RUNS file, n[CASE], run[BASE], n[BASE], run[WIDER], n[WIDER], run[LOCAL], n[LOCAL]
#define FIVE_RUNS THREE_RUNS, run[PEAK_BASE], n[PEAK_BASE], run[PEAK_WIDER], n[PEAK_WIDER]
#define FIVE_RUNS_AND_SHARE FIVE_RUNS, share, n[SHARE]
#define OUT lent(SHEET, where), n[SHEET], answer

/* Both entries of one form on what is lent. */
static void call(const uint32_t *n, uint32_t where, uint32_t fill, enum form form) {
    const uint8_t *file = lent(CASE, where), *share = lent(SHARE, where);
    const int64_t *run[PEAK_WIDER + 1];
    for (unsigned k = BASE; k <= PEAK_WIDER; k++)
        run[k] = (int64_t *)lent(k, where);
    uint64_t *answer = (uint64_t *)lent(ANSWER, where);
    fill_buffers(where, fill);
    give_answer(form == SHARED ? wirepulley_judge_shared(FIVE_RUNS_AND_SHARE, answer)
                : form == FIVE ? wirepulley_judge_five(FIVE_RUNS, answer)
                               : wirepulley_judge(THREE_RUNS, answer),
                where);
    fill_buffers(where, fill);
    give_answer(form == SHARED ? wirepulley_write_shared(FIVE_RUNS_AND_SHARE, OUT)
                : form == FIVE ? wirepulley_write_five(FIVE_RUNS, OUT)
                               : wirepulley_write(THREE_RUNS, OUT),
                where);
    give(ours(SHEET, where), blocks[SHEET].size);
}

int main(void) {
    for (unsigned k = 0; k < BLOCKS; k++)
        make(&blocks[k], MOST[k], k >= SHEET ? PROT_READ | PROT_WRITE : PROT_READ);
    uint32_t head[2 + COUNTED];
    while (take(head, sizeof head)) {
        if (!take_blocks(head + 2, head[0])) {
            fputs("caller: a request is too long or cut short\n", stderr);
            return 2;
        }
        for (enum form form = SHARED; form <= THREE; form++)
            call(head + 2, head[0], head[1], form);
        fflush(stdout);
    }
    return 0;
}
