/* Prints the sheet of a case file of either edition, or why there is none.
 *
 *   cc -o example example.c ../../target/staticlib/libwirepulley.a
 *   ./example my.case
 *   ./example my.case my.share
 *
 * Exit status: 0 a sheet, 1 a refusal, 2 no answer (usage, or a file cannot be read, or the answer not written). */
#include <errno.h>
#include <stdlib.h>

#include "example.h"

static int is_standard_input(const char *name) { return strcmp(name, "-") == 0; }

/* The bytes of a file. One byte more than the longest one has is enough to see that it is too long. */
static size_t read_file(const char *name, uint8_t *bytes, size_t most) {
    FILE *from = is_standard_input(name) ? stdin : fopen(name, "rb");
    if (from == NULL) {
        fprintf(stderr, "example: cannot open %s: %s\n", name, strerror(errno));
        exit(2);
    }
    size_t length = fread(bytes, 1, most, from);
    if (ferror(from)) {
        fprintf(stderr, "example: cannot read %s: %s\n", name, strerror(errno));
        exit(2);
    }
    if (from != stdin)
        fclose(from);
    return length;
}

/* Tells how to call this: asked for, or after a wrong call. */
static int usage(int asked) {
    fprintf(asked ? stdout : stderr, "usage: example FILE [SHARE]\nPrints the tariff sheet of a case file, or why there is none. SHARE is a "
                                     "share file, for edition 2. - is standard input, for one of them.\n");
    return asked ? 0 : 2;
}

int main(int argc, char **argv) {
    static uint8_t file[LONGEST_FILE + 1], share[LONGEST_SHARE + 1], sheet[WIREPULLEY_LONGEST_SHEET];
    static struct run runs[RUNS];
    uint64_t answer[WIREPULLEY_ANSWER];
    if (argc == 2 && strcmp(argv[1], "--help") == 0)
        return usage(1);
    if (argc < 2 || argc > 3 || (argc == 3 && is_standard_input(argv[1]) && is_standard_input(argv[2])))
        return usage(0);
    size_t length = read_file(argv[1], file, sizeof file);
    size_t share_length = argc == 3 ? read_file(argv[2], share, sizeof share) : 0;
    copy_runs(file, length, runs);
    uint64_t number = wirepulley_write_shared(file, length, runs[BASE].numbers, runs[BASE].count, runs[WIDER].numbers, runs[WIDER].count,
                                              runs[LOCAL].numbers, runs[LOCAL].count, runs[PEAK_BASE].numbers, runs[PEAK_BASE].count,
                                              runs[PEAK_WIDER].numbers, runs[PEAK_WIDER].count, share, share_length, sheet,
                                              sizeof sheet, answer);
    if (number == 0)
        fwrite(sheet, 1, answer[3], stdout);
    else
        print_refusal(answer, stdout, stderr);
    if (fflush(stdout) != 0 || ferror(stdout)) {
        fprintf(stderr, "example: cannot write: %s\n", strerror(errno));
        return 2;
    }
    return number == 0 ? 0 : 1;
}
