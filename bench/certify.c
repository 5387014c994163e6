/* Certifying masked netlists: the library beside plain C, best times of each, in all and a wire, and whether the answers agree.
 *
 *     certify FILE..
 *
 * Each file's netlist is masked with all codes 1 and certified. Reading is a call with an empty list of codes, which question 11
 * refuses as soon as the text is read, with the clearing of the tables; what is left of a call is the certifying, a wire's share of
 * which is told. Times are the processor's. */
#include "../include/fidrovelj.h"
#include "baseline.h"

#include <stdio.h>
#include <stdlib.h>
#include <string.h>
#include <time.h>

#define TABLE FIDROVELJ_WHOLE_LARGE_TABLE
#define SMALL FIDROVELJ_WHOLE_SMALL_TABLE

static uint64_t operands[TABLE], results[TABLE], words[TABLE], base[TABLE], records[15 * TABLE], leak[4], ones[TABLE];
static uint32_t wires[SMALL];
static uint8_t marks[TABLE], codes[TABLE], wanted[TABLE], out_codes[TABLE];
static uint8_t text[FIDROVELJ_WHOLE_SMALL_TEXT], masked[FIDROVELJ_WHOLE_LARGE_TEXT + 1];

static double now(void)
{
    struct timespec t;
    clock_gettime(CLOCK_PROCESS_CPUTIME_ID, &t);
    return (double)t.tv_sec * 1e6 + (double)t.tv_nsec / 1e3;
}

/* The bits of a line of values, and to the line's end. */
static size_t bits(char **line)
{
    size_t sum = 0;
    for (unsigned long count = strtoul(*line, line, 10); count > 0; count--)
        sum += strtoul(*line, line, 10);
    return sum;
}

/* The best times of a call with so many codes by the library and by plain C, and their answers. */
struct best {
    double library, c;
    int64_t answer, answer_c;
};

static struct best measure(size_t length, size_t count, size_t table, uint8_t sizes)
{
    struct best b = {1e18, 1e18, 0, 0};
    for (int i = 0; i < 15; i++) {
        double start = now();
        b.answer = fidrovelj_certify(masked, length, codes, count, leak, 4, ones, TABLE, operands, table, results, table, marks,
                                     table, words, table, base, table, records, 15 * table, sizes);
        double between = now();
        b.answer_c = baseline_certify(masked, length, codes, count, leak, 4, ones, TABLE, operands, table, results, table,
                                      marks, table, words, table, base, table, records, 15 * table, sizes);
        double end = now();
        b.library = between - start < b.library ? between - start : b.library;
        b.c = end - between < b.c ? end - between : b.c;
    }
    return b;
}

int main(int argc, char **argv)
{
    memset(codes, 1, sizeof codes);
    printf("%-24s %8s %12s %12s %7s %10s %10s %7s\n", "masked", "wires", "library, us", "C, us", "ratio", "ns a wire", "C", "ratio");
    for (int f = 1; f < argc; f++) {
        FILE *file = fopen(argv[f], "rb");
        if (file == NULL)
            return EXIT_FAILURE;
        size_t size = fread(text, 1, sizeof text - 1, file);
        text[size] = '\0';
        fclose(file);
        char *at = (char *)text;
        strtoul(at, &at, 10);
        strtoul(at, &at, 10);
        size_t inputs = bits(&at), outputs = bits(&at);
        int64_t length = baseline_mask(text, size, codes, inputs, wanted, outputs, masked, sizeof masked - 1, out_codes, TABLE,
                                       operands, SMALL, results, SMALL, wires, SMALL, marks, SMALL, FIDROVELJ_WHOLE);
        const char *slash = strrchr(argv[f], '/');
        const char *name = slash == NULL ? argv[f] : slash + 1;
        if (length < 0) {
            printf("%s: cannot be masked, %d\n", name, (int)length);
            continue;
        }
        masked[length] = '\0';
        size_t count = strtoul(strchr((char *)masked, ' '), NULL, 10);
        uint8_t sizes = count <= FIDROVELJ_LARGE_TABLE && length <= FIDROVELJ_LARGE_TEXT ? FIDROVELJ_OLD : FIDROVELJ_WHOLE;
        size_t table = sizes == FIDROVELJ_OLD ? FIDROVELJ_LARGE_TABLE : TABLE;
        struct best read = measure((size_t)length, 0, table, sizes), whole = measure((size_t)length, inputs, table, sizes);
        double own = (whole.library - read.library) * 1000 / (double)count, own_c = (whole.c - read.c) * 1000 / (double)count;
        printf("%-24.*s %8zu %12.1f %12.1f %7.2f %10.1f %10.1f %7.2f  %s\n", (int)strcspn(name, "."), name, count, whole.library,
               whole.c, whole.library / whole.c, own, own_c, own / own_c,
               whole.answer == 0 && whole.answer_c == 0 ? "clean" : whole.answer == whole.answer_c ? "NOT CLEAN" : "DIFFERENT");
    }
    return EXIT_SUCCESS;
}
