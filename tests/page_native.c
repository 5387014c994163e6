/* The calls that the page makes, made of the native library: what tests/page compares the page with.
 *
 * usage: page_native read NOTATION FILE      the written form: fashion, old, aiger or equations
 *        page_native mask FILE CODES WANTED  a line of output codes, then the masked text; a list has a digit a bit
 *        page_native check FILE CODES        clean, leak WIRE BASE OWN ONES.., or undecided WIRE
 *        page_native run FILE BITS           the output bits
 * A refusal is printed as: refused NUMBER. */
#include "fidrovelj.h"

#include <stdio.h>
#include <stdlib.h>
#include <string.h>

#define WIRES FIDROVELJ_WHOLE_LARGE_TABLE
#define TEXT FIDROVELJ_WHOLE_LARGE_TEXT
#define NAMES (8 * FIDROVELJ_WHOLE_SMALL_TABLE)

static uint8_t text[TEXT + 1], out[TEXT], list[WIRES], wanted[WIRES], out_list[WIRES], marks[WIRES], paints[WIRES];
static uint64_t operands[WIRES], results[WIRES], words[WIRES], base[WIRES], bases[WIRES], sets[4][WIRES];
static uint64_t records[15L * WIRES];
static uint64_t heads[NAMES], names[NAMES], links[NAMES], leak[4], ones[WIRES], bad[1];
static uint32_t wires[FIDROVELJ_WHOLE_SMALL_TABLE], states[NAMES], name_wires[NAMES];
static size_t text_len;

static void read_file(const char *path)
{
    FILE *file = fopen(path, "rb");
    if (!file) {
        perror(path);
        exit(2);
    }
    text_len = fread(text, 1, sizeof text, file);
    fclose(file);
}

static size_t read_list(uint8_t *into, const char *digits)
{
    size_t count = strlen(digits);
    for (size_t i = 0; i < count; i++)
        into[i] = digits[i] - '0';
    return count;
}

static int64_t written(int64_t length)
{
    if (length < 0)
        printf("refused %d\n", (int)-length);
    else
        fwrite(out, 1, length, stdout);
    return length;
}

#define PLAIN operands, WIRES, results, WIRES, marks, WIRES
#define SMALL FIDROVELJ_WHOLE_SMALL_TABLE

static int64_t read_as(const char *notation, uint8_t sizes)
{
    if (strcmp(notation, "fashion") == 0)
        return fidrovelj_rewrite(text, text_len, out, TEXT, PLAIN, sizes);
    if (strcmp(notation, "old") == 0)
        return fidrovelj_from_old(text, text_len, out, TEXT, PLAIN, sizes);
    if (strcmp(notation, "aiger") == 0)
        return fidrovelj_from_aiger(text, text_len, out, TEXT, operands, WIRES, results, WIRES, wires, SMALL, sizes);
    return fidrovelj_from_verilog(text, text_len, out, TEXT, operands, WIRES, results, WIRES, heads, NAMES, names,
                                  NAMES, links, NAMES, states, NAMES, name_wires, NAMES, sizes);
}

static void told(int64_t answer, int by_ones)
{
    if (answer < 0)
        printf("refused %d\n", (int)-answer);
    else if (answer == 0)
        puts("clean");
    else if (answer == 2)
        printf("undecided %d\n", (int)leak[0]);
    else {
        printf("leak %d %d %d", (int)leak[0], (int)leak[2], (int)leak[3]);
        for (int i = 0; by_ones ? i < (int)leak[1] : i < 12; i++)
            if (by_ones)
                printf(" %d", (int)ones[i]);
            else if (leak[1] >> i & 1)
                printf(" %d", i);
        puts("");
    }
}

/* Check; where it has too many inputs Certify; where that does not decide Check of many inputs. */
static void check(size_t codes, uint8_t sizes)
{
    int64_t answer = fidrovelj_check(text, text_len, list, codes, leak, 4, PLAIN, words, WIRES, base, WIRES, sizes);
    if (answer != -12) {
        told(answer, 0);
        return;
    }
    answer = fidrovelj_certify(text, text_len, list, codes, leak, 4, ones, WIRES, PLAIN, words, WIRES, base, WIRES,
                               records, 15L * WIRES, sizes);
    uint64_t wire = leak[0];
    if (answer == 2) {
        uint32_t no_pairs[1];
        answer = fidrovelj_check_wide(text, text_len, list, codes, no_pairs, 0, leak, 4, ones, WIRES, bad, 1, PLAIN,
                                      words, WIRES, base, WIRES, bases, WIRES, sets[0], WIRES, sets[1], WIRES, sets[2],
                                      WIRES, sets[3], WIRES, paints, WIRES, sizes);
        if (answer == -12) {
            leak[0] = wire;
            answer = 2;
        }
    }
    told(answer, 1);
}

int main(int argc, char **argv)
{
    const char *call = argc > 1 ? argv[1] : "";
    if (argc == 4 && strcmp(call, "read") == 0) {
        read_file(argv[3]);
        written(read_as(argv[2], FIDROVELJ_WHOLE));
    } else if (argc == 5 && strcmp(call, "mask") == 0) {
        read_file(argv[2]);
        size_t codes = read_list(list, argv[3]), ends = read_list(wanted, argv[4]);
        int64_t length = fidrovelj_mask(text, text_len, list, codes, wanted, ends, out, TEXT, out_list, WIRES, operands,
                                        WIRES, results, WIRES, wires, SMALL, marks, WIRES, FIDROVELJ_WHOLE);
        for (size_t i = 0; length >= 0 && i < ends; i++)
            putchar('0' + out_list[i]);
        if (length >= 0)
            putchar('\n');
        written(length);
    } else if (argc == 4 && strcmp(call, "check") == 0) {
        read_file(argv[2]);
        check(read_list(list, argv[3]), FIDROVELJ_WHOLE);
    } else if (argc == 4 && strcmp(call, "run") == 0) {
        read_file(argv[2]);
        size_t bits = read_list(list, argv[3]);
        int64_t count = fidrovelj_run(text, text_len, list, bits, out_list, WIRES, PLAIN, words, WIRES,
                                      FIDROVELJ_WHOLE);
        for (int64_t i = 0; i < count; i++)
            putchar('0' + out_list[i]);
        if (count < 0)
            printf("refused %d", (int)-count);
        puts("");
    } else {
        fputs("page_native: see the head of tests/page_native.c\n", stderr);
        return 2;
    }
    return 0;
}
