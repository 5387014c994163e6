/* Reading equations in Verilog: the library beside plain C, best times of each and whether the texts agree.
 *
 *     verilog FILE.. */
#include "../include/fidrovelj.h"
#include "baseline.h"

#include <stdio.h>
#include <stdlib.h>
#include <string.h>
#include <time.h>

static double now(void)
{
    struct timespec t;
    clock_gettime(CLOCK_MONOTONIC, &t);
    return (double)t.tv_sec * 1e6 + (double)t.tv_nsec / 1e3;
}

int main(int argc, char **argv)
{
    static uint8_t text[FIDROVELJ_WHOLE_SMALL_TEXT], ours[FIDROVELJ_WHOLE_SMALL_TEXT], theirs[FIDROVELJ_WHOLE_SMALL_TEXT];
    for (int f = 1; f < argc; f++) {
        FILE *file = fopen(argv[f], "rb");
        if (file == NULL)
            return EXIT_FAILURE;
        size_t size = fread(text, 1, sizeof text, file);
        fclose(file);
        uint8_t whole = size > FIDROVELJ_SMALL_TEXT ? FIDROVELJ_WHOLE : FIDROVELJ_OLD;
        size_t room = whole ? FIDROVELJ_WHOLE_SMALL_TABLE : FIDROVELJ_SMALL_TABLE;
        uint64_t *operands = calloc(room, 8), *results = calloc(room, 8);
        size_t names = 8 * room;
        uint64_t *heads = calloc(names, 8), *words = calloc(names, 8), *links = calloc(names, 8);
        uint32_t *states = calloc(names, 4), *wires = calloc(names, 4);
        double best = 1e18, best_c = 1e18;
        int64_t a = 0, b = 0;
        for (int i = 0; i < (whole ? 60 : 1500); i++) {
            double start = now();
            a = fidrovelj_from_verilog(text, size, ours, sizeof ours, operands, room, results, room, heads, names, words, names,
                                       links, names, states, names, wires, names, whole);
            double between = now();
            b = baseline_from_verilog(text, size, theirs, sizeof theirs, operands, room, results, room, heads, names, words,
                                      names, links, names, states, names, wires, names, whole);
            double end = now();
            best = between - start < best ? between - start : best;
            best_c = end - between < best_c ? end - between : best_c;
        }
        printf("%s, %zu bytes: library %.1f us, C %.1f us, ratio %.2f, %s\n", argv[f], size, best, best_c, best / best_c,
               a == b && (a < 0 || memcmp(ours, theirs, (size_t)a) == 0) ? "the same" : "DIFFERENT");
        free(operands);
        free(results);
        free(heads);
        free(words);
        free(links);
        free(states);
        free(wires);
    }
    return EXIT_SUCCESS;
}
