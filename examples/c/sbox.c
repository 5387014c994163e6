/* Masks an S-box of four bits, certifies the result, and checks which values may follow each other in a register.
 *
 *     sbox FILE        a netlist in Bristol Fashion with four input bits
 */
#include "fidrovelj.h"
#include <stdio.h>
#include <stdlib.h>

#define BITS 4

static uint8_t source[FIDROVELJ_SMALL_TEXT], masked[FIDROVELJ_LARGE_TEXT];

static int refused(const char *call, int64_t answer)
{
    uint8_t words[FIDROVELJ_REFUSAL_BYTES];
    int length = (int)fidrovelj_refusal((uint8_t)-answer, words, sizeof words);
    fprintf(stderr, "%s: refused by question %d: %.*s\n", call, (int)-answer, length, (const char *)words);
    return 1;
}

int main(int count, char **names)
{
    FILE *file = count == 2 ? fopen(names[1], "rb") : NULL;
    if (file == NULL) {
        fprintf(stderr, "usage: sbox FILE\n");
        return 2;
    }
    size_t length = fread(source, 1, sizeof source, file);
    fclose(file);

    /* One block of words serves all calls: as many as the one that needs most, which is Certify. */
    const uint8_t sizes = FIDROVELJ_OLD;
    size_t words = fidrovelj_workspace_words(FIDROVELJ_SERVICE_CERTIFY, sizes);
    uint64_t *workspace = malloc(words * sizeof *workspace);
    if (workspace == NULL)
        return 1;

    /* Bits 0 and 3 travel under m0, bit 1 under m1, bit 2 under both. */
    const uint8_t codes[BITS] = {1, 2, 3, 1}, wanted[BITS] = {0};
    uint8_t out_codes[BITS];
    int64_t size = fidrovelj_mask_in(source, length, codes, BITS, wanted, BITS, masked, sizeof masked, out_codes, BITS,
                                     workspace, words, sizes);
    if (size < 0)
        return refused("mask", size);
    printf("masked: %d bytes, the output bits under codes %d%d%d%d\n", (int)size, out_codes[0], out_codes[1],
           out_codes[2], out_codes[3]);

    uint64_t leak[4], ones[BITS], bad[1];
    int64_t verdict =
        fidrovelj_certify_in(masked, (size_t)size, codes, BITS, leak, 4, ones, BITS, workspace, words, sizes);
    if (verdict < 0)
        return refused("certify", verdict);
    printf("certified: %s\n", verdict == 0 ? "clean" : verdict == 1 ? "a leak" : "not decided");

    /* One register holds bit 0 and then another value: bit 1, which is under another mask, or bit 3, which is not. */
    for (uint32_t next = 1; next < BITS; next++) {
        const uint32_t pair[] = {0, next};
        int64_t answer = fidrovelj_check_pairs_in(masked, (size_t)size, codes, BITS, pair, 2, leak, 4, bad, 1,
                                                  workspace, words, sizes);
        if (answer < 0)
            return refused("check of pairs", answer);
        printf("bit 0 and then bit %d in one register: %s\n", (int)next, answer & 2 ? "shows their sum" : "clean");
    }
    free(workspace);
    return 0;
}
