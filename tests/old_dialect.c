/* The conversions from and to the older dialect, against the implementation in bench/baseline.c: answers, every byte of the
 * result buffer, and tables that are zero.
 *
 *     old_dialect CALLS OLD FASHION ..
 *
 * OLD and FASHION are two notations of one circuit: what is converted from the one is the written form of the other, and
 * converting it there and back changes nothing. CALLS random texts in either dialect, good and damaged, follow. Prints how many
 * of them were refused by each question, so that a question that is never reached is seen. */
#include "../bench/baseline.h"
#include "fidrovelj.h"

#include <stdbool.h>
#include <stdio.h>
#include <stdlib.h>
#include <string.h>

#define TABLE FIDROVELJ_WHOLE_LARGE_TABLE
#define ROOM FIDROVELJ_WHOLE_LARGE_TEXT
#define PATTERN 0xA5

typedef __typeof__(&fidrovelj_rewrite) call;

static uint64_t operands[TABLE], results[TABLE];
static uint8_t given[TABLE], ours[ROOM], theirs[ROOM];
static long refused[2][16], accepted[2];

static void die(const char *what, const uint8_t *text, size_t length)
{
    fprintf(stderr, "old_dialect: %s\n%.*s\n", what, (int)(length < 2000 ? length : 2000), (const char *)text);
    exit(EXIT_FAILURE);
}

static bool zero(const void *bytes, size_t length)
{
    const uint8_t *p = bytes;
    return length == 0 || (p[0] == 0 && memcmp(p, p + 1, length - 1) == 0);
}

/* One call of a side, with tables of n entries full of rubbish, which must be zero afterwards. */
static int64_t one_side(call f, const uint8_t *text, size_t length, uint8_t *out, size_t room, size_t n, uint8_t sizes)
{
    memset(operands, PATTERN, n * sizeof *operands);
    memset(results, PATTERN, n * sizeof *results);
    memset(given, PATTERN, n);
    int64_t answer = f(text, length, out, room, operands, n, results, n, given, n, sizes);
    if (!zero(operands, n * sizeof *operands) || !zero(results, n * sizeof *results) || !zero(given, n))
        die("a table is not zero", text, length);
    return answer;
}

/* Both sides of a call, whose result is then in `ours`; `whole` bytes of the buffers are compared. */
static int64_t both(int to_old, const uint8_t *text, size_t length, size_t room, size_t whole, size_t n, uint8_t sizes)
{
    memset(ours, PATTERN, whole);
    memset(theirs, PATTERN, whole);
    int64_t a = one_side(to_old ? fidrovelj_to_old : fidrovelj_from_old, text, length, ours, room, n, sizes);
    int64_t b = one_side(to_old ? baseline_to_old : baseline_from_old, text, length, theirs, room, n, sizes);
    if (a != b || memcmp(ours, theirs, whole) != 0)
        die(to_old ? "to the older dialect: the two sides differ" : "from the older dialect: the two sides differ", text, length);
    return a;
}

/* ---- circuits in both notations */

static uint8_t *file(const char *path, size_t *length)
{
    FILE *f = fopen(path, "rb");
    uint8_t *text = malloc(ROOM);
    if (f == NULL || text == NULL)
        die("cannot open", (const uint8_t *)path, strlen(path));
    *length = fread(text, 1, ROOM, f);
    fclose(f);
    return text;
}

static uint8_t *copy(int64_t length)
{
    uint8_t *text = malloc((size_t)length + 1);
    memcpy(text, ours, (size_t)length);
    return text;
}

static bool same(const uint8_t *a, int64_t n, const uint8_t *b, int64_t m) { return n == m && memcmp(a, b, (size_t)n) == 0; }

static void circuit(const char *old_path, const char *fashion_path)
{
    size_t old_length, fashion_length;
    uint8_t *old = file(old_path, &old_length), *fashion = file(fashion_path, &fashion_length);
    uint8_t sizes = fashion_length > FIDROVELJ_LARGE_TEXT ? FIDROVELJ_WHOLE : FIDROVELJ_OLD;
    size_t n = sizes ? FIDROVELJ_WHOLE_LARGE_TABLE : FIDROVELJ_LARGE_TABLE;
    size_t room = sizes ? FIDROVELJ_WHOLE_LARGE_TEXT : FIDROVELJ_LARGE_TEXT;
    int64_t a = both(0, old, old_length, room, room, n, sizes);
    if (a < 0)
        die("a circuit is refused", (const uint8_t *)old_path, strlen(old_path));
    uint8_t *from = copy(a);
    int64_t w = one_side(fidrovelj_rewrite, fashion, fashion_length, ours, room, n, sizes);
    if (!same(from, a, ours, w))
        die("a circuit converted is not the other notation", (const uint8_t *)old_path, strlen(old_path));
    int64_t b = both(1, from, (size_t)a, room, room, n, sizes);
    if (b < 0)
        die("a circuit is not converted back", (const uint8_t *)old_path, strlen(old_path));
    uint8_t *back = copy(b);
    int64_t c = both(0, back, (size_t)b, room, room, n, sizes);
    if (!same(from, a, ours, c))
        die("there and back changes a circuit", (const uint8_t *)old_path, strlen(old_path));
    int64_t d = both(1, from, (size_t)a, (size_t)b - 1, room, n, sizes);
    if (d != -14)
        die("a buffer a byte short is not refused by 14", (const uint8_t *)old_path, strlen(old_path));
    free(old);
    free(fashion);
    free(from);
    free(back);
}

/* ---- random texts */

static uint64_t state = 0x9e3779b97f4a7c15U;

static uint32_t below(uint32_t n)
{
    state ^= state << 13;
    state ^= state >> 7;
    state ^= state << 17;
    return (uint32_t)(state >> 32) % n;
}

static char text[1 << 16];
static size_t size;

static void put(const char *word)
{
    size += (size_t)snprintf(text + size, sizeof text - size, "%s", word);
}

static void number(uint32_t value, char behind) { size += (size_t)snprintf(text + size, sizeof text - size, "%u%c", value, behind); }

/* A line's end, and now and then blank lines or a CR. */
static void end_line(void)
{
    while (below(12) == 0)
        put(" ");
    put(below(15) == 0 ? "\r\n" : "\n");
    while (below(12) == 0)
        put(below(2) ? "\n" : "  \n");
}

/* A netlist of few values and gates; one in `other` gates is EQ or EQW. */
static void netlist(bool old, uint32_t other)
{
    uint32_t values = old ? 1 + below(2) : 1 + below(below(4) ? 2 : 4), outs = old || below(4) ? 1 : 2;
    uint32_t width[4], n = 0, gates = below(12), bits;
    for (uint32_t i = 0; i < values; i++)
        n += width[i] = 1 + below(4);
    uint32_t wires = n + gates;
    bits = 1 + below(wires);
    if (bits < outs)
        outs = 1;
    size = 0;
    number(gates, ' ');
    number(wires, ' ');
    end_line();
    if (old) {
        number(width[0], ' ');
        number(values == 2 ? width[1] : 0, ' ');
        number(bits, ' ');
        end_line();
    } else {
        number(values, ' ');
        for (uint32_t i = 0; i < values; i++)
            number(width[i], ' ');
        end_line();
        number(outs, ' ');
        if (outs == 2)
            number(1, ' ');
        number(outs == 2 ? bits - 1 : bits, ' ');
        end_line();
    }
    for (uint32_t i = 0; i < gates; i++) {
        uint32_t kind = other != 0 && below(other) == 0 ? 3 + below(2) : below(3), wire = n + i;
        put(kind < 2 ? "2 1 " : "1 1 ");
        number(kind == 4 ? below(2) : below(wire), ' ');
        if (kind < 2)
            number(below(wire), ' ');
        number(wire, ' ');
        put((const char *[]){"XOR", "AND", "INV", "EQW", "EQ"}[kind]);
        end_line();
    }
    if (size > 0 && below(8) == 0)
        size--;
}

/* One byte replaced, taken out or put in, or a line taken out or put in twice. */
static void damage(void)
{
    static const char bytes[] = "0123456789 \n\nXORANDINVEQWM\r.";
    if (size < 2 || size + 64 > sizeof text)
        return;
    size_t at = below((uint32_t)size);
    switch (below(5)) {
    case 0:
    case 1: text[at] = bytes[below(sizeof bytes - 1)]; break;
    case 2: memmove(text + at, text + at + 1, --size - at); break;
    case 3:
        memmove(text + at + 1, text + at, size++ - at);
        text[at] = bytes[below(sizeof bytes - 1)];
        break;
    default: {
        while (at > 0 && text[at - 1] != '\n')
            at--;
        char *lf = memchr(text + at, '\n', size - at);
        size_t line = lf == NULL ? size - at : (size_t)(lf - text) + 1 - at;
        if (below(2)) {
            memmove(text + at, text + at + line, size - at - line);
            size -= line;
        } else if (line < 64) {
            memmove(text + at + line, text + at, size - at);
            size += line;
        }
    }
    }
}

static void random_call(void)
{
    bool old = below(2);
    int to_old = below(16) == 0 ? old : !old;
    netlist(old, below(3) == 0 ? 6 : 0);
    if (below(2))
        damage();
    if (below(6) == 0)
        damage();
    size_t room = below(8) == 0 ? size + below(6) - 3 : below(12) == 0 ? below((uint32_t)size + 1) : 1 << 16;
    uint8_t sizes = below(200) == 0;
    size_t n = sizes ? FIDROVELJ_WHOLE_LARGE_TABLE : FIDROVELJ_LARGE_TABLE;
    if (below(60) == 0)
        n--;
    int64_t answer = both(to_old, (const uint8_t *)text, size, room, 1 << 16, n, sizes);
    if (answer < 0) {
        refused[to_old][-answer]++;
        return;
    }
    accepted[to_old]++;
    uint8_t *result = copy(answer);
    int64_t back = both(!to_old, result, (size_t)answer, 1 << 16, 1 << 16, n, sizes);
    if (back < 0)
        die("a result is not converted back", result, (size_t)answer);
    uint8_t *other = copy(back);
    if (to_old) {
        int64_t w = one_side(fidrovelj_rewrite, (const uint8_t *)text, size, ours, 1 << 16, n, sizes);
        if (!same(other, back, ours, w))
            die("Fashion, old, Fashion is another netlist", (const uint8_t *)text, size);
    } else {
        int64_t again = both(0, other, (size_t)back, 1 << 16, 1 << 16, n, sizes);
        if (!same(result, answer, ours, again))
            die("old, Fashion, old is another netlist", (const uint8_t *)text, size);
    }
    free(other);
    free(result);
}

int main(int argc, char **argv)
{
    for (int i = 2; i + 1 < argc; i += 2)
        circuit(argv[i], argv[i + 1]);
    for (long i = argc > 1 ? atol(argv[1]) : 0; i > 0; i--)
        random_call();
    printf("%d circuits in both notations\n", argc > 2 ? (argc - 2) / 2 : 0);
    for (int to_old = 0; to_old < 2; to_old++) {
        printf("%s the older dialect: %ld accepted; refused", to_old ? "to" : "from", accepted[to_old]);
        for (int q = 1; q < 16; q++) {
            if (refused[to_old][q] != 0)
                printf(" by %d: %ld", q, refused[to_old][q]);
        }
        printf("\n");
    }
    return EXIT_SUCCESS;
}
