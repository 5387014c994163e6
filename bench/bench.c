/* The library and the plain C baseline on the same inputs, in turn, in one process.
 *
 * usage: bench FOLDER WHOLE-FOLDER [SECONDS]
 *
 * FOLDER holds the circuits, WHOLE-FOLDER those above the old limits; SECONDS, by default 1, are
 * spent on each line of the table. Both sides are first compared: they must give the same answers
 * and the same bytes. A line then gives for both the best and the median time of a call, and the
 * ratios library to baseline: of the best times, of the medians, and the quartiles of the ratios of
 * neighbouring calls.
 *
 * A call is timed whole, with the clearing of its working tables, which both sides owe. Tables are
 * zero before each call, left so by the one before; result buffers hold an earlier result.
 */
#include "baseline.h"
#include "fidrovelj.h"

#include <stdbool.h>
#include <stdio.h>
#include <stdlib.h>
#include <string.h>
#include <time.h>

#define TABLE FIDROVELJ_WHOLE_LARGE_TABLE
#define ROOM FIDROVELJ_WHOLE_LARGE_TEXT

/* The tables' entries, by the call's sizes. */
static const size_t large_table[2] = {FIDROVELJ_LARGE_TABLE, FIDROVELJ_WHOLE_LARGE_TABLE};
static const size_t small_table[2] = {FIDROVELJ_SMALL_TABLE, FIDROVELJ_WHOLE_SMALL_TABLE};

struct services {
    __typeof__(&fidrovelj_rewrite) rewrite, from_old, to_old;
    __typeof__(&fidrovelj_run) run;
    __typeof__(&fidrovelj_run64) run64;
    __typeof__(&fidrovelj_mask) mask;
    __typeof__(&fidrovelj_mask_fewest) mask_fewest;
    __typeof__(&fidrovelj_check) check;
    __typeof__(&fidrovelj_twins) twins;
    __typeof__(&fidrovelj_join) join;
    __typeof__(&fidrovelj_check_pairs) check_pairs;
    __typeof__(&fidrovelj_check_wide) check_wide;
};

/* The services of one side by its prefix. */
#define SERVICES_OF(side)                  \
    {                                      \
        .rewrite = side##_rewrite,         \
        .from_old = side##_from_old,       \
        .to_old = side##_to_old,           \
        .run = side##_run,                 \
        .run64 = side##_run64,             \
        .mask = side##_mask,               \
        .mask_fewest = side##_mask_fewest, \
        .twins = side##_twins,             \
        .check = side##_check,             \
        .check_pairs = side##_check_pairs, \
        .check_wide = side##_check_wide,   \
        .join = side##_join,               \
    }

static const struct services library = SERVICES_OF(fidrovelj);
static const struct services baseline = SERVICES_OF(baseline);

enum service {
    READ_LARGE,
    READ_SMALL,
    REWRITE,
    FROM_OLD,
    TO_OLD,
    RUN,
    RUN64,
    MASK,
    MASK_UNWRITTEN,
    MASK_FEWEST,
    TWINS,
    CHECK,
    CHECK_PAIRS,
    CHECK_WIDE,
    JOIN,
};

/* A call, and the work it stands for. */
struct call {
    enum service service;
    uint8_t sizes;
    char name[64];
    uint8_t *text;
    size_t length, inputs, outputs;
    uint64_t budget;
    uint32_t *pairs;
    size_t pairs_len;
};

static uint64_t operands[TABLE], results[TABLE], words[TABLE], base[TABLE], bases[TABLE], leak[4], bad[1], word_list[TABLE], words_out[TABLE];
static uint64_t sets[4][TABLE], ones[12];
static uint32_t wires[TABLE], wires_out[TABLE];
static uint8_t paints[TABLE], given[TABLE], out[ROOM], list_out[TABLE], list[TABLE], wanted[TABLE];

/* Of Mask with fewer changes. */
static uint64_t spans[TABLE], tally[2];
static uint8_t free_codes[TABLE], in_codes[TABLE], ways[TABLE], chosen[TABLE];

static void die(const char *what, const char *name)
{
    fprintf(stderr, "bench: %s: %s\n", what, name);
    exit(EXIT_FAILURE);
}

/* Reading alone is a call with an empty list, which question 11 refuses as soon as the text is read; masking
 * without writing one with an empty buffer of codes, which question 14 refuses once the wires are counted.
 * Input lists are all ones, wanted lists all zeros, words are random. A text that puts out as many bits as
 * it takes is joined with itself. */
static int64_t perform(const struct services *s, const struct call *c)
{
    size_t n = large_table[c->sizes], m = small_table[c->sizes];
    switch (c->service) {
    case READ_LARGE:
    case RUN:
        return s->run(c->text, c->length, list, c->service == RUN ? c->inputs : 0, list_out, n, operands, n, results,
                      n, given, n, words, n, c->sizes);
    case RUN64:
        return s->run64(c->text, c->length, word_list, c->inputs, words_out, n, operands, n, results, n, given, n,
                        words, n, c->sizes);
    case READ_SMALL:
    case MASK:
    case MASK_UNWRITTEN:
        return s->mask(c->text, c->length, list, c->service == READ_SMALL ? 0 : c->inputs, wanted, c->outputs, out, ROOM,
                       list_out, c->service == MASK_UNWRITTEN ? 0 : n, operands, m, results, m, wires, m, given, m,
                       c->sizes);
    case MASK_FEWEST:
        return s->mask_fewest(c->text, c->length, free_codes, c->inputs, wanted, c->outputs, c->budget, out, ROOM,
                              in_codes, m, list_out, m, tally, 2, operands, m, results, m, wires, m, given, m, ways, m,
                              chosen, m, spans, m, c->sizes);
    case TWINS:
        return s->twins(c->text, c->length, list, c->inputs, wires_out, m, list_out, m, operands, m, results, m, given, m,
                        c->sizes);
    case REWRITE:
        return s->rewrite(c->text, c->length, out, ROOM, operands, n, results, n, given, n, c->sizes);
    case FROM_OLD:
        return s->from_old(c->text, c->length, out, ROOM, operands, n, results, n, given, n, c->sizes);
    case TO_OLD:
        return s->to_old(c->text, c->length, out, ROOM, operands, n, results, n, given, n, c->sizes);
    case JOIN:
        return s->join(c->text, c->length, c->text, c->length, list, c->inputs - 2, list, c->outputs, list,
                       c->inputs - 2, out, ROOM, operands, n, results, n, given, n, words, n, base, n, c->sizes);
    case CHECK_PAIRS:
        return s->check_pairs(c->text, c->length, list, c->inputs - 2, c->pairs, c->pairs_len, leak, 4, bad, 1,
                              operands, n, results, n, given, n, words, n, base, n, bases, n, c->sizes);
    case CHECK_WIDE:
        return s->check_wide(c->text, c->length, list, c->inputs - 2, c->pairs, c->pairs_len, leak, 4, ones, 12, bad, 1,
                             operands, n, results, n, given, n, words, n, base, n, bases, n, sets[0], n, sets[1], n,
                             sets[2], n, sets[3], n, paints, n, c->sizes);
    default:
        return s->check(c->text, c->length, list, c->inputs - 2, leak, 4, operands, n, results, n, given, n, words, n,
                        base, n, c->sizes);
    }
}

/* ---- inputs */

/* The bits of a line of values. */
static size_t bits(const char *line)
{
    char *rest;
    size_t sum = 0;
    for (unsigned long count = strtoul(line, &rest, 10); count > 0; count--)
        sum += strtoul(rest, &rest, 10);
    return sum;
}

/* A call on a text of its own, which begins with the header. */
static struct call call(enum service service, const char *name, const char *text, size_t length)
{
    struct call c = {.service = service, .length = length};
    snprintf(c.name, sizeof c.name, "%s", name);
    c.text = malloc(length + 1);
    memcpy(c.text, text, length);
    c.text[length] = '\0';
    const char *second = strchr((const char *)c.text, '\n') + 1;
    c.inputs = bits(second);
    c.outputs = bits(strchr(second, '\n') + 1);
    return c;
}

static struct call circuit(enum service service, const char *folder, const char *name)
{
    char path[4096];
    snprintf(path, sizeof path, "%s/%s.txt", folder, name);
    FILE *file = fopen(path, "rb");
    if (file == NULL)
        die("cannot open", path);
    static char text[ROOM];
    size_t length = fread(text, 1, sizeof text, file);
    fclose(file);
    return call(service, name, text, length);
}

/* A source of twelve bits, 2,048 wires and as many outputs, all gates ANDs. */
static struct call twelve_bits(void)
{
    static char text[ROOM];
    int at = snprintf(text, sizeof text, "2036 2048\n1 12\n1 2048\n\n");
    for (int wire = 12; wire < 2048; wire++)
        at += snprintf(text + at, sizeof text - (size_t)at, "2 1 %d %d %d AND\n", wire - 1, wire - 12, wire);
    return call(MASK, "twelve bits", text, (size_t)at);
}

/* A call on the masked netlist of a source, by Mask. */
static struct call masked(enum service service, struct call source)
{
    char name[80];
    source.service = MASK;
    int64_t length = perform(&baseline, &source);
    if (length < 0)
        die("cannot be masked", source.name);
    snprintf(name, sizeof name, "%.50s, masked", source.name);
    struct call c = call(service, name, (const char *)out, (size_t)length);
    c.sizes = source.sizes;
    free(source.text);
    return c;
}

/* The call from the older dialect on what the call to it gives. */
static struct call from_old(struct call source)
{
    source.service = TO_OLD;
    int64_t length = perform(&baseline, &source);
    if (length < 0)
        die("has no old form", source.name);
    struct call c = source;
    c.service = FROM_OLD;
    c.length = (size_t)length;
    c.text = malloc(c.length);
    memcpy(c.text, out, c.length);
    free(source.text);
    return c;
}

/* The check of a clean netlist with so many pairs of its wires, drawn at random, each of them clean. */
static struct call with_pairs(struct call c, size_t many)
{
    uint64_t state = 1;
    uint32_t wire_count = (uint32_t)strtoul(strchr((const char *)c.text, ' '), NULL, 10), *drawn;
    char name[sizeof c.name];
    c.service = CHECK_PAIRS;
    c.pairs = malloc((many + 1) * 2 * sizeof *c.pairs);
    drawn = c.pairs;
    for (size_t kept = 0; kept < many;) {
        for (int i = 0; i < 2; i++) {
            state = state * 6364136223846793005U + 1442695040888963407U;
            drawn[i] = (uint32_t)(state >> 33) % wire_count;
        }
        struct call one = c;
        one.pairs = drawn;
        one.pairs_len = 2;
        if (perform(&baseline, &one) == 0) {
            drawn += 2;
            kept++;
        }
    }
    c.pairs_len = 2 * many;
    snprintf(name, sizeof name, "%.30s, %zu pairs", c.name, many);
    memcpy(c.name, name, sizeof name);
    return c;
}

/* The check of bytes in, bytes out with a register for each bit of a byte in and each of its byte out, as far as they
 * are clean. */
static struct call with_registers(struct call c)
{
    char name[sizeof c.name];
    uint32_t wire_count = (uint32_t)strtoul(strchr((const char *)c.text, ' '), NULL, 10);
    size_t kept = 0, bytes = c.outputs / 8;
    c.pairs = malloc(bytes * 64 * 2 * sizeof *c.pairs);
    for (uint32_t i = 0; i < bytes * 64; i++) {
        struct call one = c;
        one.pairs = c.pairs + 2 * kept;
        one.pairs_len = 2;
        one.pairs[0] = i / 8;
        one.pairs[1] = wire_count - (uint32_t)c.outputs + i / 64 * 8 + i % 8;
        kept += perform(&baseline, &one) == 0;
    }
    c.pairs_len = 2 * kept;
    snprintf(name, sizeof name, "%.30s, %zu pairs", c.name, kept);
    memcpy(c.name, name, sizeof name);
    return c;
}

/* The check of so many copies of a masked netlist beside each other, over one mask pair, the lines of all in turn. */
static struct call copies(struct call one, unsigned many)
{
    static char text[ROOM];
    char *line = strchr(strchr(strchr((char *)one.text, '\n') + 1, '\n') + 1, '\n') + 2;
    unsigned long gates = strtoul((char *)one.text, NULL, 10), bits = one.inputs - 2, all = bits * many;
    size_t at = (size_t)snprintf(text, sizeof text, "%lu %lu\n2 %lu 2\n1 1\n\n", gates * many, all + 2 + gates * many, all);
    for (; *line != '\0'; line = strchr(line, '\n') + 1) {
        for (unsigned long copy = 0; copy < many; copy++) {
            char *word = line;
            unsigned long operands_of = strtoul(word, &word, 10), numbers = operands_of + 1;
            at += (size_t)snprintf(text + at, sizeof text - at, "%lu %lu", operands_of, strtoul(word, &word, 10));
            for (; numbers > 0; numbers--) {
                unsigned long wire = strtoul(word, &word, 10);
                wire = wire < bits ? copy * bits + wire : wire < bits + 2 ? all + wire - bits : all + 2 + copy * gates + wire - bits - 2;
                at += (size_t)snprintf(text + at, sizeof text - at, " %lu", wire);
            }
            at += (size_t)snprintf(text + at, sizeof text - at, "%.5s", word);
        }
    }
    char name[64];
    snprintf(name, sizeof name, "%u of %.40s", many, one.name);
    struct call c = call(CHECK_WIDE, name, text, at);
    c.sizes = all + 2 + gates * many > FIDROVELJ_LARGE_TABLE ? FIDROVELJ_WHOLE : FIDROVELJ_OLD;
    free(one.text);
    return c;
}

/* The check of so many products of twelve bits each, drawn at random of forty: sets that overlap. */
static struct call overlapping(unsigned many)
{
    static char text[ROOM];
    char name[64];
    uint64_t state = 1;
    int wire = 42, at = snprintf(text, sizeof text, "%u %u\n2 40 2\n1 1\n\n", 11 * many, 42 + 11 * many);
    for (unsigned i = 0; i < many; i++) {
        uint64_t drawn = 0;
        for (int count = 0, last = 0; count < 12;) {
            state = state * 6364136223846793005U + 1442695040888963407U;
            int bit = (int)((state >> 33) % 40);
            if (drawn >> bit & 1)
                continue;
            drawn |= 1ULL << bit;
            if (count++ > 0)
                at += snprintf(text + at, sizeof text - (size_t)at, "2 1 %d %d %d AND\n", last, bit, wire++);
            last = count > 1 ? wire - 1 : bit;
        }
    }
    snprintf(name, sizeof name, "%u random sets of 12 of 40 bits", many);
    return call(CHECK_WIDE, name, text, (size_t)at);
}

/* The same call with the limits for whole ciphers. */
static struct call whole(struct call c)
{
    c.sizes = FIDROVELJ_WHOLE;
    return c;
}

/* A source of one bit and so many ANDs of the last wire with itself. */
static struct call and_ladder(int gates)
{
    static char text[ROOM];
    char name[64];
    int at = snprintf(text, sizeof text, "%d %d\n1 1\n1 1\n\n", gates, gates + 1);
    for (int wire = 1; wire <= gates; wire++)
        at += snprintf(text + at, sizeof text - (size_t)at, "2 1 %d %d %d AND\n", wire - 1, wire - 1, wire);
    snprintf(name, sizeof name, "%d ANDs", gates);
    return whole(call(MASK, name, text, (size_t)at));
}

/* The same call on the text with CR LF for each LF. */
static struct call with_crlf(struct call c)
{
    static char text[ROOM];
    char name[80];
    size_t at = 0;
    for (size_t i = 0; i < c.length && at + 2 <= sizeof text; i++) {
        if (c.text[i] == '\n')
            text[at++] = '\r';
        text[at++] = (char)c.text[i];
    }
    snprintf(name, sizeof name, "%.50s, CR LF", c.name);
    struct call d = call(c.service, name, text, at);
    d.sizes = c.sizes;
    free(c.text);
    return d;
}

/* ---- comparing */

/* Both sides give the same answer and the same bytes. */
static void compare(const struct call *c)
{
    static uint8_t codes[TABLE];
    uint64_t changes[2];
    static uint8_t text[ROOM], entries[TABLE];
    static uint64_t lanes[TABLE];
    static uint32_t twins[TABLE];
    uint64_t numbers[4], setting[12], number;
    memset(out, 1, sizeof out);
    memset(bad, 1, sizeof bad);
    memset(in_codes, 1, sizeof in_codes);
    memset(tally, 1, sizeof tally);
    memset(list_out, 1, sizeof list_out);
    memset(words_out, 1, sizeof words_out);
    memset(wires_out, 1, sizeof wires_out);
    memset(leak, 1, sizeof leak);
    memset(ones, 1, sizeof ones);
    int64_t expected = perform(&baseline, c);
    memcpy(text, out, sizeof out);
    memcpy(codes, in_codes, sizeof in_codes);
    memcpy(changes, tally, sizeof tally);
    memset(in_codes, 1, sizeof in_codes);
    memset(tally, 1, sizeof tally);
    memcpy(entries, list_out, sizeof list_out);
    memcpy(lanes, words_out, sizeof words_out);
    memcpy(twins, wires_out, sizeof wires_out);
    memcpy(numbers, leak, sizeof leak);
    memcpy(setting, ones, sizeof ones);
    number = bad[0];
    memset(ones, 1, sizeof ones);
    memset(bad, 1, sizeof bad);
    memset(out, 1, sizeof out);
    memset(list_out, 1, sizeof list_out);
    memset(words_out, 1, sizeof words_out);
    memset(wires_out, 1, sizeof wires_out);
    memset(leak, 1, sizeof leak);
    bool reading = c->service == READ_LARGE || c->service == READ_SMALL;
    bool good = reading ? expected == -11 : c->service == MASK_UNWRITTEN ? expected == -14 : expected >= 0;
    if (perform(&library, c) != expected || !good)
        die("answers are not as they should be", c->name);
    if (memcmp(text, out, sizeof out) != 0 || memcmp(entries, list_out, sizeof list_out) != 0
        || memcmp(codes, in_codes, sizeof in_codes) != 0 || memcmp(changes, tally, sizeof tally) != 0
        || memcmp(lanes, words_out, sizeof words_out) != 0 || memcmp(twins, wires_out, sizeof wires_out) != 0
        || memcmp(numbers, leak, sizeof leak) != 0 || memcmp(setting, ones, sizeof ones) != 0
        || number != bad[0])
        die("results differ", c->name);
}

/* ---- timing */

static double microseconds(clockid_t clock)
{
    struct timespec t;
    clock_gettime(clock, &t);
    return (double)t.tv_sec * 1e6 + (double)t.tv_nsec / 1e3;
}

static double now(void) { return microseconds(CLOCK_MONOTONIC); }

/* What calls are timed by: the clock, and at whole sizes the processor's time, since others' turns on a
 * shared machine fall into calls of milliseconds. */
static clockid_t call_clock = CLOCK_MONOTONIC;


static double timed(const struct services *s, const struct call *c)
{
    double start = microseconds(call_clock);
    perform(s, c);
    return microseconds(call_clock) - start;
}

static int by_size(const void *a, const void *b)
{
    double x = *(const double *)a, y = *(const double *)b;
    return (x > y) - (x < y);
}

#define MOST 20000

/* Times in rising order. */
struct times {
    size_t count;
    double at[MOST];
};

static void sort(struct times *t) { qsort(t->at, t->count, sizeof *t->at, by_size); }
static double best(const struct times *t) { return t->at[0]; }
static double quantile(const struct times *t, double q) { return t->at[(size_t)(q * (double)(t->count - 1) + 0.5)]; }

static struct times ours, theirs, ratios;

/* The two sides in turn, the first one changing, for so many seconds. */
static void measure(const struct call *c, double seconds)
{
    double end = now() + seconds * 1e6;
    size_t n = 0;
    timed(&library, c);
    timed(&baseline, c);
    while (n < MOST && (n < 5 || now() < end)) {
        if (n % 2 == 0) {
            ours.at[n] = timed(&library, c);
            theirs.at[n] = timed(&baseline, c);
        } else {
            theirs.at[n] = timed(&baseline, c);
            ours.at[n] = timed(&library, c);
        }
        ratios.at[n] = ours.at[n] / theirs.at[n];
        n++;
    }
    ours.count = theirs.count = ratios.count = n;
    sort(&ours);
    sort(&theirs);
    sort(&ratios);
}

static void title(const char *work)
{
    printf("\n%-34s %10s %10s %10s %10s   %6s %6s   %s\n", work, "library", "median", "C", "median", "best", "median",
           "quartiles");
}

static void print_line(const char *name, double a, double b, double c, double d)
{
    printf("%-34s %10.1f %10.1f %10.1f %10.1f   %6.2f %6.2f", name, a, b, c, d, a / c, b / d);
}

/* The best and median times of a call, in the order library, library, C, C. */
struct line {
    double at[4];
};

static struct line bench(struct call c, double seconds)
{
    compare(&c);
    measure(&c, seconds);
    struct line l = {{best(&ours), quantile(&ours, 0.5), best(&theirs), quantile(&theirs, 0.5)}};
    print_line(c.name, l.at[0], l.at[1], l.at[2], l.at[3]);
    printf("   %.2f to %.2f, %zu calls\n", quantile(&ratios, 0.25), quantile(&ratios, 0.75), ratios.count);
    fflush(stdout);
    free(c.text);
    free(c.pairs);
    return l;
}

/* What a call takes beyond reading its text. */
static struct line beyond(struct line whole, struct line reading)
{
    struct line rest;
    for (int i = 0; i < 4; i++)
        rest.at[i] = whole.at[i] - reading.at[i];
    print_line("  less reading", rest.at[0], rest.at[1], rest.at[2], rest.at[3]);
    printf("\n");
    return rest;
}

/* How many times another line's time a line takes. */
static void times(struct line own, struct line other, const char *what)
{
    printf("%-34s", what);
    for (int i = 0; i < 4; i++)
        printf(" %10.2f", own.at[i] / other.at[i]);
    printf("\n");
}

static void times_lf(struct line crlf, struct line lf)
{
    times(crlf, lf, "  times the LF text's time");
}

/* The twins of a circuit's wires, and what Mask takes where it reads and counts and writes nothing. */
static void twins_beside_mask(const char *folder, const char *name, double s)
{
    struct call counting = circuit(MASK_UNWRITTEN, folder, name), twins = circuit(TWINS, folder, name);
    snprintf(counting.name, sizeof counting.name, "%s, Mask unwritten", name);
    snprintf(twins.name, sizeof twins.name, "%s, Twins", name);
    struct line counted = bench(counting, s);
    times(bench(twins, s), counted, "  times Mask unwritten");
}

/* The fewest changes of a circuit with all inputs free, among as many choices as a budget allows. */
static void fewest(const char *folder, const char *name, const char *tries, uint64_t budget, double s)
{
    struct call c = circuit(MASK_FEWEST, folder, name);
    c.budget = budget;
    snprintf(c.name, sizeof c.name, "%s, %s", name, tries);
    bench(c, s);
    printf("  changes %llu, floor %llu\n", (unsigned long long)tally[0], (unsigned long long)tally[1]);
}

/* Joining a text with itself, beside rewriting it twice. */
static void join(const char *folder, const char *name, double s)
{
    struct line twice = bench(masked(REWRITE, circuit(MASK, folder, name)), s);
    for (int i = 0; i < 4; i++)
        twice.at[i] *= 2;
    struct call joined = masked(JOIN, circuit(MASK, folder, name));
    snprintf(joined.name, sizeof joined.name, "%.40s, joined", name);
    times(bench(joined, s), twice, "  times rewriting twice");
}

/* A masked circuit checked, and what that takes beyond reading it. */
static void many_inputs(const char *folder, const char *name, double s)
{
    struct call reading = masked(READ_LARGE, circuit(MASK, folder, name));
    snprintf(reading.name, sizeof reading.name, "%.40s, reading", name);
    struct line read = bench(reading, s);
    beyond(bench(masked(CHECK_WIDE, circuit(MASK, folder, name)), s), read);
}

static struct call first_public(struct call c)
{
    char name[sizeof c.name];
    snprintf(name, sizeof name, "%.40s, a bit public", c.name);
    memcpy(c.name, name, sizeof name);
    return c;
}

/* What a check costs as netlists grow: copies of the masked AES S-box, with the time less a call on an empty text,
 * which clears the tables, in nanoseconds a wire. */
static void many_inputs_growth(const char *folder, double s)
{
    static const unsigned many[] = {3, 6, 13, 25, 49, 250, 2200};
    printf("\n%-24s %8s %10s %10s   %6s   %8s %8s\n", "masked AES S-boxes", "wires", "library", "C", "best", "ns a wire", "C");
    for (size_t i = 0; i < sizeof many / sizeof *many; i++) {
        struct call c = copies(masked(CHECK_WIDE, circuit(MASK, folder, "aes_sbox")), many[i]), empty = c;
        double wire_count = strtod(strchr((const char *)c.text, ' '), NULL);
        empty.length = 0;
        measure(&empty, s / 4);
        double clear = best(&ours), clear_c = best(&theirs);
        compare(&c);
        measure(&c, s);
        printf("%-24u %8.0f %10.1f %10.1f   %6.2f   %8.1f %8.1f\n", many[i], wire_count, best(&ours), best(&theirs),
               best(&ours) / best(&theirs), (best(&ours) - clear) * 1000 / wire_count, (best(&theirs) - clear_c) * 1000 / wire_count);
        fflush(stdout);
        free(c.text);
    }
}

/* A pass of sixty-four runs: its settings a second, its time in single runs, and what it saves beside
 * sixty-four of them. */
static void pass(struct line own, struct line run)
{
    struct line rate, saved;
    for (int i = 0; i < 4; i++) {
        rate.at[i] = 64e3 / own.at[i];
        saved.at[i] = own.at[i] / 64;
    }
    print_line("  thousand settings a second", rate.at[0], rate.at[1], rate.at[2], rate.at[3]);
    printf("\n");
    times(own, run, "  times one run's time");
    times(run, saved, "  times as fast as 64 runs");
}

/* ---- whole ciphers */

/* A call on AES-128, or on what Mask makes of it. */
static struct call aes_128(enum service service, const char *folder, const char *name)
{
    struct call c = whole(circuit(service, folder, "aes_128"));
    if (service != READ_SMALL && service != MASK && service != MASK_UNWRITTEN && service != TWINS)
        c = masked(service, c);
    snprintf(c.name, sizeof c.name, "%s", name);
    return c;
}

static void whole_cipher(const char *folder, double s)
{
    title("AES-128, whole");
    struct line source = bench(aes_128(READ_SMALL, folder, "reading"), s);
    beyond(bench(aes_128(MASK, folder, "Mask"), s), source);
    struct line counted = bench(aes_128(MASK_UNWRITTEN, folder, "Mask unwritten"), s);
    times(bench(aes_128(TWINS, folder, "Twins"), s), counted, "  times Mask unwritten");
    struct line reading = bench(aes_128(READ_LARGE, folder, "masked, reading"), s);
    beyond(bench(aes_128(REWRITE, folder, "masked, Rewrite"), s), reading);
    struct line run = bench(aes_128(RUN, folder, "masked, Run"), s);
    beyond(run, reading);
    pass(bench(aes_128(RUN64, folder, "masked, sixty-four runs"), s), run);
}

/* The best times of the library and of C, in nanoseconds a gate, less those of a call on an empty text,
 * which clears the tables and does nothing else. */
static void a_gate(struct call c, double gates, double seconds)
{
    struct call empty = c;
    empty.length = 0;
    measure(&empty, seconds / 4);
    double clear = best(&ours), clear_c = best(&theirs);
    compare(&c);
    measure(&c, seconds);
    printf("   %6.1f %6.1f", (best(&ours) - clear) * 1000 / gates, (best(&theirs) - clear_c) * 1000 / gates);
    fflush(stdout);
    free(c.text);
}

/* What a gate costs as netlists grow: ANDs masked to so many gates, and the masked netlists. */
static void growth(double s)
{
    static const int sources[] = {125, 1250, 12500, 50000, 99998};
    printf("\n%-14s   %13s   %13s   %13s   %13s\n%-14s", "Nanoseconds", "Mask", "reading", "Rewrite", "Run",
           "masked gates");
    for (int i = 0; i < 4; i++)
        printf("   %6s %6s", "lib.", "C");
    printf("\n");
    for (size_t i = 0; i < sizeof sources / sizeof *sources; i++) {
        double gates = 8.0 * sources[i] + 4;
        printf("%-14.0f", gates);
        a_gate(and_ladder(sources[i]), gates, s);
        a_gate(masked(READ_LARGE, and_ladder(sources[i])), gates, s);
        a_gate(masked(REWRITE, and_ladder(sources[i])), gates, s);
        a_gate(masked(RUN, and_ladder(sources[i])), gates, s);
        printf("\n");
    }
}

int main(int argc, char **argv)
{
    if (argc < 3) {
        fprintf(stderr, "usage: bench FOLDER WHOLE-FOLDER [SECONDS]\n");
        return EXIT_FAILURE;
    }
    const char *folder = argv[1];
    double s = argc > 3 ? atof(argv[3]) : 1;
    memset(list, 1, sizeof list);
    memset(free_codes, 4, sizeof free_codes);
    for (size_t i = 0; i < TABLE; i++)
        word_list[i] = 0x9e3779b97f4a7c15U * (2 * i + 1);
    printf("Microseconds a call: best and median; ratios: library to C.\n");

    title("Reading");
    struct line mult64 = bench(circuit(READ_LARGE, folder, "mult64"), s);
    struct line adder64 = bench(circuit(READ_LARGE, folder, "adder64"), s);
    struct line ladder = bench(masked(READ_LARGE, circuit(MASK, folder, "and_ladder_2048")), s);
    struct line sub_bytes = bench(circuit(READ_SMALL, folder, "aes_sub_bytes"), s);
    struct line column = bench(circuit(READ_SMALL, folder, "aes_column"), s);
    struct line source = bench(circuit(READ_SMALL, folder, "and_ladder_2048"), s);
    times_lf(bench(with_crlf(circuit(READ_LARGE, folder, "mult64")), s), mult64);
    times_lf(bench(with_crlf(masked(READ_LARGE, circuit(MASK, folder, "and_ladder_2048"))), s), ladder);
    times_lf(bench(with_crlf(circuit(READ_SMALL, folder, "aes_sub_bytes")), s), sub_bytes);

    title("Rewriting");
    struct line written = bench(circuit(REWRITE, folder, "mult64"), s);
    beyond(written, mult64);
    beyond(bench(masked(REWRITE, circuit(MASK, folder, "and_ladder_2048")), s), ladder);

    title("To the older dialect, and from it");
    times(bench(circuit(TO_OLD, folder, "mult64"), s), written, "  times Rewrite's time");
    times(bench(from_old(circuit(TO_OLD, folder, "mult64")), s), written, "  times Rewrite's time");

    title("Rewriting, and joining with itself");
    join(folder, "aes_sub_bytes", s);
    join(folder, "ascon_sub_layer", s);
    join(folder, "aes_mix_column", s);

    title("Masking");
    beyond(bench(circuit(MASK, folder, "and_ladder_2048"), s), source);
    beyond(bench(circuit(MASK, folder, "aes_sub_bytes"), s), sub_bytes);
    beyond(bench(circuit(MASK, folder, "aes_column"), s), column);

    title("Masking with fewer changes");
    fewest(folder, "aes_sbox", "1 try", 1, s);
    fewest(folder, "aes_sbox", "1,000 tries", 1000, s);
    fewest(folder, "aes_sbox", "1,000,000 tries", 1000000, s);
    fewest(folder, "aes_sbox", "all choices", UINT64_MAX, s);
    fewest(folder, "present_sbox", "all choices", UINT64_MAX, s);
    fewest(folder, "gf256_mul", "1,000,000 tries", 1000000, s);
    fewest(folder, "mult6", "1,000,000 tries", 1000000, s);
    fewest(folder, "mult6", "2^64 - 1 tries", UINT64_MAX, s);
    fewest(folder, "sha256_round", "1,000,000 tries", 1000000, s);
    fewest(folder, "aes_sub_bytes", "1,000,000 tries", 1000000, s);

    title("Twins, beside Mask unwritten");
    twins_beside_mask(folder, "and_ladder_2048", s);
    twins_beside_mask(folder, "aes_sub_bytes", s);
    twins_beside_mask(folder, "aes_column", s);

    title("Running");
    struct line run_mult64 = bench(circuit(RUN, folder, "mult64"), s);
    beyond(run_mult64, mult64);
    struct line run_adder64 = bench(circuit(RUN, folder, "adder64"), s);
    beyond(run_adder64, adder64);
    struct line run_ladder = bench(masked(RUN, circuit(MASK, folder, "and_ladder_2048")), s);
    beyond(run_ladder, ladder);
    struct line run_sbox = bench(circuit(RUN, folder, "aes_sbox"), s);

    title("Sixty-four runs in one pass");
    pass(bench(circuit(RUN64, folder, "mult64"), s), run_mult64);
    pass(bench(circuit(RUN64, folder, "adder64"), s), run_adder64);
    pass(bench(masked(RUN64, circuit(MASK, folder, "and_ladder_2048")), s), run_ladder);
    pass(bench(circuit(RUN64, folder, "aes_sbox"), s), run_sbox);

    title("Checking");
    bench(masked(CHECK, circuit(MASK, folder, "present_sbox")), s);
    struct line sbox = bench(masked(CHECK, circuit(MASK, folder, "aes_sbox")), s);
    struct line mult6 = bench(masked(CHECK, circuit(MASK, folder, "mult6")), s);
    struct line secret = bench(masked(CHECK, twelve_bits()), s);

    title("Checking, the first bit public");
    list[0] = 0;
    times(bench(masked(CHECK, twelve_bits()), s), secret, "  times that with secrets alone");
    list[0] = 1;

    title("Checking with pairs");
    times(bench(with_pairs(masked(CHECK, circuit(MASK, folder, "aes_sbox")), 0), s), sbox, "  times the check of its wires");
    times(bench(with_pairs(masked(CHECK, circuit(MASK, folder, "aes_sbox")), 1000), s), sbox, "  times the check of its wires");
    times(bench(with_pairs(masked(CHECK, circuit(MASK, folder, "mult6")), 1000), s), mult6, "  times the check of its wires");

    title("Checking netlists with many inputs");
    many_inputs(folder, "present_round", s);
    many_inputs(folder, "simon64_round", s);
    many_inputs(folder, "ascon_sub_layer", s);
    many_inputs(folder, "aes_sub_bytes", s);
    bench(with_registers(masked(CHECK_WIDE, circuit(MASK, folder, "aes_sub_bytes"))), s);
    list[0] = 0;
    bench(first_public(masked(CHECK_WIDE, circuit(MASK, folder, "aes_sub_bytes"))), s);
    list[0] = 1;
    memset(list, 0, 40);
    bench(overlapping(10), s);
    bench(overlapping(100), s);
    memset(list, 1, 40);

    call_clock = CLOCK_PROCESS_CPUTIME_ID;
    whole_cipher(argv[2], s);
    growth(s);
    many_inputs_growth(folder, s);
    return EXIT_SUCCESS;
}
