/* What a call does is stated in include/fidrovelj.h. Questions are put in order; a text is read into
 * the lent tables, a result is measured before it is written where the buffer might be too short, and
 * every table is cleared last. Numbers are written by pairs of digits; compiled
 * with -DDIGITS_BY_WORDS, by words of up to six digits and a space. */
#include "baseline.h"

#include <stdbool.h>
#include <string.h>

/* ---- netlists */

/* The kinds of gates. */
enum { XOR, AND, INV, EQW, EQ0, EQ1 };

struct limits {
    size_t table, text;
    uint32_t wires, inputs, outputs;
};

/* The old limits, and those for whole ciphers. */
static const struct limits small_limits[2] = {{2048, 60000, 2048, 16, 16}, {100000, 3000000, 100000, 16, 16}};
static const struct limits large_limits[2] = {{18431, 500000, 18431, 17, 16}, {899999, 27000000, 899999, 17, 16}};

#define MOST_VALUES 17

/* One line of values: how many, their widths, and the sum of these. */
struct values {
    uint32_t count;
    uint32_t width[MOST_VALUES];
    uint64_t bits;
};

struct header {
    uint32_t gates, wires;
    struct values in, out;
};

/* Gate i lies in two tables: its operands (left, and right times 2^32; a unary gate has its operand
 * twice, a constant 0), and its result with the kind times 2^32. */
static inline uint64_t pair(uint32_t low, uint32_t high) { return low | (uint64_t)high << 32; }
static inline uint32_t low(uint64_t pair) { return (uint32_t)pair; }
static inline uint32_t high(uint64_t pair) { return (uint32_t)(pair >> 32); }

/* ---- reading */

/* What is left of a text. */
struct cursor {
    const uint8_t *at, *end;
};

static inline bool is_digit(uint8_t b) { return (uint8_t)(b - '0') < 10; }

static inline bool byte_good(uint8_t b)
{
    return is_digit(b) | ((uint8_t)(b - 'A') < 26) | (b == ' ') | (b == '\n');
}

/* Question 3 of a whole text: few have a CR, so a look at pairs of bytes is rare. */
static bool bytes_good(const uint8_t *text, size_t length)
{
    bool bad = false;
    for (size_t i = 0; i < length; i++)
        bad |= !byte_good(text[i]);
    if (!bad)
        return true;
    bad = !byte_good(text[length - 1]);
    for (size_t i = 0; i + 1 < length; i++)
        bad |= !(byte_good(text[i]) | ((text[i] == '\r') & (text[i + 1] == '\n')));
    return !bad;
}

/* What stands between words: a space, or the CR of a line's end. */
static inline bool is_space(uint8_t b) { return b == ' ' || b == '\r'; }

static inline void skip_spaces(struct cursor *c)
{
    while (c->at != c->end && is_space(*c->at))
        c->at++;
}

/* To the first word of the next line that is not blank; false where there is none. A byte above the space is part of a word. */
static inline bool next_line(struct cursor *c)
{
    while (c->at != c->end && *c->at <= ' ' && (is_space(*c->at) || *c->at == '\n'))
        c->at++;
    return c->at != c->end;
}

/* Whether a word ends at the cursor; if so, to the next word of the line or the line's end. Mostly one space stands between words. */
static inline bool word_end(struct cursor *c)
{
    if (c->at == c->end)
        return true;
    if (*c->at != ' ') {
        if (*c->at > ' ' || (*c->at != '\r' && *c->at != '\n'))
            return false;
        skip_spaces(c);
        return true;
    }
    c->at++;
    if (c->at != c->end && *c->at <= ' ')
        skip_spaces(c);
    return true;
}

static inline bool line_end(const struct cursor *c) { return c->at == c->end || *c->at == '\n'; }

/* A number, and to the next word. */
static inline bool number(struct cursor *c, uint32_t *value)
{
    if (c->at == c->end || !is_digit(*c->at))
        return false;
    uint32_t v = *c->at++ - '0';
    if (v != 0) {
        for (int i = 1; i < 6 && c->at != c->end && is_digit(*c->at); i++)
            v = 10 * v + (*c->at++ - '0');
    }
    *value = v;
    return word_end(c);
}

/* A one-byte word, and to the next word. */
static inline bool letter(struct cursor *c, uint8_t b)
{
    if (c->at == c->end || *c->at != b)
        return false;
    c->at++;
    return word_end(c);
}

/* A line of values. Widths that do not fit into the table are read all the same. */
static bool read_values(struct cursor *c, struct values *v)
{
    if (!next_line(c) || !number(c, &v->count) || v->count == 0)
        return false;
    v->bits = 0;
    for (uint32_t i = 0; i < v->count; i++) {
        uint32_t width;
        if (!number(c, &width) || width == 0)
            return false;
        if (i < MOST_VALUES)
            v->width[i] = width;
        v->bits += width;
    }
    return line_end(c);
}

/* Question 4. */
static bool read_header(struct cursor *c, struct header *h)
{
    return next_line(c) && number(c, &h->gates) && number(c, &h->wires) && line_end(c)
        && read_values(c, &h->in) && read_values(c, &h->out);
}

/* Question 4 in the older dialect: the bits of party one, of party two, which may be 0, and of the output. */
static bool read_old_header(struct cursor *c, struct header *h)
{
    uint32_t one, two, output;
    if (!next_line(c) || !number(c, &h->gates) || !number(c, &h->wires) || !line_end(c))
        return false;
    if (!next_line(c) || !number(c, &one) || !number(c, &two) || !number(c, &output) || !line_end(c))
        return false;
    h->in = (struct values){two == 0 ? 1 : 2, {one, two}, (uint64_t)one + two};
    h->out = (struct values){1, {output}, output};
    return one != 0 && output != 0;
}

/* The kind of a gate by its name, and to the line's end; -1 where there is no such gate. */
static inline int gate_name(struct cursor *c, bool two)
{
    size_t left = (size_t)(c->end - c->at);
    const uint8_t *p = c->at;
    int kind = -1;
    if (left >= 3) {
        if (two)
            kind = memcmp(p, "XOR", 3) == 0 ? XOR : memcmp(p, "AND", 3) == 0 ? AND : -1;
        else
            kind = memcmp(p, "INV", 3) == 0 ? INV : memcmp(p, "EQW", 3) == 0 ? EQW : -1;
    }
    if (kind >= 0) {
        c->at += 3;
    } else if (!two && left >= 2 && memcmp(p, "EQ", 2) == 0) {
        c->at += 2;
        kind = EQ0;
    }
    return kind >= 0 && (line_end(c) || (word_end(c) && line_end(c))) ? kind : -1;
}

/* One gate line: questions 7 to 9. Returns 0, or the number of the first no. */
static inline int read_gate(struct cursor *c, uint32_t wires, uint8_t *given, uint64_t *operands, uint64_t *result,
                            bool old)
{
    uint32_t a, b, r;
    bool two = *c->at == '2';
    if (c->end - c->at > 4 && c->at[1] == ' ' && c->at[2] == '1' && c->at[3] == ' ' && c->at[4] > ' ' && (two || *c->at == '1'))
        c->at += 4;
    else if (!letter(c, two ? '2' : '1') || !letter(c, '1'))
        return 7;
    if (!number(c, &a))
        return 7;
    b = a;
    if (two && !number(c, &b))
        return 7;
    if (!number(c, &r))
        return 7;
    int kind = gate_name(c, two);
    if (kind < 0 || (old && kind > INV))
        return 7;
    if (kind == EQ0) {
        if (a > 1)
            return 8;
        kind = a == 0 ? EQ0 : EQ1;
        a = b = 0;
    } else if (a >= wires || b >= wires || !given[a] || !given[b]) {
        return 8;
    }
    if (r >= wires || given[r])
        return 9;
    given[r] = 1;
    *operands = pair(a, b);
    *result = pair(r, (uint32_t)kind);
    return 0;
}

/* How many lines that are not blank are left, the line of the cursor not counted. */
static size_t lines_left(struct cursor c)
{
    size_t lines = 0;
    for (;;) {
        const uint8_t *lf = memchr(c.at, '\n', (size_t)(c.end - c.at));
        if (lf == NULL)
            return lines;
        c.at = lf;
        if (!next_line(&c))
            return lines;
        lines++;
    }
}

/* All gate lines into the tables: questions 6 to 9. Returns 0, or the number of the first no. */
static int read_gates(struct cursor c, const struct header *h, uint64_t *operands, uint64_t *results, uint8_t *given,
                      bool old)
{
    uint32_t bits = (uint32_t)h->in.bits, gates = h->gates, wires = h->wires;
    if (gates != wires - bits)
        return 6;
    memset(given, 1, bits);
    memset(given + bits, 0, wires - bits);
    for (uint32_t i = 0; i < gates; i++) {
        if (!next_line(&c))
            return 6;
        int no = read_gate(&c, wires, given, &operands[i], &results[i], old);
        if (no != 0)
            return lines_left(c) == gates - i - 1 ? no : 6;
    }
    return next_line(&c) ? 6 : 0;
}

/* A text, in the older dialect or in Fashion, into tables that are long enough: questions 2 to 9. */
static int read_text(const struct limits *l, const uint8_t *text, size_t length, struct header *h,
                     uint64_t *operands, uint64_t *results, uint8_t *given, bool old)
{
    if (length > l->text)
        return 2;
    if (!bytes_good(text, length))
        return 3;
    struct cursor c = {text, text + length};
    if (!(old ? read_old_header(&c, h) : read_header(&c, h)))
        return 4;
    if (h->wires > l->wires || h->in.count > l->inputs || h->out.count > l->outputs
        || h->in.bits > h->wires || h->out.bits > h->wires)
        return 5;
    return read_gates(c, h, operands, results, given, old);
}

static int read_netlist(const struct limits *l, const uint8_t *text, size_t length, struct header *h,
                        uint64_t *operands, uint64_t *results, uint8_t *given)
{
    return read_text(l, text, length, h, operands, results, given, false);
}

/* Questions 11 and 13: a list has one entry for each bit, each from low to high. */
static bool list_good(const uint8_t *list, size_t length, size_t bits, uint8_t most)
{
    if (length != bits)
        return false;
    bool bad = false;
    for (size_t i = 0; i < length; i++)
        bad |= list[i] > most;
    return !bad;
}

/* ---- writing */

/* What counts, measures or writes by turns is made anew for each purpose. */
#define ALWAYS static inline __attribute__((always_inline))

ALWAYS unsigned digits(uint32_t n)
{
    return 1 + (n >= 10) + (n >= 100) + (n >= 1000) + (n >= 10000) + (n >= 100000);
}

/* The numbers 00 to 99. */
static const char pairs[] =
    "00010203040506070809101112131415161718192021222324"
    "25262728293031323334353637383940414243444546474849"
    "50515253545556575859606162636465666768697071727374"
    "75767778798081828384858687888990919293949596979899";

ALWAYS uint8_t *put_pair(uint8_t *p, uint32_t n)
{
    memcpy(p, pairs + 2 * n, 2);
    return p + 2;
}

/* A number of at most six digits. */
ALWAYS uint8_t *put_number(uint8_t *p, uint32_t n)
{
    if (n >= 1000) {
        if (n >= 100000)
            p = put_pair(p, n / 10000);
        else if (n >= 10000)
            *p++ = (uint8_t)('0' + n / 10000);
        return put_pair(put_pair(p, n / 100 % 100), n % 100);
    }
    if (n >= 100) {
        *p++ = (uint8_t)('0' + n / 100);
        return put_pair(p, n % 100);
    }
    if (n >= 10)
        return put_pair(p, n);
    *p = (uint8_t)('0' + n);
    return p + 1;
}

/* A number and a space behind it. */
ALWAYS uint8_t *put_spaced(uint8_t *p, uint32_t n)
{
    p = put_number(p, n);
    *p = ' ';
    return p + 1;
}

#ifndef DIGITS_BY_WORDS

#define put_operand put_spaced
#define put_result put_spaced

#else

/* The bytes of a number and a space, the first the lowest, and in the top byte how many these are;
 * and what three digits more add to such a word at the place of its space. */
static uint64_t words_of[1000], added_of[1000];

__attribute__((constructor)) static void fill_words(void)
{
    for (uint32_t n = 0; n < 1000; n++) {
        uint8_t bytes[8] = {0}, *end = put_spaced(bytes, n);
        bytes[7] = (uint8_t)(end - bytes);
        memcpy(&words_of[n], bytes, 8);
        added_of[n] = ('0' + n / 100 - ' ') | (uint64_t)('0' + n / 10 % 10) << 8 | (uint64_t)('0' + n % 10) << 16
            | (uint64_t)' ' << 24;
    }
}

/* A number and a space behind it, and what is left of eight bytes. */
ALWAYS uint8_t *put_operand(uint8_t *p, uint32_t n)
{
    uint64_t word = words_of[n < 1000 ? n : n / 1000];
    if (n >= 1000)
        word += (added_of[n % 1000] << 8 * ((word >> 56) - 1)) + ((uint64_t)3 << 56);
    memcpy(p, &word, 8);
    return p + (word >> 56);
}

/* The same behind which four bytes follow: below 100 they do not cover what is left of eight. */
ALWAYS uint8_t *put_result(uint8_t *p, uint32_t n) { return n < 100 ? put_spaced(p, n) : put_operand(p, n); }

#endif

ALWAYS uint8_t *put_bytes(uint8_t *p, const char *bytes, size_t count)
{
    memcpy(p, bytes, count);
    return p + count;
}

/* A text whose gates are only counted, or measured, or written, where `at` is where the next byte goes; or gates that are listed as
 * records, the next of them at `record`. */
enum purpose { COUNTING, MEASURING, WRITING, LISTING };

struct sink {
    enum purpose purpose;
    uint8_t *at;
    size_t size;
    fidrovelj_gate *record;
};

/* A line of two operands and a result; the name has LF behind. */
ALWAYS void put_two(struct sink *s, uint32_t a, uint32_t b, uint32_t c, const char *name)
{
    if (s->purpose == MEASURING)
        s->size += 11 + digits(a) + digits(b) + digits(c);
    if (s->purpose == LISTING)
        *s->record++ = (fidrovelj_gate){name[0] == 'X' ? FIDROVELJ_XOR : FIDROVELJ_AND, a, b, c};
    if (s->purpose != WRITING)
        return;
    uint8_t *p = put_bytes(s->at, "2 1 ", 4);
    p = put_operand(p, a);
    p = put_operand(p, b);
    p = put_result(p, c);
    s->at = put_bytes(p, name, 4);
}

/* A line of one operand and a result; the name has LF behind. */
ALWAYS void put_one(struct sink *s, uint32_t a, uint32_t c, const char *name)
{
    if (s->purpose == MEASURING)
        s->size += 10 + digits(a) + digits(c);
    if (s->purpose == LISTING)
        *s->record++ = (fidrovelj_gate){name[0] == 'I' ? FIDROVELJ_INV : FIDROVELJ_EQW, a, 0, c};
    if (s->purpose != WRITING)
        return;
    uint8_t *p = put_bytes(s->at, "1 1 ", 4);
    p = put_operand(p, a);
    p = put_result(p, c);
    s->at = put_bytes(p, name, 4);
}

/* The line of a constant. */
ALWAYS void put_constant(struct sink *s, uint32_t value, uint32_t c)
{
    if (s->purpose == MEASURING)
        s->size += 10 + digits(c);
    if (s->purpose != WRITING)
        return;
    uint8_t *p = put_bytes(s->at, value == 0 ? "1 1 0 " : "1 1 1 ", 6);
    s->at = put_bytes(put_spaced(p, c), "EQ\n", 3);
}

ALWAYS void put_gate(struct sink *s, uint64_t operands, uint64_t result)
{
    uint32_t a = low(operands), b = high(operands), c = low(result);
    switch (high(result)) {
    case XOR: put_two(s, a, b, c, "XOR\n"); break;
    case AND: put_two(s, a, b, c, "AND\n"); break;
    case INV: put_one(s, a, c, "INV\n"); break;
    case EQW: put_one(s, a, c, "EQW\n"); break;
    case EQ0: put_constant(s, 0, c); break;
    default: put_constant(s, 1, c); break;
    }
}

static void put_values(struct sink *s, const struct values *v)
{
    if (s->purpose == MEASURING) {
        s->size += digits(v->count) + 1;
        for (uint32_t i = 0; i < v->count; i++)
            s->size += 1 + digits(v->width[i]);
        return;
    }
    s->at = put_number(s->at, v->count);
    for (uint32_t i = 0; i < v->count; i++) {
        *s->at++ = ' ';
        s->at = put_number(s->at, v->width[i]);
    }
    *s->at++ = '\n';
}

/* The header and its blank line. */
static void put_header(struct sink *s, const struct header *h)
{
    if (s->purpose == WRITING) {
        s->at = put_number(s->at, h->gates);
        *s->at++ = ' ';
        s->at = put_number(s->at, h->wires);
        *s->at++ = '\n';
    } else {
        s->size += digits(h->gates) + digits(h->wires) + 2;
    }
    put_values(s, &h->in);
    put_values(s, &h->out);
    if (s->purpose == WRITING)
        *s->at++ = '\n';
    else
        s->size++;
}

/* A line of numbers. */
static void put_numbers(struct sink *s, const uint32_t *numbers, int count)
{
    for (int i = 0; i < count; i++) {
        if (s->purpose == MEASURING) {
            s->size += digits(numbers[i]) + 1;
            continue;
        }
        s->at = put_number(s->at, numbers[i]);
        *s->at++ = i + 1 < count ? ' ' : '\n';
    }
}

/* The older dialect's header and its blank line. */
static void put_old_header(struct sink *s, const struct header *h)
{
    put_numbers(s, (uint32_t[]){h->gates, h->wires}, 2);
    put_numbers(s, (uint32_t[]){h->in.width[0], h->in.count == 2 ? h->in.width[1] : 0, h->out.width[0]}, 3);
    if (s->purpose == WRITING)
        *s->at++ = '\n';
    else
        s->size++;
}

static void put_either_header(struct sink *s, const struct header *h, bool old)
{
    if (old)
        put_old_header(s, h);
    else
        put_header(s, h);
}

/* The header's length and that of as many of the longest lines as there are gates. */
static size_t most_bytes(const struct header *h, bool old)
{
    struct sink header = {MEASURING, NULL, 0, NULL};
    put_either_header(&header, h, old);
    return header.size + (size_t)h->gates * (11 + 3 * digits(h->wires));
}

ALWAYS void put_gates(struct sink *s, uint32_t gates, const uint64_t *operands, const uint64_t *results)
{
    for (uint32_t i = 0; i < gates; i++)
        put_gate(s, operands[i], results[i]);
}

/* ---- Rewrite */

static int64_t write_form(const struct header *h, const uint64_t *operands, const uint64_t *results,
                          uint8_t *out, size_t out_len, bool old)
{
    if (out_len < most_bytes(h, old)) {
        struct sink measure = {MEASURING, NULL, 0, NULL};
        put_either_header(&measure, h, old);
        put_gates(&measure, h->gates, operands, results);
        if (measure.size > out_len)
            return -14;
    }
    struct sink text = {WRITING, out, 0, NULL};
    put_either_header(&text, h, old);
    put_gates(&text, h->gates, operands, results);
    return text.at - out;
}

static int64_t rewrite(const struct header *h, const uint64_t *operands, const uint64_t *results,
                       uint8_t *out, size_t out_len)
{
    return write_form(h, operands, results, out, out_len, false);
}

int64_t baseline_rewrite(const uint8_t *text, size_t text_len,
                         uint8_t *out, size_t out_len,
                         uint64_t *operands, size_t operands_len,
                         uint64_t *results, size_t results_len,
                         uint8_t *given, size_t given_len,
                         uint8_t sizes)
{
    const struct limits *l = &large_limits[sizes != 0];
    struct header h;
    int64_t answer;
    if (operands_len < l->table || results_len < l->table || given_len < l->table)
        answer = -1;
    else
        answer = -read_netlist(l, text, text_len, &h, operands, results, given);
    if (answer == 0)
        answer = rewrite(&h, operands, results, out, out_len);
    memset(operands, 0, operands_len * sizeof *operands);
    memset(results, 0, results_len * sizeof *results);
    memset(given, 0, given_len);
    return answer;
}

/* ---- the older dialect */

/* Question 15. */
static bool has_old_form(const struct header *h, const uint64_t *results)
{
    bool other = h->in.count > 2 || h->out.count > 1;
    for (uint32_t i = 0; i < h->gates; i++)
        other |= high(results[i]) > INV;
    return !other;
}

/* A text from one dialect to the other. */
static int64_t convert(const uint8_t *text, size_t text_len, uint8_t *out, size_t out_len,
                       uint64_t *operands, size_t operands_len, uint64_t *results, size_t results_len,
                       uint8_t *given, size_t given_len, uint8_t sizes, bool to_old)
{
    const struct limits *l = &large_limits[sizes != 0];
    struct header h;
    int64_t answer;
    if (operands_len < l->table || results_len < l->table || given_len < l->table)
        answer = -1;
    else
        answer = -read_text(l, text, text_len, &h, operands, results, given, !to_old);
    if (answer == 0 && to_old && !has_old_form(&h, results))
        answer = -15;
    if (answer == 0)
        answer = write_form(&h, operands, results, out, out_len, to_old);
    memset(operands, 0, operands_len * sizeof *operands);
    memset(results, 0, results_len * sizeof *results);
    memset(given, 0, given_len);
    return answer;
}

int64_t baseline_from_old(const uint8_t *text, size_t text_len,
                          uint8_t *out, size_t out_len,
                          uint64_t *operands, size_t operands_len,
                          uint64_t *results, size_t results_len,
                          uint8_t *given, size_t given_len,
                          uint8_t sizes)
{
    return convert(text, text_len, out, out_len, operands, operands_len, results, results_len, given, given_len, sizes, false);
}

int64_t baseline_to_old(const uint8_t *text, size_t text_len,
                        uint8_t *out, size_t out_len,
                        uint64_t *operands, size_t operands_len,
                        uint64_t *results, size_t results_len,
                        uint8_t *given, size_t given_len,
                        uint8_t sizes)
{
    return convert(text, text_len, out, out_len, operands, operands_len, results, results_len, given, given_len, sizes, true);
}

/* ---- evaluating, 64 settings at once */

#define ONES UINT64_MAX

/* A gate of operands a and b makes ((a ^ b) & x) ^ (a & b & z) ^ c. */
static const struct {
    uint64_t x, z, c, unused;
} makes[6] = {
    [XOR] = {ONES, 0, 0, 0}, [AND] = {0, ONES, 0, 0}, [INV] = {0, ONES, ONES, 0},
    [EQW] = {0, ONES, 0, 0}, [EQ0] = {0, 0, 0, 0},    [EQ1] = {0, 0, ONES, 0},
};

static void evaluate(uint64_t *restrict words, uint32_t gates, const uint64_t *restrict operands,
                     const uint64_t *restrict results)
{
    for (uint32_t i = 0; i < gates; i++) {
        uint64_t a = words[low(operands[i])], b = words[high(operands[i])];
        uint32_t kind = high(results[i]);
        words[low(results[i])] = ((a ^ b) & makes[kind].x) ^ (a & b & makes[kind].z) ^ makes[kind].c;
    }
}

/* ---- Run */

static int64_t run(const struct header *h, const uint64_t *operands, const uint64_t *results, uint64_t *words,
                   const uint8_t *list, size_t list_len, uint8_t *out, size_t out_len)
{
    if (!list_good(list, list_len, h->in.bits, 1))
        return -11;
    if (h->out.bits > out_len)
        return -14;
    for (size_t i = 0; i < list_len; i++)
        words[i] = list[i];
    evaluate(words, h->gates, operands, results);
    const uint64_t *outputs = words + (h->wires - h->out.bits);
    for (size_t i = 0; i < h->out.bits; i++)
        out[i] = outputs[i] & 1;
    return (int64_t)h->out.bits;
}

static int64_t run64(const struct header *h, const uint64_t *operands, const uint64_t *results, uint64_t *words,
                     const uint64_t *list, size_t list_len, uint64_t *out, size_t out_len)
{
    if (list_len != h->in.bits)
        return -11;
    if (h->out.bits > out_len)
        return -14;
    memcpy(words, list, list_len * sizeof *list);
    evaluate(words, h->gates, operands, results);
    memcpy(out, words + (h->wires - h->out.bits), h->out.bits * sizeof *out);
    return (int64_t)h->out.bits;
}

int64_t baseline_run(const uint8_t *text, size_t text_len,
                     const uint8_t *list, size_t list_len,
                     uint8_t *out, size_t out_len,
                     uint64_t *operands, size_t operands_len,
                     uint64_t *results, size_t results_len,
                     uint8_t *given, size_t given_len,
                     uint64_t *words, size_t words_len,
                     uint8_t sizes)
{
    const struct limits *l = &large_limits[sizes != 0];
    struct header h;
    int64_t answer;
    if (operands_len < l->table || results_len < l->table || given_len < l->table || words_len < l->table)
        answer = -1;
    else
        answer = -read_netlist(l, text, text_len, &h, operands, results, given);
    if (answer == 0)
        answer = run(&h, operands, results, words, list, list_len, out, out_len);
    memset(operands, 0, operands_len * sizeof *operands);
    memset(results, 0, results_len * sizeof *results);
    memset(given, 0, given_len);
    memset(words, 0, words_len * sizeof *words);
    return answer;
}

int64_t baseline_run64(const uint8_t *text, size_t text_len,
                       const uint64_t *list, size_t list_len,
                       uint64_t *out, size_t out_len,
                       uint64_t *operands, size_t operands_len,
                       uint64_t *results, size_t results_len,
                       uint8_t *given, size_t given_len,
                       uint64_t *words, size_t words_len,
                       uint8_t sizes)
{
    const struct limits *l = &large_limits[sizes != 0];
    struct header h;
    int64_t answer;
    if (operands_len < l->table || results_len < l->table || given_len < l->table || words_len < l->table)
        answer = -1;
    else
        answer = -read_netlist(l, text, text_len, &h, operands, results, given);
    if (answer == 0)
        answer = run64(&h, operands, results, words, list, list_len, out, out_len);
    memset(operands, 0, operands_len * sizeof *operands);
    memset(results, 0, results_len * sizeof *results);
    memset(given, 0, given_len);
    memset(words, 0, words_len * sizeof *words);
    return answer;
}

/* ---- Mask */

/* The code that neither of two different codes is; the code after a code. */
static inline uint8_t third_code(uint8_t e, uint8_t f) { return e ^ f; }
static inline uint8_t code_after(uint8_t e) { return (uint8_t)(e % 3 + 1); }

/* A masked netlist in the making: the source's input bits, the next wire, and the text. */
struct masking {
    uint32_t bits, next;
    struct sink text;
};

ALWAYS uint32_t put_xor(struct masking *m, uint32_t a, uint32_t b)
{
    put_two(&m->text, a, b, m->next, "XOR\n");
    return m->next++;
}

ALWAYS uint32_t put_and(struct masking *m, uint32_t a, uint32_t b)
{
    put_two(&m->text, a, b, m->next, "AND\n");
    return m->next++;
}

ALWAYS uint32_t put_inv(struct masking *m, uint32_t a)
{
    put_one(&m->text, a, m->next, "INV\n");
    return m->next++;
}

ALWAYS uint32_t put_eqw(struct masking *m, uint32_t a)
{
    put_one(&m->text, a, m->next, "EQW\n");
    return m->next++;
}

/* The wire of a code's mask; m0's for what is no code. */
ALWAYS uint32_t mask_wire(const struct masking *m, uint8_t code) { return code == 0 ? m->bits : m->bits + code - 1; }

/* The seven steps of an AND of operands a and b with mask wires p and q. */
ALWAYS uint32_t put_masked_and(struct masking *m, uint32_t a, uint32_t b, uint32_t p, uint32_t q)
{
    uint32_t s1 = put_and(m, a, b);
    uint32_t s2 = put_and(m, a, q);
    uint32_t s3 = put_xor(m, s2, q);
    uint32_t s4 = put_xor(m, s1, s3);
    uint32_t s5 = put_and(m, p, b);
    uint32_t s6 = put_xor(m, s5, m->bits + 4);
    return put_xor(m, s4, s6);
}

/* Where a source wire stands in the masked netlist, and the code of the mask on it. */
struct twin {
    uint32_t wire;
    uint8_t code;
};

/* A source gate of a kind whose operands have these twins: the twin of its result. */
ALWAYS struct twin mask_twin(struct masking *m, uint32_t kind, struct twin a, struct twin b)
{
    if ((kind == XOR || kind == AND) && b.code == a.code) {
        b.wire = put_xor(m, b.wire, mask_wire(m, code_after(a.code)));
        b.code = third_code(a.code, code_after(a.code));
    }
    switch (kind) {
    case XOR: return (struct twin){put_xor(m, a.wire, b.wire), third_code(a.code, b.code)};
    case AND: return (struct twin){put_masked_and(m, a.wire, b.wire, mask_wire(m, a.code), mask_wire(m, b.code)), a.code};
    case INV: return (struct twin){put_inv(m, a.wire), a.code};
    case EQW: return (struct twin){put_eqw(m, a.wire), a.code};
    case EQ0: return (struct twin){put_eqw(m, m->bits), 1};
    default: return (struct twin){put_inv(m, m->bits), 1};
    }
}

/* A source gate; the twin and the code of its result go into the tables. */
ALWAYS void mask_gate(struct masking *m, uint64_t operands, uint64_t result, uint32_t *wires, uint8_t *codes)
{
    struct twin a = {wires[low(operands)], codes[low(operands)]}, b = {wires[high(operands)], codes[high(operands)]};
    struct twin twin = mask_twin(m, high(result), a, b);
    wires[low(result)] = twin.wire;
    codes[low(result)] = twin.code;
}

/* The three gates of the masks. */
ALWAYS void mask_masks(struct masking *m)
{
    uint32_t n = m->bits;
    m->next = n + 2;
    put_xor(m, n, n + 1);
    put_and(m, n, n + 1);
    put_xor(m, n + 2, n + 3);
}

/* The gates of the masks, of the public bits and of the source's gates. */
ALWAYS void mask_source(struct masking *m, const struct header *h, const uint8_t *in_codes, const uint64_t *operands,
                        const uint64_t *results, uint32_t *wires, uint8_t *codes)
{
    uint32_t n = m->bits;
    mask_masks(m);
    for (uint32_t i = 0; i < n; i++) {
        bool public = in_codes[i] == 0;
        wires[i] = public ? put_xor(m, i, n) : i;
        codes[i] = public ? 1 : in_codes[i];
    }
    for (uint32_t i = 0; i < h->gates; i++)
        mask_gate(m, operands[i], results[i], wires, codes);
}

/* All gates of the masked netlist. */
ALWAYS void mask_gates(struct masking *m, const struct header *h, const uint8_t *in_codes,
                              const uint8_t *wanted, const uint64_t *operands, const uint64_t *results,
                              uint32_t *wires, uint8_t *codes)
{
    mask_source(m, h, in_codes, operands, results, wires, codes);
    uint32_t first = h->wires - (uint32_t)h->out.bits;
    for (uint32_t i = 0; i < h->out.bits; i++) {
        uint8_t code = codes[first + i];
        if (wanted[i] == 0 || wanted[i] == code)
            put_eqw(m, wires[first + i]);
        else
            put_xor(m, wires[first + i], mask_wire(m, third_code(code, wanted[i])));
    }
}

static int64_t mask(const struct header *h, const uint64_t *operands, const uint64_t *results, uint32_t *wires,
                    uint8_t *marks, const uint8_t *codes, size_t codes_len, const uint8_t *wanted,
                    size_t wanted_len, uint8_t *out, size_t out_len, uint8_t *out_codes, size_t out_codes_len)
{
    if (!list_good(codes, codes_len, h->in.bits, 3))
        return -11;
    if (!list_good(wanted, wanted_len, h->out.bits, 3))
        return -13;

    uint32_t n = (uint32_t)h->in.bits;
    struct masking count = {n, 0, {COUNTING, NULL, 0, NULL}};
    mask_gates(&count, h, codes, wanted, operands, results, wires, marks);
    struct header masked = *h;
    masked.wires = count.next;
    masked.gates = count.next - n - 2;
    masked.in.width[masked.in.count++] = 2;
    if (h->out.bits > out_codes_len)
        return -14;
    if (out_len < most_bytes(&masked, false)) {
        struct masking measure = {n, 0, {MEASURING, NULL, 0, NULL}};
        put_header(&measure.text, &masked);
        mask_gates(&measure, h, codes, wanted, operands, results, wires, marks);
        if (measure.text.size > out_len)
            return -14;
    }

    struct masking written = {n, 0, {WRITING, out, 0, NULL}};
    put_header(&written.text, &masked);
    mask_gates(&written, h, codes, wanted, operands, results, wires, marks);
    uint32_t first = h->wires - (uint32_t)h->out.bits;
    for (uint32_t i = 0; i < h->out.bits; i++)
        out_codes[i] = wanted[i] == 0 ? marks[first + i] : wanted[i];
    return written.text.at - out;
}

int64_t baseline_mask(const uint8_t *text, size_t text_len,
                      const uint8_t *codes, size_t codes_len,
                      const uint8_t *wanted, size_t wanted_len,
                      uint8_t *out, size_t out_len,
                      uint8_t *out_codes, size_t out_codes_len,
                      uint64_t *operands, size_t operands_len,
                      uint64_t *results, size_t results_len,
                      uint32_t *wires, size_t wires_len,
                      uint8_t *marks, size_t marks_len,
                      uint8_t sizes)
{
    const struct limits *l = &small_limits[sizes != 0];
    struct header h;
    int64_t answer;
    if (operands_len < l->table || results_len < l->table || wires_len < l->table || marks_len < l->table)
        answer = -1;
    else
        answer = -read_netlist(l, text, text_len, &h, operands, results, marks);
    if (answer == 0)
        answer = mask(&h, operands, results, wires, marks, codes, codes_len, wanted, wanted_len, out, out_len,
                      out_codes, out_codes_len);
    memset(operands, 0, operands_len * sizeof *operands);
    memset(results, 0, results_len * sizeof *results);
    memset(wires, 0, wires_len * sizeof *wires);
    memset(marks, 0, marks_len);
    return answer;
}

/* ---- Twins */

int64_t baseline_twins(const uint8_t *text, size_t text_len,
                       const uint8_t *codes, size_t codes_len,
                       uint32_t *out_wires, size_t out_wires_len,
                       uint8_t *out_codes, size_t out_codes_len,
                       uint64_t *operands, size_t operands_len,
                       uint64_t *results, size_t results_len,
                       uint8_t *given, size_t given_len,
                       uint8_t sizes)
{
    const struct limits *l = &small_limits[sizes != 0];
    struct header h;
    int64_t answer;
    if (operands_len < l->table || results_len < l->table || given_len < l->table)
        answer = -1;
    else
        answer = -read_netlist(l, text, text_len, &h, operands, results, given);
    if (answer == 0 && !list_good(codes, codes_len, h.in.bits, 3))
        answer = -11;
    if (answer == 0 && (out_wires_len < h.wires || out_codes_len < h.wires))
        answer = -14;
    if (answer == 0) {
        struct masking count = {(uint32_t)h.in.bits, 0, {COUNTING, NULL, 0, NULL}};
        mask_source(&count, &h, codes, operands, results, out_wires, out_codes);
        answer = h.wires;
    }
    memset(operands, 0, operands_len * sizeof *operands);
    memset(results, 0, results_len * sizeof *results);
    memset(given, 0, given_len);
    return answer;
}

/* ---- Mask with fewer changes */

/* A search through the choices of codes for free inputs and of operand orders for ANDs. Its places are the input
 * bits and then the gates: a place has three ways (a free input), two (an AND) or one. */
struct choosing {
    const struct header *h;
    const uint8_t *codes, *wanted;
    uint64_t *operands, *results;
    uint32_t *sums;             /* changes before each gate, without those of gates that name one wire twice */
    uint8_t *code, *way, *best; /* each wire's code, the choice, and the first with the fewest changes */
    uint64_t *spans;            /* the choices of the places behind each place; ONES where there are more */
    uint32_t bits, places, twices, least;
    bool all;
};

static inline uint32_t kind_of(const struct choosing *c, uint32_t place) { return high(c->results[place - c->bits]); }

static inline uint8_t ways_of(const struct choosing *c, uint32_t place)
{
    if (place < c->bits)
        return c->codes[place] == 4 ? 3 : 1;
    return kind_of(c, place) == AND ? 2 : 1;
}

static void begin_choosing(struct choosing *c)
{
    uint64_t span = 1;
    memset(c->way, 0, c->places);
    c->twices = 0;
    for (uint32_t place = c->places; place-- > 0;) {
        uint8_t ways = ways_of(c, place);
        c->spans[place] = span;
        span = span > ONES / ways ? ONES : span * ways;
        if (place >= c->bits && kind_of(c, place) <= AND) {
            uint64_t both = c->operands[place - c->bits];
            c->twices += low(both) == high(both);
        }
    }
    c->least = UINT32_MAX;
    c->all = false;
}

/* The changes of the outputs. */
static uint32_t output_changes(const struct choosing *c)
{
    const uint8_t *outputs = c->code + (c->h->wires - c->h->out.bits);
    uint32_t changes = 0;
    for (uint32_t i = 0; i < c->h->out.bits; i++)
        changes += c->wanted[i] != 0 && c->wanted[i] != outputs[i];
    return changes;
}

/* Codes and changes from a place on, to the first gate at which there are no fewer changes than the fewest so far,
 * or to the end, where fewer are kept. Returns the last place walked. */
static uint32_t try_from(struct choosing *c, uint32_t place)
{
    for (; place < c->bits; place++)
        c->code[place] = c->codes[place] == 4 ? c->way[place] + 1 : c->codes[place] == 0 ? 1 : c->codes[place];
    uint32_t gate = place - c->bits, changes = gate == 0 ? 0 : c->sums[gate];
    uint32_t bound = c->least - c->twices;
    for (; gate < c->h->gates; gate++) {
        uint64_t both = c->operands[gate], result = c->results[gate];
        uint8_t a = c->code[low(both)], b = c->code[high(both)], made;
        c->sums[gate] = changes;
        switch (high(result)) {
        case XOR:
            changes += a == b && low(both) != high(both);
            made = a == b ? code_after(a) : a ^ b;
            break;
        case AND:
            changes += a == b && low(both) != high(both);
            made = c->way[c->bits + gate] == 0 ? a : b;
            break;
        case INV:
        case EQW: made = a; break;
        default: made = 1; break;
        }
        c->code[low(result)] = made;
        if (changes >= bound)
            return c->bits + gate;
    }
    changes += c->twices + output_changes(c);
    if (changes < c->least) {
        c->least = changes;
        memcpy(c->best, c->way, c->places);
    }
    return c->places - 1;
}

/* As many choices in order as the budget allows. Those that share their places so far with one that is not fewer,
 * and those with the other order of an AND whose operands have equal codes, are counted and not walked; no
 * choice has fewer changes than there are gates that name one wire twice. */
static void choose(struct choosing *c, uint64_t budget)
{
    uint64_t left = budget;
    uint32_t place = 0;
    begin_choosing(c);
    for (;;) {
        place = try_from(c, place);
        if (c->least == c->twices)
            return;
        for (;;) {
            uint64_t span = c->spans[place];
            if (span == ONES || span > left)
                return;
            left -= span;
            while (c->way[place] + 1 == ways_of(c, place)) {
                c->way[place] = 0;
                if (place == 0) {
                    c->all = true;
                    return;
                }
                place--;
            }
            if (left == 0)
                return;
            c->way[place]++;
            if (place < c->bits)
                break;
            uint64_t both = c->operands[place - c->bits];
            if (c->code[low(both)] != c->code[high(both)])
                break;
        }
    }
}

static int64_t mask_fewest(struct choosing *c, uint32_t *wires, size_t codes_len, size_t wanted_len, uint64_t budget,
                           uint8_t *out, size_t out_len, uint8_t *in_codes, size_t in_codes_len, uint8_t *out_codes,
                           size_t out_codes_len, uint64_t *tally, size_t tally_len)
{
    const struct header *h = c->h;
    if (!list_good(c->codes, codes_len, h->in.bits, 4))
        return -11;
    if (!list_good(c->wanted, wanted_len, h->out.bits, 3))
        return -13;
    if (budget == 0)
        return -22;
    c->bits = (uint32_t)h->in.bits;
    c->places = h->wires;
    c->sums = wires;
    choose(c, budget);
    if (in_codes_len < c->bits || tally_len < 2)
        return -14;

    for (uint32_t i = 0; i < c->bits; i++)
        c->way[i] = c->codes[i] == 4 ? c->best[i] + 1 : c->codes[i];
    for (uint32_t i = 0; i < h->gates; i++) {
        if (c->best[c->bits + i] == 1)
            c->operands[i] = pair(high(c->operands[i]), low(c->operands[i]));
    }
    int64_t answer = mask(h, c->operands, c->results, wires, c->code, c->way, c->bits, c->wanted, wanted_len, out,
                          out_len, out_codes, out_codes_len);
    if (answer >= 0) {
        memcpy(in_codes, c->way, c->bits);
        tally[0] = c->least;
        tally[1] = c->all ? c->least : c->twices;
    }
    return answer;
}

int64_t baseline_mask_fewest(const uint8_t *text, size_t text_len,
                             const uint8_t *codes, size_t codes_len,
                             const uint8_t *wanted, size_t wanted_len,
                             uint64_t budget,
                             uint8_t *out, size_t out_len,
                             uint8_t *in_codes, size_t in_codes_len,
                             uint8_t *out_codes, size_t out_codes_len,
                             uint64_t *tally, size_t tally_len,
                             uint64_t *operands, size_t operands_len,
                             uint64_t *results, size_t results_len,
                             uint32_t *wires, size_t wires_len,
                             uint8_t *marks, size_t marks_len,
                             uint8_t *ways, size_t ways_len,
                             uint8_t *best, size_t best_len,
                             uint64_t *spans, size_t spans_len,
                             uint8_t sizes)
{
    const struct limits *l = &small_limits[sizes != 0];
    struct header h;
    int64_t answer;
    if (operands_len < l->table || results_len < l->table || wires_len < l->table || marks_len < l->table
        || ways_len < l->table || best_len < l->table || spans_len < l->table)
        answer = -1;
    else
        answer = -read_netlist(l, text, text_len, &h, operands, results, marks);
    if (answer == 0) {
        struct choosing c = {.h = &h, .codes = codes, .wanted = wanted, .operands = operands, .results = results,
                             .code = marks, .way = ways, .best = best, .spans = spans};
        answer = mask_fewest(&c, wires, codes_len, wanted_len, budget, out, out_len, in_codes, in_codes_len, out_codes,
                             out_codes_len, tally, tally_len);
    }
    memset(operands, 0, operands_len * sizeof *operands);
    memset(results, 0, results_len * sizeof *results);
    memset(wires, 0, wires_len * sizeof *wires);
    memset(marks, 0, marks_len);
    memset(ways, 0, ways_len);
    memset(best, 0, best_len);
    memset(spans, 0, spans_len * sizeof *spans);
    return answer;
}

/* ---- Check */

/* Questions 10 and 11, of Check and Join. */
static int ask_block(const struct header *h, const uint8_t *codes, size_t codes_len)
{
    if (h->in.count < 2 || h->in.width[h->in.count - 1] != 2)
        return 10;
    return list_good(codes, codes_len, h->in.bits - 2, 3) ? 0 : 11;
}

/* A word holds 16 settings by 4 mask settings: of block b, lane j is setting 16 b + j / 4, with m0
 * the lowest bit of j and m1 the next. */
#define M0 0xaaaaaaaaaaaaaaaaU
#define M1 0xccccccccccccccccU

/* The lanes of a block whose setting has bit i. */
static inline uint64_t setting_bit(size_t i, size_t block)
{
    static const uint64_t within[4] = {0xf0f0f0f0f0f0f0f0U, 0xff00ff00ff00ff00U, 0xffff0000ffff0000U,
                                       0xffffffff00000000U};
    return i < 4 ? within[i] : block >> (i - 4) & 1 ? ONES : 0;
}

/* How many of the four lanes of each setting are one, a number for each in four bits. */
static inline uint64_t counts(uint64_t word)
{
    uint64_t twos = word - (word >> 1 & 0x5555555555555555U);
    return (twos & 0x3333333333333333U) + (twos >> 2 & 0x3333333333333333U);
}

/* The input wires in a block's settings, or in those with the same public bits and zero secrets. */
static void load_block(uint64_t *words, const uint8_t *codes, size_t bits, size_t block, bool secrets)
{
    static const uint64_t masks[4] = {0, M0, M1, M0 ^ M1};
    for (size_t i = 0; i < bits; i++)
        words[i] = (secrets || codes[i] == 0 ? setting_bit(i, block) : 0) ^ masks[codes[i]];
    words[bits] = M0;
    words[bits + 1] = M1;
}

/* The counts that a block's settings are compared with. Without public bits they are setting 0's, taken
 * from the first block's words. */
static void load_base(const struct header *h, const uint64_t *operands, const uint64_t *results,
                      const uint64_t *words, uint64_t *base, const uint8_t *codes, size_t bits, size_t block)
{
    if (memchr(codes, 0, bits) != NULL) {
        load_block(base, codes, bits, block, false);
        evaluate(base, h->gates, operands, results);
        for (uint32_t w = 0; w < h->wires; w++)
            base[w] = counts(base[w]);
    } else if (block == 0) {
        for (uint32_t w = 0; w < h->wires; w++)
            base[w] = (counts(words[w]) & 15) * 0x1111111111111111U;
    }
}

/* Whether a wire below some bound has a count that is not its base's. */
static bool differs(const uint64_t *restrict words, const uint64_t *restrict base, uint32_t bound)
{
    uint64_t difference = 0;
    for (uint32_t w = 0; w < bound; w++)
        difference |= counts(words[w]) ^ base[w];
    return difference != 0;
}

static int64_t check(const struct header *h, const uint64_t *operands, const uint64_t *results, uint64_t *words,
                     uint64_t *base, const uint8_t *codes, size_t codes_len, uint64_t *leak, size_t leak_len)
{
    uint64_t told[4];
    int no = ask_block(h, codes, codes_len);
    if (no != 0)
        return -no;
    size_t bits = h->in.bits - 2;
    if (bits > 12)
        return -12;

    uint32_t found = h->wires;
    size_t blocks = bits > 4 ? (size_t)1 << (bits - 4) : 1;
    for (size_t block = 0; block < blocks && found > 0; block++) {
        load_block(words, codes, bits, block, true);
        evaluate(words, h->gates, operands, results);
        load_base(h, operands, results, words, base, codes, bits, block);
        if (!differs(words, base, found))
            continue;
        for (uint32_t w = 0; w < found; w++) {
            uint64_t difference = counts(words[w]) ^ base[w];
            if (difference != 0) {
                unsigned place = 0;
                while ((difference >> 4 * place & 15) == 0)
                    place++;
                told[0] = found = w;
                told[1] = 16 * block + place;
                told[2] = base[w] >> 4 * place & 15;
                told[3] = counts(words[w]) >> 4 * place & 15;
            }
        }
    }
    if (found == h->wires)
        return 0;
    if (leak_len < 4)
        return -14;
    memcpy(leak, told, sizeof told);
    return 1;
}

int64_t baseline_check(const uint8_t *text, size_t text_len,
                       const uint8_t *codes, size_t codes_len,
                       uint64_t *leak, size_t leak_len,
                       uint64_t *operands, size_t operands_len,
                       uint64_t *results, size_t results_len,
                       uint8_t *given, size_t given_len,
                       uint64_t *words, size_t words_len,
                       uint64_t *base, size_t base_len,
                       uint8_t sizes)
{
    const struct limits *l = &large_limits[sizes != 0];
    struct header h;
    int64_t answer;
    if (operands_len < l->table || results_len < l->table || given_len < l->table
        || words_len < l->table || base_len < l->table)
        answer = -1;
    else
        answer = -read_netlist(l, text, text_len, &h, operands, results, given);
    if (answer == 0)
        answer = check(&h, operands, results, words, base, codes, codes_len, leak, leak_len);
    memset(operands, 0, operands_len * sizeof *operands);
    memset(results, 0, results_len * sizeof *results);
    memset(given, 0, given_len);
    memset(words, 0, words_len * sizeof *words);
    memset(base, 0, base_len * sizeof *base);
    return answer;
}

/* ---- Check with pairs */

/* The words of the settings that a block is compared with, and their counts. Without public bits they are
 * setting 0's, its four lanes for all, taken from the first block's words. */
static void load_bases(const struct header *h, const uint64_t *operands, const uint64_t *results,
                       const uint64_t *words, uint64_t *base, uint64_t *bases, const uint8_t *codes, size_t bits,
                       size_t block)
{
    if (memchr(codes, 0, bits) != NULL) {
        load_block(bases, codes, bits, block, false);
        evaluate(bases, h->gates, operands, results);
    } else if (block == 0) {
        for (uint32_t w = 0; w < h->wires; w++)
            bases[w] = (words[w] & 15) * 0x1111111111111111U;
    } else {
        return;
    }
    for (uint32_t w = 0; w < h->wires; w++)
        base[w] = counts(bases[w]);
}

/* Whether some of the four values of two wires is shown more or less often than in the base: value 11 as
 * the wires' AND, 10 and 01 as the rest of each wire's ones, and 00 as what is left of four. Single wires
 * are not compared again where all are known to be as in the base. */
static inline bool pair_differs(uint32_t u, uint32_t v, const uint64_t *words, const uint64_t *base,
                                const uint64_t *bases, bool quiet)
{
    uint64_t ones = counts(words[u] & words[v]) ^ counts(bases[u] & bases[v]);
    if (quiet)
        return ones != 0;
    return (ones | (counts(words[u]) ^ base[u]) | (counts(words[v]) ^ base[v])) != 0;
}

static int64_t check_pairs(const struct header *h, const uint64_t *operands, const uint64_t *results,
                           uint64_t *words, uint64_t *base, uint64_t *bases, const uint8_t *codes,
                           size_t codes_len, const uint32_t *pairs, size_t pairs_len, uint64_t *leak,
                           size_t leak_len, uint64_t *bad, size_t bad_len)
{
    int no = ask_block(h, codes, codes_len);
    if (no != 0)
        return -no;
    size_t bits = h->in.bits - 2;
    if (bits > 12)
        return -12;
    if (pairs_len % 2 != 0)
        return -21;
    for (size_t i = 0; i < pairs_len; i++) {
        if (pairs[i] >= h->wires)
            return -21;
    }

    uint32_t found = h->wires;
    size_t first = pairs_len / 2;
    uint64_t numbers[4];
    size_t blocks = bits > 4 ? (size_t)1 << (bits - 4) : 1;
    for (size_t block = 0; block < blocks; block++) {
        load_block(words, codes, bits, block, true);
        evaluate(words, h->gates, operands, results);
        load_bases(h, operands, results, words, base, bases, codes, bits, block);
        bool differ = differs(words, base, found), quiet = found == h->wires && !differ;
        for (size_t j = 0; j < first; j++) {
            if (pair_differs(pairs[2 * j], pairs[2 * j + 1], words, base, bases, quiet))
                first = j;
        }
        for (uint32_t w = 0; differ && w < found; w++) {
            uint64_t difference = counts(words[w]) ^ base[w];
            if (difference != 0) {
                unsigned place = 0;
                while ((difference >> 4 * place & 15) == 0)
                    place++;
                numbers[0] = found = w;
                numbers[1] = 16 * block + place;
                numbers[2] = base[w] >> 4 * place & 15;
                numbers[3] = counts(words[w]) >> 4 * place & 15;
            }
        }
    }
    bool leaks = found < h->wires, pair_bad = first < pairs_len / 2;
    if ((leaks && leak_len < 4) || (pair_bad && bad_len < 1))
        return -14;
    if (leaks)
        memcpy(leak, numbers, sizeof numbers);
    if (pair_bad)
        bad[0] = first;
    return leaks + 2 * pair_bad;
}

int64_t baseline_check_pairs(const uint8_t *text, size_t text_len,
                             const uint8_t *codes, size_t codes_len,
                             const uint32_t *pairs, size_t pairs_len,
                             uint64_t *leak, size_t leak_len,
                             uint64_t *bad, size_t bad_len,
                             uint64_t *operands, size_t operands_len,
                             uint64_t *results, size_t results_len,
                             uint8_t *given, size_t given_len,
                             uint64_t *words, size_t words_len,
                             uint64_t *base, size_t base_len,
                             uint64_t *bases, size_t bases_len,
                             uint8_t sizes)
{
    const struct limits *l = &large_limits[sizes != 0];
    struct header h;
    int64_t answer;
    if (operands_len < l->table || results_len < l->table || given_len < l->table
        || words_len < l->table || base_len < l->table || bases_len < l->table)
        answer = -1;
    else
        answer = -read_netlist(l, text, text_len, &h, operands, results, given);
    if (answer == 0)
        answer = check_pairs(&h, operands, results, words, base, bases, codes, codes_len, pairs, pairs_len, leak,
                             leak_len, bad, bad_len);
    memset(operands, 0, operands_len * sizeof *operands);
    memset(results, 0, results_len * sizeof *results);
    memset(given, 0, given_len);
    memset(words, 0, words_len * sizeof *words);
    memset(base, 0, base_len * sizeof *base);
    memset(bases, 0, bases_len * sizeof *bases);
    return answer;
}

/* ---- Check of netlists with many inputs */

#define MOST_REACHING 12

/* The input bits that reach a wire through gate lines, rising. */
struct reaching {
    unsigned count;
    uint32_t at[MOST_REACHING];
};

/* A wire's set lies in four tables: each input bit plus one in 20 bits, three to an entry, 0 behind the last. */
struct sets {
    uint64_t *parts[4];
};

static inline struct reaching unpack(const struct sets *s, uint32_t wire)
{
    struct reaching r = {0};
    for (unsigned part = 0; part < 4; part++) {
        for (uint64_t entry = s->parts[part][wire]; entry != 0; entry >>= 20)
            r.at[r.count++] = (uint32_t)(entry & 0xfffff) - 1;
    }
    return r;
}

static inline void pack(struct sets *s, uint32_t wire, const struct reaching *r)
{
    for (unsigned part = 0, j = 0; part < 4; part++) {
        uint64_t entry = 0;
        for (unsigned shift = 0; shift < 60 && j < r->count; shift += 20)
            entry |= (uint64_t)(r->at[j++] + 1) << shift;
        s->parts[part][wire] = entry;
    }
}

static inline void copy_set(struct sets *s, uint32_t from, uint32_t to)
{
    for (unsigned part = 0; part < 4; part++)
        s->parts[part][to] = s->parts[part][from];
}

static inline bool same_set(const struct sets *s, uint32_t a, uint32_t b)
{
    uint64_t difference = 0;
    for (unsigned part = 0; part < 4; part++)
        difference |= s->parts[part][a] ^ s->parts[part][b];
    return difference == 0;
}

/* The union of two wires' sets; false where it has more than twelve. */
static bool unite(const struct sets *s, uint32_t a, uint32_t b, struct reaching *r)
{
    struct reaching x = unpack(s, a), y = unpack(s, b);
    unsigned i = 0, j = 0;
    r->count = 0;
    while (i < x.count || j < y.count) {
        if (r->count == MOST_REACHING)
            return false;
        bool left = j == y.count || (i < x.count && x.at[i] <= y.at[j]);
        uint32_t least = left ? x.at[i] : y.at[j];
        j += j < y.count && y.at[j] == least;
        i += left;
        r->at[r->count++] = least;
    }
    return true;
}

/* The sets of all wires; false where one has more than twelve. A set is copied where it is the other operand's
 * too or the other has none. */
static bool reach(const struct header *h, const uint64_t *operands, const uint64_t *results, struct sets *s)
{
    uint32_t bits = (uint32_t)h->in.bits - 2;
    struct reaching r = {0};
    pack(s, bits, &r);
    pack(s, bits + 1, &r);
    r.count = 1;
    for (uint32_t i = 0; i < bits; i++) {
        r.at[0] = i;
        pack(s, i, &r);
    }
    for (uint32_t g = 0; g < h->gates; g++) {
        uint32_t a = low(operands[g]), b = high(operands[g]), c = low(results[g]);
        if (high(results[g]) >= EQ0) {
            r.count = 0;
            pack(s, c, &r);
        } else if (s->parts[0][b] == 0 || same_set(s, a, b)) {
            copy_set(s, a, c);
        } else if (s->parts[0][a] == 0) {
            copy_set(s, b, c);
        } else {
            if (!unite(s, a, b, &r))
                return false;
            pack(s, c, &r);
        }
    }
    return true;
}

/* Gives the inputs of a set that have no colour the lowest free ones, unless two of the others share one. */
static bool colour(const struct reaching *r, uint8_t *colours)
{
    uint32_t used = 1;
    for (unsigned j = 0; j < r->count; j++) {
        uint8_t c = colours[r->at[j]];
        if (c != 0 && (used >> c & 1) != 0)
            return false;
        used |= 1U << c;
    }
    for (unsigned j = 0; j < r->count; j++) {
        if (colours[r->at[j]] == 0) {
            uint8_t free = 1;
            while (used >> free & 1)
                free++;
            used |= 1U << free;
            colours[r->at[j]] = free;
        }
    }
    return true;
}

/* A search: the netlist, its codes and tables, the inputs' colours, and what is found: the lowest wire and the
 * first pair so far whose counts differ. */
struct search {
    const struct header *h;
    const uint64_t *operands, *results;
    const uint8_t *codes;
    const uint32_t *pairs;
    uint64_t *words, *base, *bases;
    uint8_t *colours, *served;
    struct sets sets;
    size_t bits, first;
    uint32_t lowest;
    bool public;
};

/* The input wires in a block's settings, each taking the bit of its colour and one without a colour 0; or in
 * those with the same public bits and zero secrets. */
static void load_coloured(const struct search *f, uint64_t *words, size_t block, bool secrets)
{
    static const uint64_t masks[4] = {0, M0, M1, M0 ^ M1};
    uint64_t bit[MOST_REACHING + 1] = {0};
    for (size_t c = 0; c < MOST_REACHING; c++)
        bit[c + 1] = setting_bit(c, block);
    for (size_t i = 0; i < f->bits; i++)
        words[i] = (secrets || f->codes[i] == 0 ? bit[f->colours[i]] : 0) ^ masks[f->codes[i]];
    words[f->bits] = M0;
    words[f->bits + 1] = M1;
}

/* One block of settings in all wires, and what they are compared with: without public bits always setting 0,
 * which is run once. */
static void run_block(const struct search *f, size_t block)
{
    load_coloured(f, f->words, block, true);
    evaluate(f->words, f->h->gates, f->operands, f->results);
    if (f->public) {
        load_coloured(f, f->bases, block, false);
        evaluate(f->bases, f->h->gates, f->operands, f->results);
        for (uint32_t w = 0; w < f->h->wires; w++)
            f->base[w] = counts(f->bases[w]);
    }
}

static void run_setting_0(const struct search *f)
{
    load_coloured(f, f->bases, 0, false);
    evaluate(f->bases, f->h->gates, f->operands, f->results);
    for (uint32_t w = 0; w < f->h->wires; w++)
        f->base[w] = counts(f->bases[w]);
}

/* How many blocks the colours in use make. */
static size_t coloured_blocks(const struct search *f)
{
    unsigned most = 0;
    for (size_t i = 0; i < f->bits; i++)
        most = f->colours[i] > most ? f->colours[i] : most;
    return most > 4 ? (size_t)1 << (most - 4) : 1;
}

/* Every wire: a pass for the last line that none has served yet, which serves with it every line before it whose
 * inputs can have different colours. */
static void search_wires(struct search *f)
{
    memset(f->served, 0, f->h->gates);
    for (uint32_t g = f->h->gates; g-- > 0;) {
        if (f->served[g])
            continue;
        memset(f->colours, 0, f->bits);
        for (uint32_t line = g + 1; line-- > 0;) {
            if (!f->served[line]) {
                struct reaching r = unpack(&f->sets, low(f->results[line]));
                f->served[line] = colour(&r, f->colours);
            }
        }
        size_t blocks = coloured_blocks(f);
        for (size_t block = 0; block < blocks; block++) {
            run_block(f, block);
            if (!differs(f->words, f->base, f->lowest))
                continue;
            uint32_t w = 0;
            while (counts(f->words[w]) == f->base[w])
                w++;
            f->lowest = w;
        }
    }
}

/* Every pair in the same way, as many at a time as the marks have entries. */
static void search_pairs(struct search *f, size_t many, size_t room)
{
    f->first = many;
    for (size_t from = 0; from < f->first; from += room) {
        size_t to = many - from > room ? from + room : many;
        memset(f->served, 0, to - from);
        for (size_t last = to; last-- > from;) {
            if (f->served[last - from])
                continue;
            memset(f->colours, 0, f->bits);
            for (size_t j = last + 1; j-- > from;) {
                struct reaching r;
                if (!f->served[j - from]) {
                    unite(&f->sets, f->pairs[2 * j], f->pairs[2 * j + 1], &r);
                    f->served[j - from] = colour(&r, f->colours);
                }
            }
            size_t blocks = coloured_blocks(f);
            for (size_t block = 0; block < blocks; block++) {
                run_block(f, block);
                for (size_t j = from; j < to && j < f->first; j++) {
                    if (pair_differs(f->pairs[2 * j], f->pairs[2 * j + 1], f->words, f->base, f->bases,
                                     f->lowest == f->h->wires))
                        f->first = j;
                }
            }
        }
    }
}

/* The smallest setting in which the lowest wire's count is not its base's: the inputs that are one, both counts. */
static struct reaching witness(struct search *f, uint64_t *base_count, uint64_t *own_count)
{
    struct reaching r = unpack(&f->sets, f->lowest), ones = {0};
    memset(f->colours, 0, f->bits);
    for (unsigned j = 0; j < r.count; j++)
        f->colours[r.at[j]] = (uint8_t)(j + 1);
    for (size_t block = 0;; block++) {
        run_block(f, block);
        uint64_t own = counts(f->words[f->lowest]), difference = own ^ f->base[f->lowest];
        for (unsigned place = 0; place < 16; place++) {
            if ((difference >> 4 * place & 15) == 0)
                continue;
            for (unsigned j = 0; j < r.count; j++) {
                if ((16 * block + place) >> j & 1)
                    ones.at[ones.count++] = r.at[j];
            }
            *base_count = f->base[f->lowest] >> 4 * place & 15;
            *own_count = own >> 4 * place & 15;
            return ones;
        }
    }
}

static int64_t check_wide(struct search *f, size_t codes_len, size_t pairs_len, size_t room, uint64_t *leak,
                          size_t leak_len, uint64_t *ones, size_t ones_len, uint64_t *bad, size_t bad_len)
{
    const struct header *h = f->h;
    int no = ask_block(h, f->codes, codes_len);
    if (no != 0)
        return -no;
    if (pairs_len % 2 != 0)
        return -21;
    for (size_t i = 0; i < pairs_len; i++) {
        if (f->pairs[i] >= h->wires)
            return -21;
    }
    if (!reach(h, f->operands, f->results, &f->sets))
        return -12;
    for (size_t j = 0; j < pairs_len / 2; j++) {
        struct reaching r;
        if (!unite(&f->sets, f->pairs[2 * j], f->pairs[2 * j + 1], &r))
            return -12;
    }

    f->bits = h->in.bits - 2;
    f->lowest = h->wires;
    f->public = memchr(f->codes, 0, f->bits) != NULL;
    memset(f->colours, 0, f->bits);
    run_setting_0(f);
    search_wires(f);
    search_pairs(f, pairs_len / 2, room);

    bool leaks = f->lowest < h->wires, pair_bad = f->first < pairs_len / 2;
    uint64_t base_count = 0, own_count = 0;
    struct reaching found = {0};
    if (leaks)
        found = witness(f, &base_count, &own_count);
    if ((leaks && (leak_len < 4 || ones_len < found.count)) || (pair_bad && bad_len < 1))
        return -14;
    if (leaks) {
        memcpy(leak, (uint64_t[4]){f->lowest, found.count, base_count, own_count}, 4 * sizeof *leak);
        for (unsigned j = 0; j < found.count; j++)
            ones[j] = found.at[j];
    }
    if (pair_bad)
        bad[0] = f->first;
    return leaks + 2 * pair_bad;
}

int64_t baseline_check_wide(const uint8_t *text, size_t text_len,
                            const uint8_t *codes, size_t codes_len,
                            const uint32_t *pairs, size_t pairs_len,
                            uint64_t *leak, size_t leak_len,
                            uint64_t *ones, size_t ones_len,
                            uint64_t *bad, size_t bad_len,
                            uint64_t *operands, size_t operands_len,
                            uint64_t *results, size_t results_len,
                            uint8_t *marks, size_t marks_len,
                            uint64_t *words, size_t words_len,
                            uint64_t *base, size_t base_len,
                            uint64_t *bases, size_t bases_len,
                            uint64_t *set0, size_t set0_len,
                            uint64_t *set1, size_t set1_len,
                            uint64_t *set2, size_t set2_len,
                            uint64_t *set3, size_t set3_len,
                            uint8_t *paints, size_t paints_len,
                            uint8_t sizes)
{
    const struct limits *l = &large_limits[sizes != 0];
    struct header h;
    int64_t answer;
    if (operands_len < l->table || results_len < l->table || marks_len < l->table || words_len < l->table
        || base_len < l->table || bases_len < l->table || set0_len < l->table || set1_len < l->table
        || set2_len < l->table || set3_len < l->table || paints_len < l->table)
        answer = -1;
    else
        answer = -read_netlist(l, text, text_len, &h, operands, results, marks);
    if (answer == 0) {
        struct search f = {.h = &h, .operands = operands, .results = results, .codes = codes, .pairs = pairs,
                           .words = words, .base = base, .bases = bases, .colours = paints, .served = marks,
                           .sets = {{set0, set1, set2, set3}}};
        answer = check_wide(&f, codes_len, pairs_len, l->table, leak, leak_len, ones, ones_len, bad, bad_len);
    }
    memset(operands, 0, operands_len * sizeof *operands);
    memset(results, 0, results_len * sizeof *results);
    memset(marks, 0, marks_len);
    memset(words, 0, words_len * sizeof *words);
    memset(base, 0, base_len * sizeof *base);
    memset(bases, 0, bases_len * sizeof *bases);
    memset(set0, 0, set0_len * sizeof *set0);
    memset(set1, 0, set1_len * sizeof *set1);
    memset(set2, 0, set2_len * sizeof *set2);
    memset(set3, 0, set3_len * sizeof *set3);
    memset(paints, 0, paints_len);
    return answer;
}

/* ---- AIGER */

/* A file, the place of its next byte, and the netlist so far: its table of variables (one more than the wire
 * of each that is given), its next wire and its gates, of which `room` are kept. */
struct aiger {
    const uint8_t *text;
    size_t length, at;
    uint64_t *operands, *results;
    uint32_t *variables, next, most;
    size_t gates, room;
};

static inline bool aiger_at_end(const struct aiger *f, size_t i)
{
    return f->text[i] == '\n' || (f->text[i] == '\r' && i + 1 < f->length && f->text[i + 1] == '\n');
}

static bool aiger_number(struct aiger *f, uint32_t *value)
{
    size_t i = f->at;
    while (i < f->length && f->text[i] == ' ')
        i++;
    size_t from = i;
    uint32_t v = 0;
    while (i < f->length && f->text[i] >= '0' && f->text[i] <= '9' && i - from < 7)
        v = v * 10 + (f->text[i++] - '0');
    if (i == from || i - from > 6 || (f->text[from] == '0' && i - from > 1))
        return false;
    if (i < f->length && f->text[i] != ' ' && !aiger_at_end(f, i))
        return false;
    f->at = i;
    *value = v;
    return true;
}

static bool aiger_line_end(struct aiger *f)
{
    size_t i = f->at;
    while (i < f->length && f->text[i] == ' ')
        i++;
    if (i < f->length && !aiger_at_end(f, i))
        return false;
    f->at = i < f->length ? i + 1 + (f->text[i] == '\r') : i;
    return true;
}

/* The next line that is not blank holds exactly so many numbers. */
static bool aiger_line(struct aiger *f, uint32_t *values, int count)
{
    while (f->at < f->length && (f->text[f->at] == ' ' || aiger_at_end(f, f->at)))
        f->at++;
    for (int i = 0; i < count; i++) {
        if (!aiger_number(f, values + i))
            return false;
    }
    return aiger_line_end(f);
}

static uint32_t aiger_keep(struct aiger *f, uint32_t kind, uint32_t left, uint32_t right)
{
    if (f->gates < f->room) {
        f->operands[f->gates] = pair(left, right);
        f->results[f->gates] = pair(f->next, kind);
    }
    f->gates++;
    return f->next++;
}

static bool aiger_can_give(const struct aiger *f, uint32_t x)
{
    return x > 1 && x % 2 == 0 && x / 2 <= f->most && f->variables[x / 2] == 0;
}

static bool aiger_can_read(const struct aiger *f, uint32_t x)
{
    return x < 2 || (x / 2 <= f->most && f->variables[x / 2] != 0);
}

/* The wire of an operand, behind an EQ or an INV where it needs one. */
static uint32_t aiger_operand(struct aiger *f, uint32_t x)
{
    if (x < 2)
        return aiger_keep(f, EQ0 + x, 0, 0);
    uint32_t wire = f->variables[x / 2] - 1;
    return x % 2 ? aiger_keep(f, INV, wire, wire) : wire;
}

/* Questions 2, 19, 20, 19 and 5: 0, or the number of the first with a no. */
static int read_aiger(const struct limits *l, struct aiger *f, struct header *h)
{
    uint32_t head[5], x[3];
    if (f->length > l->text)
        return 2;
    if (f->length < 4 || memcmp(f->text, "aag ", 4) != 0)
        return 19;
    f->at = 4;
    for (int i = 0; i < 5; i++) {
        if (!aiger_number(f, head + i))
            return 19;
    }
    if (!aiger_line_end(f) || head[1] == 0 || head[3] == 0 || head[0] >= l->wires)
        return 19;
    if (head[2] != 0)
        return 20;
    f->most = head[0];
    for (uint32_t i = 0; i < head[1]; i++) {
        if (!aiger_line(f, x, 1) || !aiger_can_give(f, x[0]))
            return 19;
        f->variables[x[0] / 2] = i + 1;
    }
    /* the end of the results keeps the literals; where they are too many, marks on their variables are enough */
    bool few = head[3] <= l->table;
    uint64_t *kept = f->results + (few ? l->table - head[3] : 0);
    if (!few)
        memset(f->operands, 0, l->table * sizeof *f->operands);
    for (uint32_t i = 0; i < head[3]; i++) {
        if (!aiger_line(f, x, 1) || (!few && x[0] / 2 > f->most))
            return 19;
        if (few)
            kept[i] = x[0];
        else if (x[0] > 1)
            f->operands[x[0] / 2] = 1;
    }
    f->room = few ? l->table - head[3] : 0;
    f->next = head[1];
    for (uint32_t i = 0; i < head[4]; i++) {
        if (!aiger_line(f, x, 3) || !aiger_can_read(f, x[1]) || !aiger_can_read(f, x[2]) || !aiger_can_give(f, x[0]))
            return 19;
        uint32_t left = aiger_operand(f, x[1]), right = aiger_operand(f, x[2]);
        f->variables[x[0] / 2] = aiger_keep(f, AND, left, right) + 1;
    }
    for (uint32_t i = 0; few && i < head[3]; i++) {
        if (!aiger_can_read(f, (uint32_t)kept[i]))
            return 19;
    }
    for (uint32_t v = 0; !few && v <= f->most; v++) {
        if (f->operands[v] != 0 && f->variables[v] == 0)
            return 19;
    }
    if (f->next + head[3] > l->wires)
        return 5;
    f->room = l->table;
    for (uint32_t i = 0; i < head[3]; i++) {
        uint32_t y = (uint32_t)kept[i], wire = y < 2 ? 0 : f->variables[y / 2] - 1;
        aiger_keep(f, y < 2 ? EQ0 + y : y % 2 ? INV : EQW, wire, wire);
    }
    *h = (struct header){(uint32_t)f->gates, f->next, {1, {head[1]}, head[1]}, {1, {head[3]}, head[3]}};
    return 0;
}

int64_t baseline_from_aiger(const uint8_t *text, size_t text_len,
                            uint8_t *out, size_t out_len,
                            uint64_t *operands, size_t operands_len,
                            uint64_t *results, size_t results_len,
                            uint32_t *variables, size_t variables_len,
                            uint8_t sizes)
{
    const struct limits *l = &small_limits[sizes != 0];
    struct aiger f = {text, text_len, 0, operands, results, variables, 0, 0, 0, l->table};
    struct header h;
    int64_t answer = -1;
    if (operands_len >= l->table && results_len >= l->table && variables_len >= l->table) {
        memset(variables, 0, variables_len * sizeof *variables);
        answer = -read_aiger(l, &f, &h);
        if (answer == 0)
            answer = rewrite(&h, operands, results, out, out_len);
    }
    memset(operands, 0, operands_len * sizeof *operands);
    memset(results, 0, results_len * sizeof *results);
    memset(variables, 0, variables_len * sizeof *variables);
    return answer;
}

/* ---- a session */

/* Questions 4 and 5 of the widths of values: 0, or the number of the first with a no. */
static int read_widths(const uint32_t *widths, size_t count, struct values *v)
{
    *v = (struct values){0};
    bool zero = count == 0;
    for (size_t i = 0; i < count; i++) {
        zero |= widths[i] == 0;
        if (i < MOST_VALUES)
            v->width[i] = widths[i];
        v->bits += widths[i];
    }
    v->count = count > MOST_VALUES ? MOST_VALUES : (uint32_t)count;
    return zero ? 4 : 0;
}

static fidrovelj_step refused_step(fidrovelj_session session, int question)
{
    return (fidrovelj_step){session, (uint8_t)question};
}

fidrovelj_step baseline_session_open(const uint32_t *widths, size_t widths_len,
                                     const uint8_t *codes, size_t codes_len,
                                     fidrovelj_gate *masked, size_t masked_len,
                                     uint8_t sizes)
{
    const struct limits *l = &small_limits[sizes != 0];
    const fidrovelj_session none = {0, 0};
    struct values in;
    int no = read_widths(widths, widths_len, &in);
    if (no != 0)
        return refused_step(none, no);
    if (widths_len > l->inputs || in.bits > l->wires)
        return refused_step(none, 5);
    if (!list_good(codes, codes_len, in.bits, 3))
        return refused_step(none, 11);
    uint32_t gates = 3, n = (uint32_t)in.bits;
    for (uint32_t i = 0; i < n; i++)
        gates += codes[i] == 0;
    if (gates > masked_len)
        return refused_step(none, 14);
    struct masking m = {n, 0, {LISTING, NULL, 0, masked}};
    mask_masks(&m);
    for (uint32_t i = 0; i < n; i++) {
        if (codes[i] == 0)
            put_xor(&m, i, n);
    }
    return (fidrovelj_step){{0, gates}, 0};
}

/* The twin of a source wire: a public input's stands behind the masks' gates, in input order. */
static struct twin session_twin(const uint8_t *codes, size_t bits, const fidrovelj_source_gate *source, uint32_t wire)
{
    if (wire >= bits)
        return (struct twin){source[wire - bits].wire, source[wire - bits].code};
    if (codes[wire] != 0)
        return (struct twin){wire, codes[wire]};
    uint32_t before = 0;
    for (uint32_t i = 0; i < wire; i++)
        before += codes[i] == 0;
    return (struct twin){(uint32_t)bits + 5 + before, 1};
}

/* Questions 7 to 9 of a gate whose result must be the next wire: 0, or the number of the first with a no. */
static int ask_record(fidrovelj_gate g, uint32_t next)
{
    bool two = g.kind == FIDROVELJ_XOR || g.kind == FIDROVELJ_AND;
    if (g.kind < FIDROVELJ_XOR || g.kind > FIDROVELJ_EQ || (!two && g.second != 0))
        return 7;
    if (g.kind == FIDROVELJ_EQ ? g.first > 1 : g.first >= next || (two && g.second >= next))
        return 8;
    return g.result == next ? 0 : 9;
}

/* The kind in a gate table of a record that is a gate's. */
static inline uint32_t table_kind(fidrovelj_gate g)
{
    return g.kind == FIDROVELJ_EQ ? EQ0 + g.first : g.kind - FIDROVELJ_XOR;
}

fidrovelj_step baseline_session_add(fidrovelj_session session, fidrovelj_gate gate,
                                    const uint8_t *codes, size_t codes_len,
                                    fidrovelj_source_gate *source, size_t source_len,
                                    fidrovelj_gate *masked, size_t masked_len,
                                    uint8_t sizes)
{
    const struct limits *l = &small_limits[sizes != 0];
    if (session.gates >= source_len || codes_len >= l->wires || codes_len + session.gates >= l->wires)
        return refused_step(session, 24);
    uint32_t n = (uint32_t)codes_len, kind = table_kind(gate);
    int no = ask_record(gate, n + session.gates);
    if (no != 0)
        return refused_step(session, no);
    struct twin a = {0, 1}, b = {0, 1};
    if (kind < EQ0)
        a = session_twin(codes, n, source, gate.first);
    if (kind < INV)
        b = session_twin(codes, n, source, gate.second);
    struct masking count = {n, 0, {COUNTING, NULL, 0, NULL}};
    mask_twin(&count, kind, a, b);
    uint64_t behind = (uint64_t)session.masked + count.next;
    if (behind > masked_len || behind > (uint64_t)1 << 30)
        return refused_step(session, 14);
    struct masking list = {n, n + 2 + session.masked, {LISTING, NULL, 0, masked + session.masked}};
    struct twin twin = mask_twin(&list, kind, a, b);
    source[session.gates] = (fidrovelj_source_gate){gate.kind, gate.first, gate.second, gate.result,
                                                    twin.wire, session.masked, twin.code};
    return (fidrovelj_step){{session.gates + 1, session.masked + count.next}, 0};
}

fidrovelj_step baseline_session_take_off(fidrovelj_session session, const fidrovelj_source_gate *source, size_t source_len)
{
    if (session.gates == 0)
        return refused_step(session, 23);
    uint32_t gates = session.gates - 1;
    return (fidrovelj_step){{gates, gates < source_len ? source[gates].from : 0}, 0};
}

fidrovelj_source_gate baseline_session_gate(fidrovelj_session session, uint32_t gate, const fidrovelj_source_gate *source,
                                            size_t source_len)
{
    return gate < session.gates && gate < source_len ? source[gate] : (fidrovelj_source_gate){0};
}

/* Questions 4 to 9 of a session's records, which go into the tables: 0, or the number of the first with a no. */
static int read_records(const struct limits *l, fidrovelj_session session, const uint32_t *inputs, size_t inputs_len,
                        const uint32_t *outputs, size_t outputs_len, const fidrovelj_source_gate *source, size_t source_len,
                        struct header *h, uint64_t *operands, uint64_t *results)
{
    if (read_widths(inputs, inputs_len, &h->in) != 0 || read_widths(outputs, outputs_len, &h->out) != 0)
        return 4;
    if (inputs_len > l->inputs || outputs_len > l->outputs || h->in.bits + session.gates > l->wires
        || h->out.bits > h->in.bits + session.gates)
        return 5;
    if (session.gates > source_len)
        return 6;
    h->gates = session.gates;
    h->wires = (uint32_t)h->in.bits + session.gates;
    for (uint32_t i = 0; i < h->gates; i++) {
        fidrovelj_gate g = {source[i].kind, source[i].first, source[i].second, source[i].result};
        int no = ask_record(g, (uint32_t)h->in.bits + i);
        if (no != 0)
            return no;
        uint32_t kind = table_kind(g), a = kind < EQ0 ? g.first : 0, b = kind < INV ? g.second : a;
        operands[i] = pair(a, b);
        results[i] = pair(g.result, kind);
    }
    return 0;
}

int64_t baseline_session_text(fidrovelj_session session,
                              const uint32_t *inputs, size_t inputs_len,
                              const uint32_t *outputs, size_t outputs_len,
                              const fidrovelj_source_gate *source, size_t source_len,
                              uint8_t *out, size_t out_len,
                              uint64_t *operands, size_t operands_len,
                              uint64_t *results, size_t results_len,
                              uint8_t sizes)
{
    const struct limits *l = &small_limits[sizes != 0];
    struct header h;
    int64_t answer = -1;
    if (operands_len >= l->table && results_len >= l->table)
        answer = -read_records(l, session, inputs, inputs_len, outputs, outputs_len, source, source_len, &h, operands, results);
    if (answer == 0)
        answer = rewrite(&h, operands, results, out, out_len);
    memset(operands, 0, operands_len * sizeof *operands);
    memset(results, 0, results_len * sizeof *results);
    return answer;
}

int64_t baseline_session_masked(fidrovelj_session session,
                                const uint32_t *inputs, size_t inputs_len,
                                const uint32_t *outputs, size_t outputs_len,
                                const fidrovelj_source_gate *source, size_t source_len,
                                const uint8_t *codes, size_t codes_len,
                                const uint8_t *wanted, size_t wanted_len,
                                uint8_t *out, size_t out_len,
                                uint8_t *out_codes, size_t out_codes_len,
                                uint64_t *operands, size_t operands_len,
                                uint64_t *results, size_t results_len,
                                uint32_t *wires, size_t wires_len,
                                uint8_t *marks, size_t marks_len,
                                uint8_t sizes)
{
    const struct limits *l = &small_limits[sizes != 0];
    struct header h;
    int64_t answer = -1;
    if (operands_len >= l->table && results_len >= l->table && wires_len >= l->table && marks_len >= l->table)
        answer = -read_records(l, session, inputs, inputs_len, outputs, outputs_len, source, source_len, &h, operands, results);
    if (answer == 0)
        answer = mask(&h, operands, results, wires, marks, codes, codes_len, wanted, wanted_len, out, out_len,
                      out_codes, out_codes_len);
    memset(operands, 0, operands_len * sizeof *operands);
    memset(results, 0, results_len * sizeof *results);
    memset(wires, 0, wires_len * sizeof *wires);
    memset(marks, 0, marks_len);
    return answer;
}

/* ---- Join */

/* Question 25. */
static bool blocks_meet(const struct header *first, const uint8_t *ends, size_t ends_len, const struct header *second,
                        const uint8_t *codes, size_t codes_len)
{
    if (ends_len != first->out.bits || codes_len != ends_len || second->gates < second->out.bits)
        return false;
    bool bad = false;
    for (size_t i = 0; i < codes_len; i++)
        bad |= codes[i] == 0 || codes[i] != ends[i];
    return !bad;
}

/* Where the second's wires go: its inputs onto the first's outputs and mask bits, all others behind the
 * first's wires. */
struct seam {
    uint32_t inputs, bits, outputs, masks, behind;
};

static inline uint32_t joined_wire(const struct seam *s, uint32_t w)
{
    return w >= s->inputs ? w + s->behind : w < s->bits ? w + s->outputs : w - s->bits + s->masks;
}

int64_t baseline_join(const uint8_t *first, size_t first_len,
                      const uint8_t *second, size_t second_len,
                      const uint8_t *first_codes, size_t first_codes_len,
                      const uint8_t *first_out_codes, size_t first_out_codes_len,
                      const uint8_t *second_codes, size_t second_codes_len,
                      uint8_t *out, size_t out_len,
                      uint64_t *operands, size_t operands_len,
                      uint64_t *results, size_t results_len,
                      uint8_t *given, size_t given_len,
                      uint64_t *words, size_t words_len,
                      uint64_t *base, size_t base_len,
                      uint8_t sizes)
{
    const struct limits *l = &large_limits[sizes != 0];
    struct header a, b;
    int64_t answer;
    if (operands_len < l->table || results_len < l->table || given_len < l->table
        || words_len < l->table || base_len < l->table)
        answer = -1;
    else
        answer = -read_netlist(l, first, first_len, &a, operands, results, given);
    if (answer == 0)
        answer = -ask_block(&a, first_codes, first_codes_len);
    if (answer == 0)
        answer = -read_netlist(l, second, second_len, &b, words, base, given);
    if (answer == 0)
        answer = -ask_block(&b, second_codes, second_codes_len);
    if (answer == 0 && !blocks_meet(&a, first_out_codes, first_out_codes_len, &b, second_codes, second_codes_len))
        answer = -25;
    if (answer == 0 && (uint64_t)a.wires + b.wires - b.in.bits > l->wires)
        answer = -5;
    if (answer == 0) {
        struct seam s = {b.in.bits, b.in.bits - 2, a.wires - a.out.bits, a.in.bits - 2, a.wires - b.in.bits};
        for (uint32_t i = 0; i < b.gates; i++) {
            operands[a.gates + i] = pair(joined_wire(&s, low(words[i])), joined_wire(&s, high(words[i])));
            results[a.gates + i] = pair(joined_wire(&s, low(base[i])), high(base[i]));
        }
        struct header joined = {a.gates + b.gates, a.wires + b.wires - (uint32_t)b.in.bits, a.in, b.out};
        answer = rewrite(&joined, operands, results, out, out_len);
    }
    memset(operands, 0, operands_len * sizeof *operands);
    memset(results, 0, results_len * sizeof *results);
    memset(given, 0, given_len);
    memset(words, 0, words_len * sizeof *words);
    memset(base, 0, base_len * sizeof *base);
    return answer;
}

/* ---- Certify */

/* What is known of a wire: a table over at most four atoms and the two mask bits. Bit 4 s + m of the table is the wire's bit at mask
 * setting m, m0 its lowest bit, where atom j has bit j of s. Atom 8 w + 2 m + p is the bit of wire w at mask setting m, XOR p, which
 * depends on the input setting alone. Atoms rise, and NO_ATOM fills up. */
enum { MOST_ATOMS = 4, FIRST = 0, SLOTS = 5 };
#define NO_ATOM UINT32_MAX

struct record {
    uint64_t table;
    uint32_t atom[MOST_ATOMS];
};

/* A wire has five records, three words each; zeros are no record. The first is what its operands' first records give, or the leaf, of at
 * most one atom, that this gives. A wire's marks say whether it is clean and whether its atom is public. */
enum { CLEAN = 1, PUBLIC = 2 };

/* A hint is an atom and, in its upper half, the number of a record of the atom's wire: atoms that are the same function of the same
 * atoms are one. */
struct certifier {
    struct record (*records)[SLOTS];
    uint8_t *marks;
    uint64_t *hints;
    uint32_t places;
};

/* The places in a table whose s has bit j. */
static const uint64_t variable[MOST_ATOMS] = {0xf0f0f0f0f0f0f0f0U, 0xff00ff00ff00ff00U, 0xffff0000ffff0000U,
                                              0xffffffff00000000U};

ALWAYS bool depends(uint64_t table, unsigned j) { return ((table >> (4U << j) ^ table) & ~variable[j]) != 0; }

ALWAYS bool absent(const struct record *r) { return r->atom[0] == 0 && r->atom[1] == 0; }

ALWAYS unsigned atom_count(const struct record *r)
{
    return (r->atom[0] != NO_ATOM) + (r->atom[1] != NO_ATOM) + (r->atom[2] != NO_ATOM) + (r->atom[3] != NO_ATOM);
}

/* A record with the atoms of two neighbouring places exchanged. */
ALWAYS struct record exchanged(struct record r, unsigned place)
{
    unsigned distance = 4U << place;
    uint64_t moved = (r.table >> distance ^ r.table) & ~variable[place + 1] & variable[place];
    uint32_t atom = r.atom[place];
    r.table ^= moved ^ moved << distance;
    r.atom[place] = r.atom[place + 1];
    r.atom[place + 1] = atom;
    return r;
}

/* The atoms from a place on move up, and the last one, which is none where two records fit together, comes there. */
ALWAYS struct record with_room(struct record r, unsigned place)
{
    for (unsigned i = MOST_ATOMS - 1; i > place; i--)
        r = exchanged(r, i - 1);
    return r;
}

/* What a gate of a kind makes of two records, equal atoms brought to equal places; false where both have more than four. */
ALWAYS bool merge(uint32_t kind, struct record a, struct record b, struct record *r)
{
    for (unsigned place = 0; place + 1 < MOST_ATOMS; place++) {
        if (a.atom[place] < b.atom[place])
            b = with_room(b, place);
        else if (b.atom[place] < a.atom[place])
            a = with_room(a, place);
    }
    for (unsigned i = 0; i < MOST_ATOMS; i++) {
        if (a.atom[i] != b.atom[i] && a.atom[i] != NO_ATOM && b.atom[i] != NO_ATOM)
            return false;
        r->atom[i] = a.atom[i] < b.atom[i] ? a.atom[i] : b.atom[i];
    }
    r->table = ((a.table ^ b.table) & makes[kind].x) ^ (a.table & b.table & makes[kind].z) ^ makes[kind].c;
    return true;
}

/* Without the atoms that the table does not depend on. */
ALWAYS struct record reduced(struct record r)
{
    for (unsigned place = MOST_ATOMS; place-- > 0;) {
        if (r.atom[place] == NO_ATOM || depends(r.table, place))
            continue;
        for (unsigned i = place; i + 1 < MOST_ATOMS; i++)
            r = exchanged(r, i);
        r.atom[MOST_ATOMS - 1] = NO_ATOM;
    }
    return r;
}

ALWAYS bool public_atom(const struct certifier *c, uint32_t atom) { return c->marks[atom / 8] & PUBLIC; }

/* Whether the counts of ones over the four mask settings are the same for all values of the atoms that are not public. */
ALWAYS bool even(const struct certifier *c, const struct record *r)
{
    uint64_t each = counts(r->table);
    for (unsigned j = 0; j < MOST_ATOMS && r->atom[j] != NO_ATOM; j++) {
        if (depends(each, j) && !public_atom(c, r->atom[j]))
            return false;
    }
    return true;
}

ALWAYS bool same_atoms(const struct record *a, const struct record *b)
{
    return memcmp(a->atom, b->atom, sizeof a->atom) == 0;
}

/* Keeps a record among the four after the first, fewer atoms first; one with the atoms of another is not kept. */
ALWAYS void keep(struct record *records, struct record r)
{
    unsigned count = atom_count(&r);
    if (!absent(&records[FIRST]) && same_atoms(&records[FIRST], &r))
        return;
    for (unsigned slot = 1; slot < SLOTS; slot++) {
        struct record *other = &records[slot];
        if (absent(other)) {
            *other = r;
            return;
        }
        if (same_atoms(other, &r))
            return;
        unsigned other_count = atom_count(other);
        if (other_count > count) {
            struct record carried = *other;
            *other = r;
            r = carried;
            count = other_count;
        }
    }
}

static inline uint64_t drawn(uint64_t number);

/* What an atom of a wire is for each setting of a record's atoms. */
ALWAYS uint64_t selector(uint64_t table, uint32_t atom)
{
    return (table >> (atom / 2 & 3) ^ (atom & 1 ? ONES : 0)) & 0x1111111111111111U;
}

/* The atom that a leaf's own atom is, by the hint for it; or its own, which then is the hint. */
ALWAYS uint32_t hinted(const struct certifier *c, const struct record *r, uint32_t number, uint32_t own)
{
    uint64_t chosen = selector(r->table, own);
    uint64_t *hint = &c->hints[drawn(drawn(chosen ^ pair(r->atom[0], r->atom[1])) ^ pair(r->atom[2], r->atom[3])) % c->places];
    uint32_t atom = low(*hint), other = high(*hint);
    if (atom / 8 == other / SLOTS) {
        const struct record *s = &c->records[0][other];
        if (!absent(s) && same_atoms(s, r) && selector(s->table, atom) == chosen)
            return atom;
    }
    *hint = pair(own, number);
    return own;
}

/* The leaf that a record gives, in place of it: itself, of at most one atom, or over the wire's own atom where it shows two values of the
 * four mask settings' bits, which that atom tells apart; false where it gives none. */
ALWAYS bool leaf_of(const struct certifier *c, uint32_t wire, unsigned slot, const struct record *r, struct record *leaf)
{
    if (atom_count(r) <= 1) {
        *leaf = *r;
        return true;
    }
    uint64_t first = r->table & 15, change = r->table ^ first * 0x1111111111111111U;
    unsigned place = (unsigned)__builtin_ctzll(change), m = place % 4;
    uint64_t difference = change >> place / 4 * 4 & 15, chosen = (change >> m & 0x1111111111111111U) * 15;
    if (change != (chosen & difference * 0x1111111111111111U))
        return false;
    uint32_t atom = hinted(c, r, SLOTS * wire + slot, 8 * wire + 2 * m + (uint32_t)(first >> m & 1));
    *leaf = (struct record){first * 0x1111111111111111U ^ (variable[0] & difference * 0x1111111111111111U),
                            {atom, NO_ATOM, NO_ATOM, NO_ATOM}};
    return true;
}

ALWAYS void show_public(const struct certifier *c, uint32_t wire, const struct record *r)
{
    bool public = true;
    for (unsigned j = 0; j < MOST_ATOMS && r->atom[j] != NO_ATOM; j++)
        public = public && public_atom(c, r->atom[j]);
    if (public)
        c->marks[wire] |= PUBLIC | CLEAN;
}

/* The first record of a wire: what its operands' first records give, or the leaf that this gives, and then both are kept. All that the
 * masking steps need of a wire is its first record. */
ALWAYS void lead(struct certifier *c, uint32_t kind, uint32_t p, uint32_t q, uint32_t wire)
{
    struct record *records = c->records[wire], r, leaf;
    if (absent(&c->records[p][FIRST]) || absent(&c->records[q][FIRST]) || !merge(kind, c->records[p][FIRST], c->records[q][FIRST], &r))
        return;
    r = reduced(r);
    if (even(c, &r))
        c->marks[wire] |= CLEAN;
    if (!leaf_of(c, wire, 1, &r, &leaf)) {
        records[FIRST] = r;
        return;
    }
    records[FIRST] = leaf;
    keep(records, r);
    show_public(c, wire, &r);
}

/* A leaf from the first of a wire's further records that gives one, where its first record is none. */
ALWAYS void keep_leaf(const struct certifier *c, uint32_t wire)
{
    struct record *records = c->records[wire], leaf;
    if (!absent(&records[FIRST]) && atom_count(&records[FIRST]) <= 1)
        return;
    for (unsigned slot = 1; slot < SLOTS && !absent(&records[slot]); slot++) {
        struct record r = records[slot];
        if (!leaf_of(c, wire, slot, &r, &leaf))
            continue;
        records[absent(&records[FIRST]) ? FIRST : SLOTS - 1] = leaf;
        show_public(c, wire, &r);
        return;
    }
}

/* A gate: both first records, then each other record of one operand with each of the other, or of one wire with itself. */
static void certify_gate(struct certifier *c, uint32_t kind, uint32_t p, uint32_t q, uint32_t wire)
{
    struct record *records = c->records[wire];
    memset(records, 0, sizeof *c->records);
    c->marks[wire] = 0;
    lead(c, kind, p, q, wire);
    bool clean = c->marks[wire] & CLEAN;
    for (unsigned i = 0; i < SLOTS; i++) {
        const struct record *a = &c->records[p][i];
        if (absent(a))
            continue;
        for (unsigned j = p == q ? i : 0; j < (p == q ? i + 1 : SLOTS); j++) {
            const struct record *b = &c->records[q][j];
            struct record r;
            if (i + j == 0 || absent(b) || !merge(kind, *a, *b, &r))
                continue;
            r = reduced(r);
            clean = clean || even(c, &r);
            keep(records, r);
        }
    }
    if (clean)
        c->marks[wire] |= CLEAN;
    keep_leaf(c, wire);
}

/* An input or a mask bit: its leaf is all that is known of it. */
static void certify_input(struct certifier *c, uint32_t wire, uint64_t table, uint32_t atom, bool public)
{
    memset(c->records[wire], 0, sizeof *c->records);
    c->records[wire][FIRST] = (struct record){table, {atom, NO_ATOM, NO_ATOM, NO_ATOM}};
    c->marks[wire] = public ? PUBLIC : 0;
    if (even(c, &c->records[wire][FIRST]))
        c->marks[wire] |= CLEAN;
}

/* The lowest wire that is not shown to be clean, or the number of wires. */
static uint32_t certify_wires(struct certifier *c, const struct header *h, const uint64_t *operands,
                              const uint64_t *results, const uint8_t *codes, uint32_t bits)
{
    static const uint64_t masks[4] = {0, M0, M1, M0 ^ M1};
    c->places = h->wires;
    memset(c->hints, 0, h->wires * sizeof *c->hints);
    for (uint32_t i = 0; i < bits; i++)
        certify_input(c, i, masks[codes[i]] ^ variable[0], 8 * i, codes[i] == 0);
    certify_input(c, bits, M0, NO_ATOM, false);
    certify_input(c, bits + 1, M1, NO_ATOM, false);
    for (uint32_t i = 0; i < h->gates; i++)
        certify_gate(c, high(results[i]), low(operands[i]), high(operands[i]), low(results[i]));
    uint32_t wire = 0;
    while (wire < h->wires && c->marks[wire] & CLEAN)
        wire++;
    return wire;
}

/* A witness is looked for in so many passes of sixteen settings, the first of them without secrets. */
#define PASSES 64

/* The next number of a fixed generator. */
static inline uint64_t drawn(uint64_t number)
{
    number ^= number << 13;
    number ^= number >> 7;
    return number ^ number << 17;
}

/* The input wires in sixteen settings: public bits are the same in all of them, secrets are zero in the first. */
static void load_drawn(uint64_t *words, const uint8_t *codes, size_t bits, uint64_t *noise)
{
    static const uint64_t masks[4] = {0, M0, M1, M0 ^ M1};
    for (size_t i = 0; i < bits; i++) {
        *noise = drawn(*noise);
        if (codes[i] == 0)
            words[i] = *noise >> 32 & 1 ? ONES : 0;
        else
            words[i] = (*noise >> 2 & 0x1111111111111110U) * 15 ^ masks[codes[i]];
    }
    words[bits] = M0;
    words[bits + 1] = M1;
}

/* The place of a setting whose count is not the first one's, or 0. */
static inline unsigned other_count(uint64_t word)
{
    uint64_t each = counts(word), difference = each ^ (each & 15) * 0x1111111111111111U;
    unsigned place = 0;
    if (difference == 0)
        return 0;
    while ((difference >> 4 * place & 15) == 0)
        place++;
    return place;
}

/* Questions 10 and 11 are Check's; 12 is not put. */
static int64_t certify(const struct header *h, const uint64_t *operands, const uint64_t *results, uint64_t *words,
                       struct certifier *c, const uint8_t *codes, size_t codes_len, uint64_t *leak, size_t leak_len,
                       uint64_t *ones, size_t ones_len)
{
    int no = ask_block(h, codes, codes_len);
    if (no != 0)
        return -no;
    size_t bits = codes_len;
    uint32_t found = certify_wires(c, h, operands, results, codes, (uint32_t)bits);
    if (found == h->wires)
        return 0;

    uint64_t noise = 0x9e3779b97f4a7c15U;
    uint32_t lowest = found;
    unsigned place = 0;
    for (int pass = 0; pass < PASSES && place == 0; pass++) {
        load_drawn(words, codes, bits, &noise);
        evaluate(words, h->gates, operands, results);
        for (found = lowest; found < h->wires && place == 0; found++)
            place = other_count(words[found]);
    }
    found = place == 0 ? lowest : found - 1;
    if (place == 0) {
        if (leak_len < 1)
            return -14;
        leak[0] = found;
        return 2;
    }
    static const uint64_t masks[4] = {0, M0, M1, M0 ^ M1};
    size_t count = 0;
    for (size_t i = 0; i < bits; i++)
        count += (words[i] ^ masks[codes[i]]) >> 4 * place & 1;
    if (leak_len < 4 || ones_len < count)
        return -14;
    leak[0] = found;
    leak[1] = count;
    leak[2] = counts(words[found]) & 15;
    leak[3] = counts(words[found]) >> 4 * place & 15;
    count = 0;
    for (size_t i = 0; i < bits; i++) {
        if ((words[i] ^ masks[codes[i]]) >> 4 * place & 1)
            ones[count++] = i;
    }
    return 1;
}

int64_t baseline_certify(const uint8_t *text, size_t text_len,
                         const uint8_t *codes, size_t codes_len,
                         uint64_t *leak, size_t leak_len,
                         uint64_t *ones, size_t ones_len,
                         uint64_t *operands, size_t operands_len,
                         uint64_t *results, size_t results_len,
                         uint8_t *marks, size_t marks_len,
                         uint64_t *words, size_t words_len,
                         uint64_t *base, size_t base_len,
                         uint64_t *records, size_t records_len,
                         uint8_t sizes)
{
    const struct limits *l = &large_limits[sizes != 0];
    struct header h;
    struct certifier c = {(struct record(*)[SLOTS])records, marks, words, 0};
    int64_t answer;
    if (operands_len < l->table || results_len < l->table || marks_len < l->table || words_len < l->table
        || base_len < l->table || records_len / (3 * SLOTS) < l->table)
        answer = -1;
    else
        answer = -read_netlist(l, text, text_len, &h, operands, results, marks);
    if (answer == 0)
        answer = certify(&h, operands, results, words, &c, codes, codes_len, leak, leak_len, ones, ones_len);
    memset(operands, 0, operands_len * sizeof *operands);
    memset(results, 0, results_len * sizeof *results);
    memset(marks, 0, marks_len);
    memset(words, 0, words_len * sizeof *words);
    memset(base, 0, base_len * sizeof *base);
    memset(records, 0, records_len * sizeof *records);
    return answer;
}

/* ---- Verilog */

enum word { THE_END, MODULE, INPUT, OUTPUT, WIRE, ASSIGN, ENDMODULE, NAME, NO_WORD };

/* A word or a sign (its byte), and the places of its first byte and behind its last. */
struct token {
    int is;
    size_t from, to;
};

/* A text, and the names that it declares: place in the text, what is known of it, wire, next of its chain. */
struct verilog {
    const uint8_t *text;
    size_t length;
    uint64_t *operands, *results, *heads, *words, *links;
    uint32_t *states, *wires;
    size_t chains, names, most_names, room;
    size_t ports, items, assigns, operators, deepest;
    uint32_t inputs, outputs, next;
};

enum known { AN_INPUT = 1, AN_OUTPUT = 2, A_PORT = 4, READABLE = 8 };

static bool word_byte(uint8_t b)
{
    return (b >= 'a' && b <= 'z') || (b >= 'A' && b <= 'Z') || (b >= '0' && b <= '9');
}

static int word_of(const uint8_t *w, size_t length)
{
    static const char *const reserved[] = {"module", "input", "output", "wire", "assign", "endmodule"};
    for (int i = 0; i < 6; i++) {
        if (strlen(reserved[i]) == length && memcmp(reserved[i], w, length) == 0)
            return MODULE + i;
    }
    return length <= 16 && (w[0] < '0' || w[0] > '9') ? NAME : NO_WORD;
}

static struct token token_at(const struct verilog *v, size_t i)
{
    const uint8_t *t = v->text;
    while (i < v->length && (t[i] == ' ' || t[i] == '\n' || (t[i] == '\r' && i + 1 < v->length && t[i + 1] == '\n')))
        i++;
    if (i == v->length)
        return (struct token){THE_END, i, i};
    size_t to = i;
    while (to < v->length && word_byte(t[to]))
        to++;
    if (to > i)
        return (struct token){word_of(t + i, to - i), i, to};
    switch (t[i]) {
    case '(': case ')': case ';': case ',': case '=': case '~': case '&': case '^':
        return (struct token){t[i], i, i + 1};
    default:
        return (struct token){NO_WORD, i, i + 1};
    }
}

/* One token of the kind, from a place on that moves behind it. */
static bool take(const struct verilog *v, size_t *at, int is)
{
    struct token x = token_at(v, *at);
    *at = x.to;
    return x.is == is;
}

/* Names with commas between, and the sign that ends them. */
static bool take_names(const struct verilog *v, size_t *at, int end)
{
    for (;;) {
        if (!take(v, at, NAME))
            return false;
        struct token x = token_at(v, *at);
        *at = x.to;
        if (x.is == end)
            return true;
        if (x.is != ',')
            return false;
    }
}

/* An expression and its semicolon: parentheses are counted. */
static bool take_expression(struct verilog *v, size_t *at)
{
    size_t depth = 0;
    bool operand = false, negated = false;
    for (;;) {
        struct token x = token_at(v, *at);
        *at = x.to;
        if (!operand) {
            if (x.is == NAME) {
                operand = true;
            } else if (x.is == '(') {
                if (++depth > v->deepest)
                    v->deepest = depth;
            } else if (x.is != '~' || negated) {
                return false;
            }
            negated = x.is == '~';
            v->operators += negated;
        } else if (x.is == '&' || x.is == '^') {
            operand = false;
            v->operators++;
        } else if (x.is == ')' && depth > 0) {
            depth--;
        } else {
            return x.is == ';' && depth == 0;
        }
    }
}

/* Question 16, with the places of the ports, the declarations and the assignments. */
static bool verilog_form(struct verilog *v)
{
    size_t at = 0;
    if (!take(v, &at, MODULE) || !take(v, &at, NAME) || !take(v, &at, '('))
        return false;
    v->ports = at;
    if (!take_names(v, &at, ')') || !take(v, &at, ';'))
        return false;
    v->items = at;
    struct token x = token_at(v, at);
    while (x.is == INPUT || x.is == OUTPUT || x.is == WIRE) {
        at = x.to;
        if (!take_names(v, &at, ';'))
            return false;
        x = token_at(v, at);
    }
    v->assigns = at;
    while (x.is == ASSIGN) {
        at = x.to;
        if (!take(v, &at, NAME) || !take(v, &at, '=') || !take_expression(v, &at))
            return false;
        x = token_at(v, at);
    }
    return x.is == ENDMODULE && token_at(v, x.to).is == THE_END;
}

static size_t chain_of(const struct verilog *v, struct token x)
{
    uint64_t h = 0;
    for (size_t i = x.from; i < x.to; i++)
        h = (h * 37 + v->text[i]) % 4294967296;
    return h % v->chains;
}

/* One more than a name's entry, or 0. */
static size_t find(const struct verilog *v, struct token x)
{
    size_t p = v->heads[chain_of(v, x)];
    while (p > 0) {
        uint64_t word = v->words[p - 1];
        size_t from = word % 4294967296, to = word / 4294967296;
        if (to - from == x.to - x.from && memcmp(v->text + from, v->text + x.from, to - from) == 0)
            break;
        p = v->links[p - 1];
    }
    return p;
}

/* Question 17. */
static bool verilog_rules(struct verilog *v)
{
    uint32_t known = 0;
    for (size_t at = v->items; at < v->assigns;) {
        struct token x = token_at(v, at);
        at = x.to;
        if (x.is == INPUT || x.is == OUTPUT || x.is == WIRE)
            known = x.is == INPUT ? AN_INPUT : x.is == OUTPUT ? AN_OUTPUT : 0;
        if (x.is != NAME)
            continue;
        if (v->names == v->most_names || find(v, x) > 0)
            return false;
        size_t chain = chain_of(v, x);
        v->words[v->names] = x.from + x.to * 4294967296;
        v->states[v->names] = known;
        v->links[v->names] = v->heads[chain];
        v->heads[chain] = ++v->names;
    }
    for (size_t at = v->ports; at < v->items;) {
        struct token x = token_at(v, at);
        at = x.to;
        if (x.is != NAME)
            continue;
        size_t p = find(v, x);
        if (p == 0 || v->states[p - 1] & A_PORT || !(v->states[p - 1] & (AN_INPUT | AN_OUTPUT)))
            return false;
        v->states[p - 1] |= A_PORT;
        if (v->states[p - 1] & AN_INPUT) {
            v->states[p - 1] |= READABLE;
            v->wires[p - 1] = v->inputs++;
        } else {
            v->outputs++;
        }
    }
    for (size_t i = 0; i < v->names; i++) {
        if (v->states[i] == AN_INPUT || v->states[i] == AN_OUTPUT)
            return false;
    }
    if (v->inputs == 0 || v->outputs == 0)
        return false;
    size_t target = 0;
    for (size_t at = v->assigns;;) {
        struct token x = token_at(v, at);
        at = x.to;
        if (x.is == ENDMODULE)
            break;
        if (x.is == ASSIGN) {
            x = token_at(v, at);
            at = x.to;
            target = find(v, x);
            if (target == 0 || v->states[target - 1] & READABLE)
                return false;
        } else if (x.is == NAME) {
            size_t p = find(v, x);
            if (p == 0 || !(v->states[p - 1] & READABLE))
                return false;
        } else if (x.is == ';') {
            v->states[target - 1] |= READABLE;
        }
    }
    for (size_t i = 0; i < v->names; i++) {
        if (!(v->states[i] & READABLE))
            return false;
    }
    return true;
}

static uint32_t verilog_keep(struct verilog *v, uint32_t kind, uint32_t left, uint32_t right)
{
    size_t i = v->next - v->inputs;
    if (i < v->room) {
        v->operands[i] = pair(left, right);
        v->results[i] = pair(v->next, kind);
    }
    return v->next++;
}

static uint32_t expression(struct verilog *v, size_t *at);

static uint32_t factor(struct verilog *v, size_t *at)
{
    struct token x = token_at(v, *at);
    bool negated = x.is == '~';
    if (negated)
        x = token_at(v, x.to);
    *at = x.to;
    uint32_t wire;
    if (x.is == NAME) {
        wire = v->wires[find(v, x) - 1];
    } else {
        wire = expression(v, at);
        take(v, at, ')');
    }
    return negated ? verilog_keep(v, INV, wire, wire) : wire;
}

static uint32_t term(struct verilog *v, size_t *at)
{
    uint32_t wire = factor(v, at);
    for (struct token x = token_at(v, *at); x.is == '&'; x = token_at(v, *at)) {
        *at = x.to;
        uint32_t right = factor(v, at);
        wire = verilog_keep(v, AND, wire, right);
    }
    return wire;
}

static uint32_t expression(struct verilog *v, size_t *at)
{
    uint32_t wire = term(v, at);
    for (struct token x = token_at(v, *at); x.is == '^'; x = token_at(v, *at)) {
        *at = x.to;
        uint32_t right = term(v, at);
        wire = verilog_keep(v, XOR, wire, right);
    }
    return wire;
}

static void verilog_gates(struct verilog *v)
{
    v->next = v->inputs;
    size_t at = v->assigns;
    while (take(v, &at, ASSIGN)) {
        struct token target = token_at(v, at);
        at = target.to;
        take(v, &at, '=');
        uint32_t wire = expression(v, &at);
        v->wires[find(v, target) - 1] = wire;
        take(v, &at, ';');
    }
    for (at = v->ports; at < v->items;) {
        struct token x = token_at(v, at);
        at = x.to;
        if (x.is != NAME)
            continue;
        size_t i = find(v, x) - 1;
        if (v->states[i] & AN_OUTPUT)
            verilog_keep(v, EQW, v->wires[i], v->wires[i]);
    }
}

/* Questions 2, 16, 17, 18 and 5: 0, or the number of the first with a no. */
static int read_verilog(const struct limits *l, struct verilog *v, struct header *h)
{
    if (v->length > l->text)
        return 2;
    if (!verilog_form(v))
        return 16;
    if (!verilog_rules(v))
        return 17;
    if (v->deepest > 32)
        return 18;
    size_t wires = v->inputs + v->operators + v->outputs;
    if (wires > l->wires)
        return 5;
    verilog_gates(v);
    *h = (struct header){(uint32_t)(wires - v->inputs), (uint32_t)wires, {1, {v->inputs}, v->inputs}, {1, {v->outputs}, v->outputs}};
    return 0;
}

int64_t baseline_from_verilog(const uint8_t *text, size_t text_len,
                              uint8_t *out, size_t out_len,
                              uint64_t *operands, size_t operands_len,
                              uint64_t *results, size_t results_len,
                              uint64_t *heads, size_t heads_len,
                              uint64_t *words, size_t words_len,
                              uint64_t *links, size_t links_len,
                              uint32_t *states, size_t states_len,
                              uint32_t *wires, size_t wires_len,
                              uint8_t sizes)
{
    const struct limits *l = &small_limits[sizes != 0];
    struct verilog v = {.text = text, .length = text_len, .operands = operands, .results = results, .heads = heads,
                        .words = words, .links = links, .states = states, .wires = wires, .chains = heads_len,
                        .most_names = l->table * 8, .room = l->table};
    struct header h;
    int64_t answer = -1;
    if (operands_len >= l->table && results_len >= l->table && heads_len / 8 >= l->table && words_len / 8 >= l->table
        && links_len / 8 >= l->table && states_len / 8 >= l->table && wires_len / 8 >= l->table) {
        memset(heads, 0, heads_len * sizeof *heads);
        memset(wires, 0, wires_len * sizeof *wires);
        answer = -read_verilog(l, &v, &h);
        if (answer == 0)
            answer = rewrite(&h, operands, results, out, out_len);
    }
    memset(operands, 0, operands_len * sizeof *operands);
    memset(results, 0, results_len * sizeof *results);
    memset(heads, 0, heads_len * sizeof *heads);
    memset(words, 0, words_len * sizeof *words);
    memset(links, 0, links_len * sizeof *links);
    memset(states, 0, states_len * sizeof *states);
    memset(wires, 0, wires_len * sizeof *wires);
    return answer;
}
