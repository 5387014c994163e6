/* Masked netlists, and what a logic optimiser makes of them: the two steps of tests/optimised around yosys and abc.
 *
 *     optimised mask SOURCE SEED NETLIST CODES BLIF VERILOG
 *         masks a source under random codes, for seed 0 under code 1 alone, and writes the masked netlist, its codes and its gates in two other notations
 *     optimised judge NETLIST CODES BLIF
 *         reads an optimiser's result back and prints what the library certifies: clean, leak or unknown, the wires and the time
 *
 * All that is said is held against an evaluator written apart from the library: the result computes what the masked netlist
 * computes, no setting tried shows a leak in a clean netlist or below an unknown wire, and a told leak is one. */
#include "fidrovelj.h"

#include <stdbool.h>
#include <stdio.h>
#include <stdlib.h>
#include <string.h>
#include <time.h>

#define TABLE FIDROVELJ_WHOLE_LARGE_TABLE
#define SMALL FIDROVELJ_WHOLE_SMALL_TABLE
#define ROOM FIDROVELJ_WHOLE_LARGE_TEXT

static void die(const char *what, const char *which)
{
    fprintf(stderr, "optimised: %s: %s\n", what, which);
    exit(EXIT_FAILURE);
}

static void *room_for(size_t count, size_t size)
{
    void *room = calloc(count, size);
    if (room == NULL)
        die("no memory", "");
    return room;
}

static char *read_file(const char *path)
{
    FILE *file = fopen(path, "rb");
    if (file == NULL)
        die("cannot open", path);
    char *text = room_for(ROOM + 1, 1);
    text[fread(text, 1, ROOM, file)] = '\0';
    fclose(file);
    return text;
}

static FILE *new_file(const char *path)
{
    FILE *file = fopen(path, "wb");
    if (file == NULL)
        die("cannot write", path);
    return file;
}

/* ---- netlists */

enum { XOR, AND, INV, EQW, EQ };

static const char *const names[] = {"XOR", "AND", "INV", "EQW", "EQ"};

struct gate {
    int kind;
    unsigned a, b, c;
};

/* The header's lines of values are kept as they stand. */
struct net {
    unsigned gates, wires, inputs, outputs, room;
    char values[2][200];
    struct gate *gate;
};

static unsigned number(char **at) { return (unsigned)strtoul(*at, at, 10); }

/* A line of values: its bits, and the line itself. */
static unsigned values(char **at, char *line)
{
    unsigned bits = 0;
    char *from = *at + strspn(*at, "\n");
    *at = from;
    for (unsigned count = number(at); count > 0; count--)
        bits += number(at);
    snprintf(line, 200, "%.*s", (int)(*at - from), from);
    return bits;
}

/* A text that the library has read or written. */
static struct net read_net(char *text)
{
    struct net n = {0};
    n.gates = number(&text);
    n.wires = number(&text);
    n.inputs = values(&text, n.values[0]);
    n.outputs = values(&text, n.values[1]);
    n.room = n.gates;
    n.gate = room_for(n.gates + 1, sizeof *n.gate);
    for (unsigned i = 0; i < n.gates; i++) {
        struct gate g = {0, 0, 0, 0};
        unsigned operands = number(&text);
        number(&text);
        g.a = number(&text);
        g.b = operands == 2 ? number(&text) : g.a;
        g.c = number(&text);
        text += strspn(text, " ");
        while (g.kind < EQ && strncmp(text, names[g.kind], 3) != 0)
            g.kind++;
        text += strcspn(text, "\n");
        n.gate[i] = g;
    }
    return n;
}

static char *write_net(const struct net *n)
{
    char *text = room_for(ROOM + 100, 1), *at = text;
    at += sprintf(at, "%u %u\n%s\n%s\n\n", n->gates, n->wires, n->values[0], n->values[1]);
    for (unsigned i = 0; i < n->gates && at < text + ROOM; i++) {
        struct gate g = n->gate[i];
        at += g.kind <= AND ? sprintf(at, "2 1 %u %u %u %s\n", g.a, g.b, g.c, names[g.kind])
                            : sprintf(at, "1 1 %u %u %s\n", g.a, g.c, names[g.kind]);
    }
    return text;
}

static unsigned add_gate(struct net *n, int kind, unsigned a, unsigned b)
{
    if (n->gates == n->room) {
        n->room = 2 * n->room + 1000;
        n->gate = realloc(n->gate, n->room * sizeof *n->gate);
        if (n->gate == NULL)
            die("no memory", "");
    }
    n->gate[n->gates++] = (struct gate){kind, a, b, n->wires};
    return n->wires++;
}

/* ---- the notations that yosys and abc read */

static void signal(FILE *file, const struct net *n, unsigned wire)
{
    fprintf(file, " %c%u", wire < n->inputs ? 'i' : 'w', wire);
}

static void write_blif(const struct net *n, const char *path)
{
    FILE *file = new_file(path);
    fprintf(file, ".model top\n.inputs");
    for (unsigned i = 0; i < n->inputs; i++)
        fprintf(file, " i%u", i);
    fprintf(file, "\n.outputs");
    for (unsigned i = 0; i < n->outputs; i++)
        fprintf(file, " o%u", i);
    for (unsigned i = 0; i < n->gates; i++) {
        struct gate g = n->gate[i];
        fprintf(file, "\n.names");
        if (g.kind != EQ)
            signal(file, n, g.a);
        if (g.kind <= AND)
            signal(file, n, g.b);
        signal(file, n, g.c);
        fprintf(file, "\n%s", g.kind == XOR ? "10 1\n01 1" : g.kind == AND ? "11 1" : g.kind == INV ? "0 1"
                              : g.kind == EQW ? "1 1" : g.a == 1 ? "1" : "");
    }
    for (unsigned i = 0; i < n->outputs; i++) {
        fprintf(file, "\n.names");
        signal(file, n, n->wires - n->outputs + i);
        fprintf(file, " o%u\n1 1", i);
    }
    fprintf(file, "\n.end\n");
    fclose(file);
}

static void write_verilog(const struct net *n, const char *path)
{
    FILE *file = new_file(path);
    fprintf(file, "module top(");
    for (unsigned i = 0; i < n->inputs; i++)
        fprintf(file, "i%u, ", i);
    for (unsigned i = 0; i < n->outputs; i++)
        fprintf(file, "o%u%s", i, i + 1 < n->outputs ? ", " : ");\n");
    for (unsigned i = 0; i < n->inputs; i++)
        fprintf(file, "input i%u;\n", i);
    for (unsigned i = 0; i < n->outputs; i++)
        fprintf(file, "output o%u;\n", i);
    for (unsigned i = 0; i < n->gates; i++)
        fprintf(file, "wire w%u;\n", n->gate[i].c);
    for (unsigned i = 0; i < n->gates; i++) {
        struct gate g = n->gate[i];
        fprintf(file, "assign w%u =", g.c);
        if (g.kind == EQ)
            fprintf(file, " 1'b%u", g.a);
        else
            fprintf(file, "%s", g.kind == INV ? " ~" : "");
        if (g.kind != EQ)
            signal(file, n, g.a);
        if (g.kind <= AND)
            fprintf(file, g.kind == XOR ? " ^" : " &");
        if (g.kind <= AND)
            signal(file, n, g.b);
        fprintf(file, ";\n");
    }
    for (unsigned i = 0; i < n->outputs; i++) {
        fprintf(file, "assign o%u =", i);
        signal(file, n, n->wires - n->outputs + i);
        fprintf(file, ";\n");
    }
    fprintf(file, "endmodule\n");
    fclose(file);
}

/* ---- an optimiser's result */

/* A signal: its name, how it is made of at most two others (bit s of `table` is its value where operand j has bit j of s, or with
 * `zeros` the inverse of it), and its wire once it has one. */
struct symbol {
    char *name;
    int operand[2], operands;
    unsigned table, wire;
    bool made, given, zeros;
};

static struct symbol *symbol;
static int symbols, *slot, slots = 1 << 22;
static int constant[2] = {-1, -1}, *inverse;

static int find(char *name)
{
    unsigned hash = 5381;
    for (char *c = name; *c != '\0'; c++)
        hash = hash * 33 + (unsigned char)*c;
    for (unsigned i = hash & (unsigned)(slots - 1);; i = (i + 1) & (unsigned)(slots - 1)) {
        if (slot[i] == 0) {
            symbol[symbols].name = name;
            slot[i] = ++symbols;
            if (symbols == slots / 2)
                die("too many signals", name);
        }
        if (strcmp(symbol[slot[i] - 1].name, name) == 0)
            return slot[i] - 1;
    }
}

/* Adds a line of a cover, which lists ones or zeros: '-' admits both values. */
static void add_row(struct symbol *s, const char *row, bool zeros)
{
    s->zeros = zeros;
    for (unsigned value = 0; value < 1U << s->operands; value++) {
        bool met = true;
        for (int j = 0; j < s->operands; j++)
            met = met && (row[j] == '-' || row[j] - '0' == (int)(value >> j & 1));
        s->table |= (unsigned)met << value;
    }
}

/* A gate of the mapped library. */
static void make_gate(char **word, int count)
{
    static const struct {
        const char *name;
        int operands;
        unsigned table;
    } known[] = {{"ZERO", 0, 0}, {"ONE", 0, 1}, {"BUF", 1, 2}, {"INV", 1, 1}, {"AND2", 2, 8}, {"XOR2", 2, 6}};
    int operand[2] = {0, 0}, result = -1;
    for (int i = 2; i < count; i++) {
        char pin = word[i][0];
        int other = find(word[i] + 2);
        if (pin == 'O')
            result = other;
        else
            operand[pin == 'b'] = other;
    }
    for (size_t i = 0; i < sizeof known / sizeof *known; i++) {
        if (strcmp(known[i].name, word[1]) == 0 && result >= 0) {
            struct symbol *s = &symbol[result];
            *s = (struct symbol){s->name, {operand[0], operand[1]}, known[i].operands, known[i].table, 0, true, false, false};
            return;
        }
    }
    die("an unknown gate", word[1]);
}

static unsigned constant_wire(struct net *n, int bit)
{
    if (constant[bit] < 0)
        constant[bit] = (int)add_gate(n, EQ, (unsigned)bit, (unsigned)bit);
    return (unsigned)constant[bit];
}

static unsigned inverse_wire(struct net *n, unsigned wire)
{
    if (inverse[wire] == 0)
        inverse[wire] = (int)add_gate(n, INV, wire, wire);
    return (unsigned)inverse[wire];
}

/* The wire of a function of two wires: an XOR, or an AND of wires that may be inverted, or inverted itself. */
static unsigned two_wires(struct net *n, unsigned table, unsigned a, unsigned b)
{
    switch (table) {
    case 0: return constant_wire(n, 0);
    case 15: return constant_wire(n, 1);
    case 10: return a;
    case 12: return b;
    case 5: return inverse_wire(n, a);
    case 3: return inverse_wire(n, b);
    case 6: return add_gate(n, XOR, a, b);
    case 9: return inverse_wire(n, add_gate(n, XOR, a, b));
    }
    bool inverted = table == 7 || table == 11 || table == 13 || table == 14;
    unsigned one = inverted ? 15 ^ table : table;
    unsigned left = one & 10 ? a : inverse_wire(n, a), right = one & 12 ? b : inverse_wire(n, b);
    unsigned wire = add_gate(n, AND, left, right);
    return inverted ? inverse_wire(n, wire) : wire;
}

static unsigned wire_of(struct net *n, const struct symbol *s)
{
    unsigned table = s->zeros ? ~s->table : s->table;
    if (s->operands == 0)
        return constant_wire(n, table & 1);
    unsigned a = symbol[s->operand[0]].wire;
    if (s->operands == 1)
        return two_wires(n, (table & 3) * 5, a, a);
    return two_wires(n, table & 15, a, symbol[s->operand[1]].wire);
}

/* Gives a signal and all that it is made of a wire, operands first. */
static void give(struct net *n, int first)
{
    static int *stack;
    if (stack == NULL)
        stack = room_for((size_t)slots, sizeof *stack);
    int depth = 0;
    stack[depth++] = first;
    while (depth > 0) {
        struct symbol *s = &symbol[stack[depth - 1]];
        bool ready = true;
        if (!s->given && !s->made)
            die("a signal that nothing makes", s->name);
        for (int j = 0; j < s->operands && !s->given; j++) {
            if (!symbol[s->operand[j]].given) {
                ready = false;
                stack[depth++] = s->operand[j];
            }
        }
        if (!ready)
            continue;
        if (!s->given) {
            s->wire = wire_of(n, s);
            s->given = true;
        }
        depth--;
    }
}

static struct net read_blif(char *text, const struct net *source)
{
    struct net n = {0, source->inputs, source->inputs, source->outputs, 0, {"", ""}, NULL};
    memcpy(n.values, source->values, sizeof n.values);
    symbol = room_for((size_t)slots / 2 + 2, sizeof *symbol);
    slot = room_for((size_t)slots, sizeof *slot);
    inverse = room_for(TABLE, sizeof *inverse);
    for (char *c = text; (c = strstr(c, "\\\n")) != NULL;)
        c[0] = c[1] = ' ';
    struct symbol *cover = NULL;
    char *line_state = NULL;
    for (char *line = strtok_r(text, "\n", &line_state); line != NULL; line = strtok_r(NULL, "\n", &line_state)) {
        static char *word[TABLE];
        int count = 0;
        char *state = NULL;
        line[strcspn(line, "#")] = '\0';
        for (char *w = strtok_r(line, " ", &state); w != NULL && count < TABLE; w = strtok_r(NULL, " ", &state))
            word[count++] = w;
        if (count == 0)
            continue;
        if (strcmp(word[0], ".inputs") == 0) {
            for (int i = 1; i < count; i++) {
                struct symbol *s = &symbol[find(word[i])];
                s->given = true;
                s->wire = (unsigned)atoi(word[i] + 1);
            }
        } else if (strcmp(word[0], ".names") == 0) {
            if (count > 4)
                die("a gate of more than two operands", word[count - 1]);
            int operand[2] = {count > 2 ? find(word[1]) : 0, count > 3 ? find(word[2]) : 0};
            cover = &symbol[find(word[count - 1])];
            *cover = (struct symbol){cover->name, {operand[0], operand[1]}, count - 2, 0, 0, true, false, false};
        } else if (strcmp(word[0], ".gate") == 0 || strcmp(word[0], ".subckt") == 0) {
            make_gate(word, count);
        } else if (word[0][0] != '.' && cover != NULL) {
            add_row(cover, word[0], word[count - 1][0] == '0');
        }
    }
    unsigned *output = room_for(n.outputs, sizeof *output);
    for (unsigned i = 0; i < n.outputs; i++) {
        char *name = room_for(16, 1);
        snprintf(name, 16, "o%u", i);
        int s = find(name);
        give(&n, s);
        output[i] = symbol[s].wire;
    }
    for (unsigned i = 0; i < n.outputs; i++)
        add_gate(&n, EQW, output[i], output[i]);
    free(output);
    return n;
}

/* ---- the evaluator written apart */

static uint64_t seed = 1;

static uint64_t drawn(void)
{
    seed ^= seed << 13;
    seed ^= seed >> 7;
    seed ^= seed << 17;
    return seed * 0x2545f4914f6cdd1dU;
}

/* The wires in sixty-four settings of the inputs, a bit for each. */
static void evaluate(const struct net *n, uint64_t *lanes)
{
    for (unsigned i = 0; i < n->gates; i++) {
        struct gate g = n->gate[i];
        switch (g.kind) {
        case XOR: lanes[g.c] = lanes[g.a] ^ lanes[g.b]; break;
        case AND: lanes[g.c] = lanes[g.a] & lanes[g.b]; break;
        case INV: lanes[g.c] = ~lanes[g.a]; break;
        case EQW: lanes[g.c] = lanes[g.a]; break;
        default: lanes[g.c] = g.a == 1 ? UINT64_MAX : 0; break;
        }
    }
}

static uint64_t *lanes[4], *settings;

/* The wires in sixty-four settings under each of the four mask settings. */
static void evaluate_masked(const struct net *n, const uint8_t *codes)
{
    unsigned bits = n->inputs - 2;
    for (unsigned m = 0; m < 4; m++) {
        const uint64_t m0 = m & 1 ? UINT64_MAX : 0, m1 = m & 2 ? UINT64_MAX : 0, mask[4] = {0, m0, m1, m0 ^ m1};
        for (unsigned i = 0; i < bits; i++)
            lanes[m][i] = settings[i] ^ mask[codes[i]];
        lanes[m][bits] = m0;
        lanes[m][bits + 1] = m1;
        evaluate(n, lanes[m]);
    }
}

static unsigned count_of(unsigned wire, unsigned setting)
{
    unsigned count = 0;
    for (unsigned m = 0; m < 4; m++)
        count += lanes[m][wire] >> setting & 1;
    return count;
}

/* Whether a wire's count is not the same in all sixty-four settings: the number's digits differ somewhere. */
static bool uneven(unsigned wire)
{
    uint64_t a = lanes[0][wire], b = lanes[1][wire], c = lanes[2][wire], d = lanes[3][wire];
    uint64_t x = a ^ b, y = c ^ d, s = a & b, t = c & d;
    uint64_t one = x ^ y, two = s ^ t ^ (x & y), four = s & t;
    return (one != 0 && one != UINT64_MAX) || (two != 0 && two != UINT64_MAX) || (four != 0 && four != UINT64_MAX);
}

/* The lowest wire below a bound that some of the settings tried shows to leak, or the bound. Public bits are the same in all
 * settings of a pass. Up to twelve bits with no public one all settings are tried. */
static unsigned leaking(const struct net *n, const uint8_t *codes, unsigned bound, unsigned passes)
{
    static const uint64_t within[6] = {0xaaaaaaaaaaaaaaaaU, 0xccccccccccccccccU, 0xf0f0f0f0f0f0f0f0U,
                                       0xff00ff00ff00ff00U, 0xffff0000ffff0000U, 0xffffffff00000000U};
    unsigned bits = n->inputs - 2, lowest = bound;
    bool exact = bits <= 12 && memchr(codes, 0, bits) == NULL;
    uint8_t *first = room_for(bound, 1);
    for (unsigned pass = 0; pass < (exact ? bits > 6 ? 1U << (bits - 6) : 1 : passes); pass++) {
        for (unsigned i = 0; i < bits; i++) {
            if (exact)
                settings[i] = i < 6 ? within[i] : pass >> (i - 6) & 1 ? UINT64_MAX : 0;
            else
                settings[i] = codes[i] == 0 ? (drawn() >> 32 & 1 ? UINT64_MAX : 0) : drawn();
        }
        evaluate_masked(n, codes);
        for (unsigned wire = 0; wire < lowest; wire++) {
            unsigned count = count_of(wire, 0);
            if (uneven(wire) || (exact && pass > 0 && count != first[wire]))
                lowest = wire;
            first[wire] = (uint8_t)count;
        }
    }
    free(first);
    return lowest;
}

/* Both netlists put out the same on random inputs, mask bits included. */
static bool equal(const struct net *a, const struct net *b)
{
    for (int pass = 0; pass < 16; pass++) {
        for (unsigned i = 0; i < a->inputs; i++)
            lanes[0][i] = lanes[1][i] = drawn();
        evaluate(a, lanes[0]);
        evaluate(b, lanes[1]);
        if (memcmp(lanes[0] + a->wires - a->outputs, lanes[1] + b->wires - b->outputs, a->outputs * sizeof **lanes) != 0)
            return false;
    }
    return true;
}

/* ---- the two steps */

static int mask(char **argv)
{
    char *source = read_file(argv[0]);
    struct net open = read_net(source);
    uint8_t *codes = room_for(open.inputs, 1), *wanted = room_for(open.outputs, 1), *out = room_for(ROOM + 1, 1);
    unsigned long long start = strtoull(argv[1], NULL, 10);
    seed = start + 1;
    for (unsigned i = 0; i < open.inputs; i++)
        codes[i] = start == 0 ? 1 : (uint8_t)(1 + (drawn() >> 33) % 3);
    int64_t length = fidrovelj_mask((const uint8_t *)source, strlen(source), codes, open.inputs, wanted, open.outputs, out,
                                    ROOM, room_for(open.outputs, 1), open.outputs, room_for(SMALL, 8), SMALL,
                                    room_for(SMALL, 8), SMALL, room_for(SMALL, 4), SMALL, room_for(SMALL, 1), SMALL,
                                    FIDROVELJ_WHOLE);
    if (length < 0)
        die("cannot be masked", argv[0]);
    FILE *file = new_file(argv[2]);
    fwrite(out, 1, (size_t)length, file);
    fclose(file);
    file = new_file(argv[3]);
    for (unsigned i = 0; i < open.inputs; i++)
        fputc('0' + codes[i], file);
    fclose(file);
    struct net masked = read_net((char *)out);
    write_blif(&masked, argv[4]);
    write_verilog(&masked, argv[5]);
    return EXIT_SUCCESS;
}

/* The library's answer on a text of so many wires, its numbers, and how many milliseconds it took. */
static int64_t certify(const char *text, unsigned wires, const uint8_t *codes, size_t bits, uint64_t *leak, uint64_t *ones,
                       double *milliseconds)
{
    size_t size = strlen(text);
    bool old = wires <= FIDROVELJ_LARGE_TABLE && size <= FIDROVELJ_LARGE_TEXT;
    size_t table = old ? FIDROVELJ_LARGE_TABLE : FIDROVELJ_WHOLE_LARGE_TABLE;
    uint64_t *operands = room_for(table, 8), *results = room_for(table, 8), *words = room_for(table, 8);
    uint64_t *base = room_for(table, 8), *records = room_for(table, 15 * 8);
    uint8_t *marks = room_for(table, 1);
    clock_t start = clock();
    int64_t answer = fidrovelj_certify((const uint8_t *)text, size, codes, bits, leak, 4, ones, bits, operands, table, results,
                                       table, marks, table, words, table, base, table, records, 15 * table,
                                       old ? FIDROVELJ_OLD : FIDROVELJ_WHOLE);
    *milliseconds = (double)(clock() - start) * 1e3 / CLOCKS_PER_SEC;
    return answer;
}

/* A told leak is one: the counts are the wire's in the setting and in the one with its public bits and zero secrets. */
static bool leaks(const struct net *n, const uint8_t *codes, const uint64_t *leak, const uint64_t *ones)
{
    unsigned bits = n->inputs - 2;
    memset(settings, 0, n->inputs * sizeof *settings);
    for (uint64_t i = 0; i < leak[1]; i++) {
        if (ones[i] >= bits || (i > 0 && ones[i] <= ones[i - 1]))
            return false;
        settings[ones[i]] = codes[ones[i]] == 0 ? UINT64_MAX : UINT64_MAX - 1;
    }
    evaluate_masked(n, codes);
    unsigned base = count_of((unsigned)leak[0], 0), own = count_of((unsigned)leak[0], 1);
    return leak[0] < n->wires && base == leak[2] && own == leak[3] && base != own;
}

static int judge(char **argv)
{
    struct net masked = read_net(read_file(argv[0]));
    uint8_t *codes = (uint8_t *)read_file(argv[1]);
    unsigned bits = masked.inputs - 2;
    for (unsigned i = 0; i < bits; i++)
        codes[i] = (uint8_t)(codes[i] - '0');
    struct net result = read_blif(read_file(argv[2]), &masked);
    settings = room_for(masked.inputs, sizeof *settings);
    for (int m = 0; m < 4; m++)
        lanes[m] = room_for(masked.wires > result.wires ? masked.wires : result.wires, sizeof **lanes);
    if (!equal(&masked, &result))
        die("does not compute what the masked netlist computes", argv[2]);

    static const char *const verdicts[] = {"clean", "leak", "unknown"};
    uint64_t leak[4] = {0, 0, 0, 0}, *ones = room_for(bits + 1, sizeof *ones);
    double milliseconds;
    int64_t answer = certify(write_net(&result), result.wires, codes, bits, leak, ones, &milliseconds);
    if (answer < 0 || answer > 2)
        die("is refused", argv[2]);
    if (answer == 1 && !leaks(&result, codes, leak, ones))
        die("a told leak is none", argv[2]);
    unsigned bound = answer == 0 ? result.wires : (unsigned)leak[0], lowest = leaking(&result, codes, bound, 64);
    if (answer != 1 && lowest < bound)
        die("a wire leaks that is said to be clean", argv[2]);
    printf("%s %u wires, %.1f ms", verdicts[answer], result.wires, milliseconds);
    if (answer != 0)
        printf(", wire %u", (unsigned)leak[0]);
    printf("\n");
    return EXIT_SUCCESS;
}

int main(int argc, char **argv)
{
    if (argc == 8 && strcmp(argv[1], "mask") == 0)
        return mask(argv + 2);
    if (argc == 5 && strcmp(argv[1], "judge") == 0)
        return judge(argv + 2);
    fprintf(stderr, "usage: optimised mask SOURCE SEED NETLIST CODES BLIF VERILOG | optimised judge NETLIST CODES BLIF\n");
    return EXIT_FAILURE;
}
