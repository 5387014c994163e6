/* The library from C: the version, the words of refusals, shapes, refused places, the gate reader, and calls with one
 * block of words for their tables. Prints a line with the number of checks, or the checks that failed. */
#include "fidrovelj.h"

#include <stdbool.h>
#include <stdio.h>
#include <stdlib.h>
#include <string.h>

#define LARGE FIDROVELJ_LARGE_TABLE
#define PATTERN 0xA5
#define TEXT(text) (const uint8_t *)(text), strlen(text)

static int checks, failures;

static void expect(bool good, const char *what)
{
    checks++;
    if (!good) {
        failures++;
        printf("failed: %s\n", what);
    }
}

static bool all(const void *bytes, size_t length, uint8_t value)
{
    const uint8_t *p = bytes;
    for (size_t i = 0; i < length; i++) {
        if (p[i] != value)
            return false;
    }
    return true;
}

static const char and_gate[] = "1 3\n2 1 1\n1 1\n2 1 0 1 2 AND\n";
static const char wide_and[] = "1 4\n2 1 2\n1 1\n2 1 0 1 3 AND\n";

/* ---- the version and the words */

static void version(void)
{
    char text[32];
    snprintf(text, sizeof text, "%d.%d.%d", FIDROVELJ_VERSION_MAJOR, FIDROVELJ_VERSION_MINOR, FIDROVELJ_VERSION_PATCH);
    expect(strcmp(text, FIDROVELJ_VERSION) == 0, "the version's text has its numbers");
    expect(fidrovelj_version()
               == FIDROVELJ_VERSION_MAJOR * 10000 + FIDROVELJ_VERSION_MINOR * 100 + FIDROVELJ_VERSION_PATCH,
           "the library has the header's version");
}

static void refusals(void)
{
    static const char seven[] = "the line is none of the five gates";
    uint8_t buffer[FIDROVELJ_REFUSAL_BYTES];
    for (int question = 0; question < 256; question++) {
        int64_t count = fidrovelj_refusal((uint8_t)question, buffer, sizeof buffer);
        bool known = question >= 1 && question <= 25;
        expect(known ? count > 0 && count <= FIDROVELJ_REFUSAL_BYTES : count == 0, "words of the questions alone");
    }
    memset(buffer, PATTERN, sizeof buffer);
    expect(fidrovelj_refusal(7, buffer, strlen(seven) - 1) == (int64_t)strlen(seven), "the length is told");
    expect(all(buffer, sizeof buffer, PATTERN), "a buffer that is too short stays as it was");
    expect(fidrovelj_refusal(7, buffer, strlen(seven)) == (int64_t)strlen(seven), "an exact fit");
    expect(memcmp(buffer, seven, strlen(seven)) == 0, "the words of 7");
    expect(all(buffer + strlen(seven), sizeof buffer - strlen(seven), PATTERN), "the words alone are written");
}

/* ---- shapes and places */

static uint64_t operands[LARGE], results[LARGE];
static uint8_t marks[LARGE];

static void shapes(void)
{
    memset(operands, PATTERN, sizeof operands);
    memset(results, PATTERN, sizeof results);
    memset(marks, PATTERN, sizeof marks);
    fidrovelj_shape_answer a = fidrovelj_shape(TEXT("1 6\n2 1 4\n3 1 1 1\n2 1 0 1 5 AND\n"), operands, LARGE, results,
                                               LARGE, marks, LARGE, FIDROVELJ_OLD);
    expect(a.refused == 0 && a.input_values == 2 && a.output_values == 3 && a.input_bits == 5 && a.output_bits == 3
               && a.wires == 6 && a.gates == 1,
           "a shape");
    expect(all(operands, sizeof operands, 0) && all(results, sizeof results, 0) && all(marks, sizeof marks, 0),
           "the tables of a shape are zero");
    a = fidrovelj_shape(TEXT("1 3\n2 1 1\n1 1\n2 1 0 3 2 AND\n"), operands, LARGE, results, LARGE, marks, LARGE,
                        FIDROVELJ_OLD);
    expect(a.refused == 8 && a.input_values == 0 && a.wires == 0 && a.gates == 0, "a shape refused by 8");
    a = fidrovelj_shape(TEXT(and_gate), operands, LARGE - 1, results, LARGE, marks, LARGE, FIDROVELJ_OLD);
    expect(a.refused == 1, "a shape refused by 1");
}

static bool place_is(const char *text, uint8_t masked, uint8_t refused, size_t offset, size_t line, size_t column,
                     size_t entry, size_t word, uint64_t have, uint64_t most)
{
    memset(marks, PATTERN, sizeof marks);
    fidrovelj_place_answer a = fidrovelj_place(TEXT(text), marks, LARGE, masked, FIDROVELJ_OLD);
    return all(marks, sizeof marks, 0) && a.refused == refused && a.offset == offset && a.line == line
           && a.column == column && a.entry == entry && a.word == word && a.have == have && a.most == most;
}

static void places(void)
{
    static char long_text[60002];
    memset(long_text, ' ', 60001);
    expect(place_is(and_gate, 0, 0, 0, 0, 0, 0, 0, 0, 0), "no place in a netlist");
    expect(place_is(long_text, 0, 2, 60000, 1, 60001, 0, 0, 60001, 60000), "the place of 2");
    expect(place_is("1 3\n2 1 1\n1 1\n2 1 0 1 2 and\n", 0, 3, 24, 4, 11, 0, 0, 0, 0), "the place of 3");
    expect(place_is("1 3\r\n2 1 1\r\n1 1\r", 0, 3, 15, 3, 4, 0, 0, 0, 0), "the place of a CR alone");
    expect(place_is("1 3\n2 1 0\n1 1\n", 0, 4, 4, 2, 1, 1, 0, 0, 0), "the place of 4");
    expect(place_is("1 3\n\n  2 1 0\n1 1\n", 0, 4, 7, 3, 3, 1, 0, 0, 0), "the place of 4 after a blank line");
    expect(place_is("1 3\n2 1 1\n", 0, 4, 10, 3, 1, 2, 0, 0, 0), "the place of a header line that is not there");
    expect(place_is("1 2049\n1 2048\n1 1\n2 1 0 1 2048 AND\n", 0, 5, 2, 1, 3, 0, 1, 2049, 2048), "the place of 5, W");
    expect(place_is("1 2049\n1 2048\n1 1\n2 1 0 1 2048 AND\n", 1, 0, 0, 0, 0, 0, 0, 0, 0), "within the masked limits");
    expect(place_is("0 1\n1 2\n1 1\n", 0, 5, 6, 2, 3, 1, 1, 2, 1), "the place of 5, the input bits");
    expect(place_is("0 1\n1 1\n1 7\n", 0, 5, 10, 3, 3, 2, 1, 7, 1), "the place of 5, the output bits");
    expect(place_is("2 3\n2 1 1\n1 1\n2 1 0 1 2 AND\n", 0, 6, 0, 1, 1, 0, 0, 2, 1), "the place of 6, the gate count");
    expect(place_is("1 3\n2 1 1\n1 1\n", 0, 6, 0, 1, 1, 0, 0, 1, 0), "the place of 6, the lines");
    expect(place_is("1 3\n2 1 1\n1 1\n2 1 0 1 2 MAND\n", 0, 7, 14, 4, 1, 3, 0, 0, 0), "the place of 7");
    expect(place_is("2 4\n2 1 1\n1 1\n2 1 0 1 2 AND\n2 1 0 3 3 XOR\n", 0, 8, 34, 5, 7, 4, 3, 0, 0), "the place of 8");
    expect(place_is("1 2\n1 1\n1 1\n1 1 2 1 EQ\n", 0, 8, 16, 4, 5, 3, 2, 0, 0), "the place of 8, a constant");
    expect(place_is("2 4\n2 1 1\n1 1\n2 1 0 1 2 AND\n2 1 0 1  2 XOR\n", 0, 9, 37, 5, 10, 4, 4, 0, 0), "the place of 9");
    memset(marks, PATTERN, sizeof marks);
    fidrovelj_place_answer a = fidrovelj_place(TEXT(and_gate), marks, FIDROVELJ_SMALL_TABLE - 1, 0, FIDROVELJ_OLD);
    expect(a.refused == 1 && a.offset == 0 && all(marks, FIDROVELJ_SMALL_TABLE - 1, 0)
               && marks[FIDROVELJ_SMALL_TABLE - 1] == PATTERN,
           "a place refused by 1");
}

/* ---- the gate reader */

static void gates(void)
{
    static const char text[] = "3 6\n2 1 2\n1 1\n\n2 1 0 1 3 XOR\n 1 1 1 4 EQ\n1 1 4 5 NOT\n";
    uint32_t inputs[3] = {7, 7, 7}, outputs[2] = {7, 7};
    fidrovelj_open_answer opened = fidrovelj_gate_open(TEXT(text), inputs, 3, outputs, 2, FIDROVELJ_OLD);
    expect(opened.refused == 0 && opened.input_values == 2 && opened.output_values == 1 && opened.input_bits == 3
               && opened.output_bits == 1 && opened.wires == 6 && opened.gates == 3,
           "an opening");
    expect(inputs[0] == 1 && inputs[1] == 2 && inputs[2] == 7 && outputs[0] == 1 && outputs[1] == 7, "its widths");
    fidrovelj_next_answer next = fidrovelj_gate_next(TEXT(text), opened.at);
    expect(next.refused == 0 && next.gate.kind == FIDROVELJ_XOR && next.gate.first == 0 && next.gate.second == 1
               && next.gate.result == 3,
           "the first gate");
    next = fidrovelj_gate_next(TEXT(text), next.at);
    expect(next.refused == 0 && next.gate.kind == FIDROVELJ_EQ && next.gate.first == 1 && next.gate.second == 0
               && next.gate.result == 4,
           "the second gate");
    size_t at = next.at;
    next = fidrovelj_gate_next(TEXT(text), at);
    expect(next.refused == 7 && next.gate.kind == 0 && next.at == at, "a line that is no gate");
    next = fidrovelj_gate_next(TEXT(and_gate), strlen(and_gate));
    expect(next.refused == 0 && next.gate.kind == 0 && next.at == strlen(and_gate), "the end");
    opened = fidrovelj_gate_open(TEXT(text), inputs, 1, outputs, 2, FIDROVELJ_OLD);
    expect(opened.refused == 14 && opened.at == 0 && opened.gates == 0, "a list too short for the widths");
}

/* ---- blocks of words */

static uint8_t out[500000], codes_out[LARGE], in_codes[LARGE];
static uint64_t *block;
static size_t block_words;

/* A block of so many words and four more, full of rubbish. */
static void lend(size_t words)
{
    block_words = words;
    memset(block, PATTERN, (words + 4) * sizeof *block);
}

static void expect_cleared(const char *what)
{
    expect(all(block, block_words * sizeof *block, 0), what);
    expect(all(block + block_words, 4 * sizeof *block, PATTERN), "the words after those are not touched");
}

/* A call in a block of just enough words and in one of a word less. */
#define IN_BLOCK(service, call, expected, what)                        \
    do {                                                               \
        size_t need = fidrovelj_workspace_words(service, FIDROVELJ_OLD); \
        lend(need);                                                    \
        expect((call) == (expected), what);                            \
        expect_cleared(what);                                          \
        lend(need - 1);                                                \
        expect((call) == -1, what);                                    \
        expect_cleared(what);                                          \
    } while (0)

#define CODES(codes) (const uint8_t *)(codes), sizeof(codes) - 1
#define BLOCK block, block_words, FIDROVELJ_OLD

static const char masked_and[] =
    "11 15\n3 1 1 2\n1 1\n\n"
    "2 1 2 3 4 XOR\n2 1 2 3 5 AND\n2 1 4 5 6 XOR\n"
    "2 1 0 1 7 AND\n2 1 0 3 8 AND\n2 1 8 3 9 XOR\n2 1 7 9 10 XOR\n2 1 2 1 11 AND\n2 1 11 6 12 XOR\n2 1 10 12 13 XOR\n"
    "1 1 13 14 EQW\n";

static void services(void)
{
    static const char old[] = "1 3\n1 1 1\n\n2 1 0 1 2 AND\n";
    uint64_t leak[4], ones[12], bad[1], tally[2], words[2] = {3, 5}, word[1], counts[8];
    uint32_t twins[3];
    static const uint32_t pair[2] = {0, 3};
    IN_BLOCK(FIDROVELJ_SERVICE_REWRITE, fidrovelj_rewrite_in(TEXT(and_gate), out, sizeof out, BLOCK), 29, "Rewrite");
    IN_BLOCK(FIDROVELJ_SERVICE_FROM_OLD, fidrovelj_from_old_in(TEXT(old), out, sizeof out, BLOCK), 29, "from old");
    IN_BLOCK(FIDROVELJ_SERVICE_TO_OLD, fidrovelj_to_old_in(TEXT(and_gate), out, sizeof out, BLOCK), 25, "to old");
    IN_BLOCK(FIDROVELJ_SERVICE_RUN, fidrovelj_run_in(TEXT(and_gate), CODES("\1\1"), codes_out, 1, BLOCK), 1, "Run");
    expect(codes_out[0] == 1, "what Run gives");
    IN_BLOCK(FIDROVELJ_SERVICE_RUN64, fidrovelj_run64_in(TEXT(and_gate), words, 2, word, 1, BLOCK), 1, "Run64");
    expect(word[0] == 1, "what Run64 gives");
    IN_BLOCK(FIDROVELJ_SERVICE_MASK,
             fidrovelj_mask_in(TEXT(and_gate), CODES("\1\2"), CODES("\0"), out, sizeof out, codes_out, 1, BLOCK),
             (int64_t)strlen(masked_and), "Mask");
    expect(memcmp(out, masked_and, strlen(masked_and)) == 0, "what Mask writes");
    IN_BLOCK(FIDROVELJ_SERVICE_MASK_FEWEST,
             fidrovelj_mask_fewest_in(TEXT(and_gate), CODES("\1\2"), CODES("\0"), 1, out, sizeof out, in_codes, 2,
                                      codes_out, 1, tally, 2, BLOCK),
             (int64_t)strlen(masked_and), "Mask with fewest changes");
    IN_BLOCK(FIDROVELJ_SERVICE_TWINS,
             fidrovelj_twins_in(TEXT(and_gate), CODES("\1\2"), twins, 3, codes_out, 3, BLOCK), 3, "Twins");
    IN_BLOCK(FIDROVELJ_SERVICE_CHECK, fidrovelj_check_in(TEXT(wide_and), CODES("\1"), leak, 4, BLOCK), 1, "Check");
    expect(leak[0] == 3 && leak[1] == 1 && leak[2] == 2 && leak[3] == 0, "the leak that Check tells");
    IN_BLOCK(FIDROVELJ_SERVICE_CHECK_PAIRS,
             fidrovelj_check_pairs_in(TEXT(wide_and), CODES("\1"), pair, 2, leak, 4, bad, 1, BLOCK), 3, "pairs");
    IN_BLOCK(FIDROVELJ_SERVICE_CHECK_WIDE,
             fidrovelj_check_wide_in(TEXT(wide_and), CODES("\1"), pair, 2, leak, 4, ones, 12, bad, 1, BLOCK), 3,
             "Check of many inputs");
    IN_BLOCK(FIDROVELJ_SERVICE_CERTIFY, fidrovelj_certify_in(TEXT(wide_and), CODES("\1"), leak, 4, ones, 12, BLOCK), 1,
             "Certify");
    IN_BLOCK(FIDROVELJ_SERVICE_EXPLAIN_WIRES,
             fidrovelj_explain_wires_in(TEXT(wide_and), CODES("\1"), codes_out, 4, BLOCK), 4, "verdicts on wires");
    expect(codes_out[3] == 2 && codes_out[0] == 0, "the AND alone is a cause");
    IN_BLOCK(FIDROVELJ_SERVICE_POLYNOMIAL,
             fidrovelj_polynomial_in(TEXT(wide_and), CODES("\1"), 3, codes_out, 8, BLOCK), 8,
             "the polynomial of a wire");
    IN_BLOCK(FIDROVELJ_SERVICE_COUNTS, fidrovelj_counts_in(TEXT(wide_and), CODES("\1"), 3, counts, 8, BLOCK), 8,
             "the counts of a wire");
    IN_BLOCK(FIDROVELJ_SERVICE_FROM_AIGER,
             fidrovelj_from_aiger_in(TEXT("aag 3 2 0 1 1\n2\n4\n6\n6 2 4\n"), out, sizeof out, BLOCK),
             (int64_t)strlen("2 4\n1 2\n1 1\n\n2 1 0 1 2 AND\n1 1 2 3 EQW\n"), "AIGER files");
    IN_BLOCK(FIDROVELJ_SERVICE_JOIN,
             fidrovelj_join_in(TEXT(wide_and), TEXT(wide_and), CODES("\1"), CODES("\1"), CODES("\1"), out, sizeof out,
                               BLOCK),
             (int64_t)strlen("2 5\n2 1 2\n1 1\n\n2 1 0 1 3 AND\n2 1 3 1 4 AND\n"), "Join");
    IN_BLOCK(FIDROVELJ_SERVICE_FROM_VERILOG,
             fidrovelj_from_verilog_in(
                 TEXT("module m(a, b, c); input a, b; output c; assign c = a & b; endmodule\n"), out, sizeof out,
                 BLOCK),
             (int64_t)strlen("2 4\n1 2\n1 1\n\n2 1 0 1 2 AND\n1 1 2 3 EQW\n"), "equations");
}

static void sessions(void)
{
    static const uint32_t widths[2] = {1, 1}, outputs[1] = {1};
    static fidrovelj_source_gate source[4];
    static fidrovelj_gate masked[40];
    fidrovelj_step step = fidrovelj_session_open(widths, 2, CODES("\1\2"), masked, 40, FIDROVELJ_OLD);
    fidrovelj_gate gate = {FIDROVELJ_AND, 0, 1, 2};
    step = fidrovelj_session_add(step.session, gate, CODES("\1\2"), source, 4, masked, 40, FIDROVELJ_OLD);
    expect(step.refused == 0, "a gate is added");
    IN_BLOCK(FIDROVELJ_SERVICE_SESSION_TEXT,
             fidrovelj_session_text_in(step.session, widths, 2, outputs, 1, source, 4, out, sizeof out, BLOCK), 29,
             "a session's text");
    IN_BLOCK(FIDROVELJ_SERVICE_SESSION_MASKED,
             fidrovelj_session_masked_in(step.session, widths, 2, outputs, 1, source, 4, CODES("\1\2"), CODES("\0"),
                                         out, sizeof out, codes_out, 1, BLOCK),
             (int64_t)strlen(masked_and), "a session's masked text");
}

static void answers_by_value(void)
{
    size_t need = fidrovelj_workspace_words(FIDROVELJ_SERVICE_SHAPE, FIDROVELJ_OLD);
    lend(need);
    expect(fidrovelj_shape_in(TEXT(and_gate), BLOCK).wires == 3, "a shape in a block");
    expect_cleared("a shape's block");
    lend(need - 1);
    expect(fidrovelj_shape_in(TEXT(and_gate), BLOCK).refused == 1, "a shape in a short block");
    expect_cleared("a shape's short block");
    need = fidrovelj_workspace_words(FIDROVELJ_SERVICE_PLACE, FIDROVELJ_OLD);
    lend(need);
    expect(fidrovelj_place_in(TEXT("1 3\n"), block, block_words, 1, FIDROVELJ_OLD).refused == 4, "a place in a block");
    expect_cleared("a place's block");
    lend(need - 1);
    expect(fidrovelj_place_in(TEXT("1 3\n"), block, block_words, 1, FIDROVELJ_OLD).refused == 1,
           "a place in a short block");
    expect_cleared("a place's short block");
    expect(fidrovelj_workspace_words(0, FIDROVELJ_OLD) == 0 && fidrovelj_workspace_words(23, FIDROVELJ_OLD) == 0,
           "no words where no service has the number");
    expect(fidrovelj_workspace_words(FIDROVELJ_SERVICE_CHECK, FIDROVELJ_WHOLE) == 4 * 899999 + 112500,
           "the words of Check for whole ciphers");
}

int main(void)
{
    block = malloc((FIDROVELJ_LARGE_TABLE * 30 + 4) * sizeof *block);
    if (block == NULL)
        return 2;
    version();
    refusals();
    shapes();
    places();
    gates();
    services();
    sessions();
    answers_by_value();
    free(block);
    printf(failures == 0 ? "calls: %d checks hold\n" : "calls: of %d checks %d failed\n", checks, failures);
    return failures == 0 ? 0 : 1;
}
