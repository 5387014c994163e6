/* The library from C: the known results M1 to M12, refusals by every question, and what calls leave
 * in tables and buffers. Prints a line with the number of checks, or the checks that failed. */
#include "fidrovelj.h"

#include <stdbool.h>
#include <stdio.h>
#include <stdlib.h>
#include <string.h>

#define LARGE FIDROVELJ_LARGE_TABLE
#define ROOM 500002
#define PATTERN 0xA5

static uint64_t operands[LARGE], results[LARGE], words[LARGE], base[LARGE], words_out[LARGE], leak[4];
static uint32_t wires[LARGE];
static uint8_t given[LARGE], out[ROOM], list_out[LARGE], lent_list[LARGE];

static int checks, failures;

static void expect(bool good, const char *what)
{
    checks++;
    if (!good) {
        failures++;
        printf("failed: %s\n", what);
    }
}

/* ---- calls with tables full of rubbish and buffers with a pattern */

static void fill(void)
{
    memset(operands, PATTERN, sizeof operands);
    memset(results, PATTERN, sizeof results);
    memset(words, PATTERN, sizeof words);
    memset(base, PATTERN, sizeof base);
    memset(wires, PATTERN, sizeof wires);
    memset(given, PATTERN, sizeof given);
    memset(out, PATTERN, sizeof out);
    memset(list_out, PATTERN, sizeof list_out);
    memset(words_out, PATTERN, sizeof words_out);
    memset(leak, PATTERN, sizeof leak);
}

static bool all(const void *bytes, size_t length, uint8_t value)
{
    const uint8_t *p = bytes;
    for (size_t i = 0; i < length; i++) {
        if (p[i] != value)
            return false;
    }
    return true;
}

/* Beyond so many bytes of text and entries of the list the buffers are as they were. */
static void expect_untouched(size_t text, size_t list, const char *what)
{
    expect(all(out + text, sizeof out - text, PATTERN), what);
    expect(all(list_out + list, sizeof list_out - list, PATTERN), what);
}

static int64_t rewrite(const char *text, size_t room)
{
    fill();
    int64_t answer = fidrovelj_rewrite((const uint8_t *)text, strlen(text), out, room, operands, LARGE, results,
                                       LARGE, given, LARGE, FIDROVELJ_OLD);
    expect(all(operands, sizeof operands, 0) && all(results, sizeof results, 0) && all(given, sizeof given, 0),
           "Rewrite's tables are zero");
    expect_untouched(answer > 0 ? (size_t)answer : 0, 0, "Rewrite touches its result alone");
    return answer;
}

static int64_t converted(__typeof__(&fidrovelj_rewrite) call, const char *text, size_t room)
{
    fill();
    int64_t answer = call((const uint8_t *)text, strlen(text), out, room, operands, LARGE, results, LARGE, given, LARGE,
                          FIDROVELJ_OLD);
    expect(all(operands, sizeof operands, 0) && all(results, sizeof results, 0) && all(given, sizeof given, 0),
           "a conversion's tables are zero");
    expect_untouched(answer > 0 ? (size_t)answer : 0, 0, "a conversion touches its result alone");
    return answer;
}

static int64_t from_old(const char *text, size_t room) { return converted(fidrovelj_from_old, text, room); }
static int64_t to_old(const char *text, size_t room) { return converted(fidrovelj_to_old, text, room); }

/* A list is a string of digits. */
static const uint8_t *entries(const char *digits)
{
    for (size_t i = 0; digits[i] != '\0'; i++)
        lent_list[i] = (uint8_t)(digits[i] - '0');
    return lent_list;
}

static int64_t run(const char *text, const char *list, size_t room)
{
    fill();
    int64_t answer = fidrovelj_run((const uint8_t *)text, strlen(text), entries(list), strlen(list), list_out, room,
                                   operands, LARGE, results, LARGE, given, LARGE, words, LARGE, FIDROVELJ_OLD);
    expect(all(operands, sizeof operands, 0) && all(results, sizeof results, 0) && all(given, sizeof given, 0)
               && all(words, sizeof words, 0),
           "Run's tables are zero");
    expect_untouched(0, answer > 0 ? (size_t)answer : 0, "Run touches its result alone");
    return answer;
}

static int64_t run64(const char *text, const uint64_t *list, size_t length, size_t room)
{
    fill();
    int64_t answer = fidrovelj_run64((const uint8_t *)text, strlen(text), list, length, words_out, room, operands,
                                     LARGE, results, LARGE, given, LARGE, words, LARGE, FIDROVELJ_OLD);
    expect(all(operands, sizeof operands, 0) && all(results, sizeof results, 0) && all(given, sizeof given, 0)
               && all(words, sizeof words, 0),
           "Run64's tables are zero");
    size_t count = answer > 0 ? (size_t)answer : 0;
    expect(all(words_out + count, (LARGE - count) * sizeof *words_out, PATTERN), "Run64 touches its result alone");
    return answer;
}

static int64_t mask(const char *text, const char *codes, const char *wanted, size_t text_room, size_t code_room)
{
    uint8_t wanted_codes[64];
    fill();
    memcpy(wanted_codes, entries(wanted), strlen(wanted));
    int64_t answer = fidrovelj_mask((const uint8_t *)text, strlen(text), entries(codes), strlen(codes), wanted_codes,
                                    strlen(wanted), out, text_room, list_out, code_room, operands, LARGE, results,
                                    LARGE, wires, LARGE, given, LARGE, FIDROVELJ_OLD);
    expect(all(operands, sizeof operands, 0) && all(results, sizeof results, 0) && all(given, sizeof given, 0)
               && all(wires, sizeof wires, 0),
           "Mask's tables are zero");
    expect_untouched(answer > 0 ? (size_t)answer : 0, answer > 0 ? strlen(wanted) : 0, "Mask touches its results alone");
    return answer;
}

static int64_t twins(const char *text, const char *codes, size_t wire_room, size_t code_room)
{
    fill();
    int64_t answer = fidrovelj_twins((const uint8_t *)text, strlen(text), entries(codes), strlen(codes), wires, wire_room,
                                     list_out, code_room, operands, LARGE, results, LARGE, given, LARGE, FIDROVELJ_OLD);
    expect(all(operands, sizeof operands, 0) && all(results, sizeof results, 0) && all(given, sizeof given, 0),
           "Twins' tables are zero");
    size_t count = answer > 0 ? (size_t)answer : 0;
    expect_untouched(0, count, "Twins touches its codes alone");
    expect(all(wires + count, (LARGE - count) * sizeof *wires, PATTERN), "Twins touches its wires alone");
    return answer;
}

static int64_t check_into(const char *text, const char *codes, size_t room)
{
    fill();
    int64_t answer = fidrovelj_check((const uint8_t *)text, strlen(text), entries(codes), strlen(codes), leak, room,
                                     operands, LARGE, results, LARGE, given, LARGE, words, LARGE, base, LARGE,
                                     FIDROVELJ_OLD);
    expect(all(operands, sizeof operands, 0) && all(results, sizeof results, 0) && all(given, sizeof given, 0)
               && all(words, sizeof words, 0) && all(base, sizeof base, 0),
           "Check's tables are zero");
    if (answer != 1)
        expect(all(leak, sizeof leak, PATTERN), "Check writes four numbers on a leak alone");
    return answer;
}

static int64_t check(const char *text, const char *codes) { return check_into(text, codes, 4); }

static bool text_is(int64_t answer, const char *text)
{
    return answer == (int64_t)strlen(text) && memcmp(out, text, strlen(text)) == 0;
}

static bool leak_is(int64_t answer, uint64_t wire, uint64_t setting, uint64_t compared, uint64_t own)
{
    return answer == 1 && leak[0] == wire && leak[1] == setting && leak[2] == compared && leak[3] == own;
}

/* ---- the known results */

static const char and_gate[] = "1 3\n2 1 1\n1 1\n2 1 0 1 2 AND\n";
static const char xor_gate[] = "1 3\n2 1 1\n1 1\n2 1 0 1 2 XOR\n";
static const char one_wire[] = "0 1\n1 1\n1 1\n";

static const char masked_and[] =
    "11 15\n3 1 1 2\n1 1\n\n"
    "2 1 2 3 4 XOR\n2 1 2 3 5 AND\n2 1 4 5 6 XOR\n"
    "2 1 0 1 7 AND\n2 1 0 3 8 AND\n2 1 8 3 9 XOR\n2 1 7 9 10 XOR\n2 1 2 1 11 AND\n2 1 11 6 12 XOR\n2 1 10 12 13 XOR\n"
    "1 1 13 14 EQW\n";

static const char masked_xor[] =
    "6 10\n3 1 1 2\n1 1\n\n"
    "2 1 2 3 4 XOR\n2 1 2 3 5 AND\n2 1 4 5 6 XOR\n"
    "2 1 1 3 7 XOR\n2 1 0 7 8 XOR\n2 1 8 2 9 XOR\n";

static const char masked_wire[] =
    "4 7\n2 1 2\n1 1\n\n"
    "2 1 1 2 3 XOR\n2 1 1 2 4 AND\n2 1 3 4 5 XOR\n"
    "1 1 0 6 EQW\n";

/* M4: how many of the four mask settings make each of the seven steps one, by Run: all wires of M1's
 * masked netlist are put out. */
static void seven_steps(void)
{
    static const int expected[7] = {1, 1, 1, 2, 1, 2, 2};
    char text[sizeof masked_and + 8];
    const char *gates = strchr(strstr(masked_and, "\n\n"), '2');
    snprintf(text, sizeof text, "11 15\n3 1 1 2\n1 15\n\n%s", gates);
    for (int setting = 0; setting < 4; setting++) {
        int count[7] = {0};
        for (int masks = 0; masks < 4; masks++) {
            int m0 = masks & 1, m1 = masks >> 1;
            char list[5];
            snprintf(list, sizeof list, "%d%d%d%d", (setting & 1) ^ m0, (setting >> 1) ^ m1, m0, m1);
            expect(run(text, list, LARGE) == 15, "M1's masked netlist with all wires put out");
            for (int step = 0; step < 7; step++)
                count[step] += list_out[7 + step];
        }
        expect(memcmp(count, expected, sizeof expected) == 0, "M4");
    }
}

/* A text of one AND gate and so many wires. */
static const char *one_gate(int wire_count)
{
    static char text[100];
    snprintf(text, sizeof text, "1 %d\n1 %d\n1 1\n2 1 0 1 %d AND\n", wire_count, wire_count - 1, wire_count - 1);
    return text;
}

/* So many digits 1. */
static const char *ones(size_t count)
{
    static char digits[LARGE + 2];
    memset(digits, '1', count);
    digits[count] = '\0';
    return digits;
}

static void known_results(void)
{
    expect(text_is(mask(and_gate, "12", "0", ROOM, LARGE), masked_and) && list_out[0] == 1, "M1");
    expect(text_is(mask(xor_gate, "11", "3", ROOM, LARGE), masked_xor) && list_out[0] == 3, "M2");
    expect(text_is(mask(one_wire, "2", "0", ROOM, LARGE), masked_wire) && list_out[0] == 2, "M3");
    seven_steps();
    expect(leak_is(check("1 4\n2 1 2\n1 1\n2 1 0 1 3 XOR\n", "1"), 3, 1, 0, 4), "M5");
    expect(check("1 4\n2 1 2\n1 1\n2 1 0 1 3 XOR\n", "2") == 0, "M6");
    expect(leak_is(check("1 4\n2 1 2\n1 1\n2 1 0 1 3 AND\n", "1"), 3, 1, 2, 0), "M7");
    expect(rewrite("", ROOM) == -4 && run("", "", LARGE) == -4, "M8, Rewrite and Run");
    expect(mask("", "", "", ROOM, LARGE) == -4 && check("", "") == -4, "M8, Mask and Check");
    expect(mask("1 3\n2 1 1\n1 1\n2 1 0 1 2 MAND\n", "12", "0", ROOM, LARGE) == -7, "M9");
    expect(mask(one_gate(2048), ones(2047), "0", ROOM, LARGE) > 0, "M10, 2,048 wires");
    expect(mask(one_gate(2049), ones(2048), "0", ROOM, LARGE) == -5, "M10, 2,049 wires");
    expect(run(one_gate(18431), ones(18430), LARGE) == 1, "M10, 18,431 wires");
    expect(run(one_gate(18432), ones(18431), LARGE) == -5, "M10, 18,432 wires");
    expect(check("0 15\n2 13 2\n1 1\n", ones(13)) == -12, "M11, thirteen bits");
    expect(check("0 14\n2 12 2\n1 1\n", ones(12)) == 0, "M11, twelve bits");
    expect(mask(and_gate, "12", "0", strlen(masked_and) - 1, LARGE) == -14, "M12");
    expect(text_is(mask(and_gate, "12", "0", strlen(masked_and), 1), masked_and), "M12, an exact fit");
}

/* ---- refusals, and the other services' results */

static void refusals(void)
{
    static char long_text[500003];
    fill();
    expect(fidrovelj_rewrite((const uint8_t *)and_gate, strlen(and_gate), out, ROOM, operands, LARGE, results,
                             LARGE - 1, given, LARGE, FIDROVELJ_OLD) == -1,
           "question 1");
    expect(all(operands, sizeof operands, 0) && all(results, sizeof results - 8, 0) && all(given, sizeof given, 0),
           "tables are zero after refusal 1");
    expect(all(&results[LARGE - 1], 8, PATTERN), "an entry that is not lent is not touched");

    memset(long_text, ' ', sizeof long_text);
    memcpy(long_text, and_gate, strlen(and_gate));
    long_text[500001] = '\0';
    expect(rewrite(long_text, ROOM) == -2, "question 2, large");
    long_text[500000] = '\0';
    expect(rewrite(long_text, ROOM) == (int64_t)strlen(and_gate) + 1, "500,000 bytes");
    long_text[60001] = '\0';
    expect(mask(long_text, "12", "0", ROOM, LARGE) == -2, "question 2, small");

    expect(rewrite("1\t3\n2 1 1\n1 1\n2 1 0 1 2 AND\n", ROOM) == -3, "question 3");
    expect(rewrite("1 3\n2 1 1\n1 1\n2 1 0 1 2 AND\r", ROOM) == -3, "a CR as the last byte");
    expect(rewrite("1 3\n2 1 1\n1 1\r\r\n2 1 0 1 2 AND\n", ROOM) == -3, "CR CR LF");
    expect(rewrite("1 3\n2 1 1\n1 1\n2 1 0\r1 2 AND\n", ROOM) == -3, "a CR between words");
    expect(mask("1 3\n2 1 1\n1 1\n2 1 0 1 2 A\rND\n", "12", "0", ROOM, LARGE) == -3, "a CR in a word");
    expect(rewrite("1 3\n2 1 0\n1 1\n2 1 0 1 2 AND\n", ROOM) == -4, "question 4");
    expect(rewrite("0 1\n2 65535 2\n1 1\n", ROOM) == -5, "question 5");
    expect(rewrite("1 3\n2 1 1\n1 1\n2 1 0 1 2 AND\nX\n", ROOM) == -6, "question 6");
    expect(rewrite("1 3\n2 1 1\n1 1\n2 1 0 1 2 ANDX\n", ROOM) == -7, "question 7");
    expect(rewrite("1 3\n2 1 1\n1 1\n2 1 0 2 2 AND\n", ROOM) == -8, "question 8");
    expect(rewrite("1 3\n2 1 1\n1 1\n2 1 0 1 1 AND\n", ROOM) == -9, "question 9");
    expect(check("0 3\n2 2 1\n1 1\n", "1") == -10, "question 10");
    for (size_t room = 0; room < 4; room++) {
        expect(check_into("1 4\n2 1 2\n1 1\n2 1 0 1 3 XOR\n", "1", room) == -14, "question 14, a short list for a leak");
        expect(check_into("1 4\n2 1 2\n1 1\n2 1 0 1 3 XOR\n", "2", room) == 0, "question 14, nothing to tell");
        expect(check_into("0 15\n2 13 2\n1 1\n", ones(13), room) == -12, "question 12 comes before 14");
    }
    expect(run(and_gate, "12", LARGE) == -11, "question 11, Run");
    expect(mask(and_gate, "14", "0", ROOM, LARGE) == -11, "question 11, Mask");
    expect(mask(and_gate, "12", "4", ROOM, LARGE) == -13, "question 13");
    expect(mask(and_gate, "12", "0", ROOM, 0) == -14, "question 14, the codes");
    expect(run(and_gate, "11", 0) == -14, "question 14, the bits");
}

static void line_ends(void)
{
    static const char crlf[] = "1 3\r\n2 1 1\r\n1 1\r\n \r\n2 1 0 1 2 AND\r\n";
    expect(text_is(rewrite(crlf, ROOM), "1 3\n2 1 1\n1 1\n\n2 1 0 1 2 AND\n"), "CR LF, Rewrite");
    expect(text_is(mask(crlf, "12", "0", ROOM, LARGE), masked_and) && list_out[0] == 1, "CR LF, Mask");
    expect(run(crlf, "11", 1) == 1 && list_out[0] == 1, "CR LF, Run");
    expect(leak_is(check("1 4\r\n2 1 2\r\n1 1\n2 1 0 1 3 XOR\r\n", "1"), 3, 1, 0, 4), "CR LF and LF, Check");
}

static void results_of_others(void)
{
    expect(text_is(rewrite(" 1  3\n\n2 1 1\n1 1\n2 1 0 1 2 AND", ROOM), "1 3\n2 1 1\n1 1\n\n2 1 0 1 2 AND\n"), "Rewrite");
    expect(run(and_gate, "11", 1) == 1 && list_out[0] == 1, "Run, 1 and 1");
    expect(run(and_gate, "10", 1) == 1 && list_out[0] == 0, "Run, 1 and 0");
    expect(check(masked_and, "12") == 0, "a masked AND is clean");
    expect(check(masked_and, "11") == 1, "under other codes it leaks");
}

static const char masked_public[] =
    "12 16\n3 1 1 2\n1 1\n\n"
    "2 1 2 3 4 XOR\n2 1 2 3 5 AND\n2 1 4 5 6 XOR\n2 1 0 2 7 XOR\n"
    "2 1 7 1 8 AND\n2 1 7 3 9 AND\n2 1 9 3 10 XOR\n2 1 8 10 11 XOR\n2 1 2 1 12 AND\n2 1 12 6 13 XOR\n2 1 11 13 14 XOR\n"
    "1 1 14 15 EQW\n";

static void public_bits(void)
{
    expect(text_is(mask(and_gate, "02", "0", ROOM, LARGE), masked_public) && list_out[0] == 1, "Mask, a public bit");
    expect(check(masked_public, "02") == 0, "it is clean");
    expect(check("1 4\n2 1 2\n1 1\n1 1 0 3 INV\n", "0") == 0, "Check, a public bit read openly");
    expect(leak_is(check("2 6\n2 2 2\n1 1\n2 1 0 1 4 AND\n2 1 4 2 5 XOR\n", "01"), 5, 3, 0, 4),
           "Check, a public bit mixed with a secret");
}

/* ---- source wires and their twins */

/* The source wires 0 to 3 stand on these wires of the masked netlist, with these codes. */
static bool twins_are(int64_t answer, const uint32_t *expected, const uint8_t *codes)
{
    return answer == 4 && memcmp(wires, expected, 4 * sizeof *expected) == 0 && memcmp(list_out, codes, 4) == 0;
}

static void source_wires(void)
{
    static const char source[] = "2 4\n2 1 1\n1 1\n2 1 0 1 3 AND\n2 1 3 0 2 XOR\n";
    expect(twins_are(twins(source, "12", 4, 4), (const uint32_t[]){0, 1, 15, 13}, (const uint8_t[]){1, 2, 2, 1}), "twins");
    expect(twins_are(twins(source, "11", LARGE, LARGE), (const uint32_t[]){0, 1, 16, 14}, (const uint8_t[]){1, 1, 2, 1}),
           "twins behind mask changes");
    expect(twins_are(twins(source, "02", 4, LARGE), (const uint32_t[]){7, 1, 16, 14}, (const uint8_t[]){1, 2, 2, 1}),
           "the twin of a public bit");
    expect(twins(source, "1", 4, 4) == -11 && twins(source, "14", 4, 4) == -11, "twins: 11");
    expect(twins(source, "12", 3, 4) == -14 && twins(source, "12", 4, 3) == -14, "twins: 14");
    expect(twins("", "12", 4, 4) == -4 && twins("1 3\n2 1 1\n1 1\n2 1 0 1 1 AND\n", "12", 4, 4) == -9, "twins: 4 and 9");
}

/* ---- fewer mask changes */

static uint64_t tally[3];
static uint8_t in_codes[LARGE], ways[LARGE], chosen[LARGE];

/* A call with a budget and buffers of these lengths. */
static int64_t mask_fewest(const char *text, const char *codes, const char *wanted, uint64_t budget, size_t text_room,
                           size_t in_room, size_t out_room, size_t tally_room)
{
    uint8_t wanted_codes[64];
    fill();
    memset(tally, PATTERN, sizeof tally);
    memset(in_codes, PATTERN, sizeof in_codes);
    memset(ways, PATTERN, sizeof ways);
    memset(chosen, PATTERN, sizeof chosen);
    memcpy(wanted_codes, entries(wanted), strlen(wanted));
    int64_t answer = fidrovelj_mask_fewest((const uint8_t *)text, strlen(text), entries(codes), strlen(codes),
                                           wanted_codes, strlen(wanted), budget, out, text_room, in_codes, in_room,
                                           list_out, out_room, tally, tally_room, operands, LARGE, results, LARGE, wires,
                                           LARGE, given, LARGE, ways, LARGE, chosen, LARGE, words, LARGE, FIDROVELJ_OLD);
    expect(all(operands, sizeof operands, 0) && all(results, sizeof results, 0) && all(wires, sizeof wires, 0)
               && all(given, sizeof given, 0) && all(ways, sizeof ways, 0) && all(chosen, sizeof chosen, 0)
               && all(words, sizeof words, 0),
           "fewer changes: the tables are zero");
    size_t bits = answer < 0 ? 0 : strlen(codes), count = answer < 0 ? 0 : 2;
    expect_untouched(answer > 0 ? (size_t)answer : 0, answer < 0 ? 0 : strlen(wanted), "fewer changes: text and codes alone");
    expect(all(in_codes + bits, sizeof in_codes - bits, PATTERN) && all(tally + count, sizeof tally - count * 8, PATTERN),
           "fewer changes: input codes and tally alone");
    return answer;
}

/* An accepted call's input codes, changes and floor; its text is what Mask writes of another source with these codes. */
static bool fewest_is(int64_t answer, const char *codes, uint64_t changes, uint64_t floor, const char *source,
                      const char *wanted)
{
    static uint8_t text[ROOM];
    bool good = answer > 0 && memcmp(in_codes, entries(codes), strlen(codes)) == 0 && tally[0] == changes
        && tally[1] == floor;
    uint8_t own = list_out[0];
    memcpy(text, out, sizeof text);
    return good && mask(source, codes, wanted, ROOM, LARGE) == answer && memcmp(text, out, (size_t)answer) == 0
        && list_out[0] == own;
}

static void fewer_changes(void)
{
    /* Wire 3 is a AND b, wire 4 is wire 3 XOR c; the same with the AND's operands swapped. */
    static const char source[] = "2 5\n1 3\n1 1\n2 1 0 1 3 AND\n2 1 3 2 4 XOR\n";
    static const char swapped[] = "2 5\n1 3\n1 1\n2 1 1 0 3 AND\n2 1 3 2 4 XOR\n";
    static const char square[] = "1 2\n1 1\n1 1\n2 1 0 0 1 AND\n";
    static const char and_swapped[] = "1 3\n2 1 1\n1 1\n2 1 1 0 2 AND\n";
    expect(fewest_is(mask_fewest(source, "444", "0", 1, ROOM, LARGE, LARGE, 2), "111", 2, 0, source, "0"), "a budget of 1");
    expect(fewest_is(mask_fewest(source, "444", "0", 6, ROOM, LARGE, LARGE, 2), "112", 1, 0, source, "0"), "a budget of 6");
    expect(fewest_is(mask_fewest(source, "444", "0", UINT64_MAX, ROOM, LARGE, LARGE, 2), "121", 0, 0, swapped, "0"),
           "the largest budget");
    expect(fewest_is(mask_fewest(and_gate, "41", "0", 5, ROOM, LARGE, LARGE, 2), "21", 0, 0, and_gate, "0"), "the first of two");
    expect(fewest_is(mask_fewest(and_gate, "13", "3", 2, ROOM, LARGE, LARGE, 2), "13", 0, 0, and_swapped, "3"), "a wanted code");
    expect(fewest_is(mask_fewest(and_gate, "13", "2", 2, ROOM, LARGE, LARGE, 2), "13", 1, 1, and_gate, "2"), "all tried");
    expect(fewest_is(mask_fewest(and_gate, "13", "2", 1, ROOM, LARGE, LARGE, 2), "13", 1, 0, and_gate, "2"), "one of two tried");
    expect(fewest_is(mask_fewest(square, "4", "0", 1, ROOM, LARGE, LARGE, 2), "1", 1, 1, square, "0"), "one wire twice");
    expect(fewest_is(mask_fewest(and_gate, "00", "0", 9, ROOM, LARGE, LARGE, 2), "00", 1, 1, and_gate, "0"), "public bits");

    expect(mask_fewest(and_gate, "45", "4", 0, 0, 0, 0, 0) == -11, "fewer changes: 11, a code of 5");
    expect(mask_fewest(and_gate, "4", "0", 1, ROOM, LARGE, LARGE, 2) == -11, "fewer changes: 11, a code too few");
    expect(mask_fewest(and_gate, "44", "4", 0, 0, 0, 0, 0) == -13, "fewer changes: 13");
    expect(mask_fewest(and_gate, "44", "0", 0, 0, 0, 0, 0) == -22, "fewer changes: 22");
    int64_t size = mask_fewest(and_gate, "44", "0", 9, ROOM, LARGE, LARGE, 3);
    expect(mask_fewest(and_gate, "44", "0", 9, (size_t)size, 2, 1, 2) == size, "fewer changes: an exact fit");
    expect(mask_fewest(and_gate, "44", "0", 9, (size_t)size - 1, 2, 1, 2) == -14, "fewer changes: 14, the text");
    expect(mask_fewest(and_gate, "44", "0", 9, (size_t)size, 1, 1, 2) == -14, "fewer changes: 14, the input codes");
    expect(mask_fewest(and_gate, "44", "0", 9, (size_t)size, 2, 0, 2) == -14, "fewer changes: 14, the output codes");
    expect(mask_fewest(and_gate, "44", "0", 9, (size_t)size, 2, 1, 1) == -14, "fewer changes: 14, changes and floor");
    expect(mask(and_gate, "44", "0", ROOM, LARGE) == -11, "code 4 is not Mask's");
}

/* ---- joined blocks */

/* M3's masked wire joined with a second text. */
static int64_t join(const char *second, const char *codes, const char *ends, const char *inner)
{
    fill();
    int64_t answer = fidrovelj_join((const uint8_t *)masked_wire, strlen(masked_wire), (const uint8_t *)second,
                                    strlen(second), (const uint8_t *)codes, strlen(codes), (const uint8_t *)ends,
                                    strlen(ends), (const uint8_t *)inner, strlen(inner), out, sizeof out, operands, LARGE,
                                    results, LARGE, given, LARGE, words, LARGE, base, LARGE, FIDROVELJ_OLD);
    expect(all(operands, sizeof operands, 0) && all(results, sizeof results, 0) && all(given, sizeof given, 0)
               && all(words, sizeof words, 0) && all(base, sizeof base, 0),
           "Join's tables are zero");
    expect_untouched(answer > 0 ? (size_t)answer : 0, 0, "Join writes its text alone");
    return answer;
}

static void joined_blocks(void)
{
    expect(text_is(join(masked_wire, "\2", "\2", "\2"),
                   "8 11\n2 1 2\n1 1\n\n"
                   "2 1 1 2 3 XOR\n2 1 1 2 4 AND\n2 1 3 4 5 XOR\n1 1 0 6 EQW\n"
                   "2 1 1 2 7 XOR\n2 1 1 2 8 AND\n2 1 7 8 9 XOR\n1 1 6 10 EQW\n"),
           "a masked wire joined with itself");
    expect(join(masked_wire, "\2", "\2", "\3") == -25, "Join, other codes");
    expect(join(masked_wire, "\2", "\2\2", "\2") == -25, "Join, a code too many");
    expect(join("0 3\n2 1 2\n1 1\n", "\2", "\2", "\2") == -25, "Join, fewer gates than output bits");
    expect(join(masked_wire, "\4", "\2", "\2") == -11, "Join, an input code of 4");
    expect(join(one_wire, "\2", "\2", "\3") == -10, "Join, a second without a mask pair");
}

/* ---- sessions */

#define PLACES 4
#define ROOM_MASKED 20

static fidrovelj_source_gate source_list[PLACES], source_before[PLACES];
static fidrovelj_gate masked_list[ROOM_MASKED], masked_before[ROOM_MASKED];

static bool same_source(size_t i)
{
    const fidrovelj_source_gate *a = &source_list[i], *b = &source_before[i];
    return a->kind == b->kind && a->first == b->first && a->second == b->second && a->result == b->result && a->wire == b->wire
        && a->from == b->from && a->code == b->code;
}

/* A step's answer: the question, or 0, once all entries but those that it may add are seen to be as they were. */
static int settled(fidrovelj_session *session, fidrovelj_step step)
{
    fidrovelj_session before = *session;
    bool same = true;
    for (size_t i = 0; i < PLACES; i++)
        same = same && (same_source(i) || (step.refused == 0 && i >= before.gates && i < step.session.gates));
    for (size_t i = 0; i < ROOM_MASKED; i++)
        same = same && (memcmp(&masked_list[i], &masked_before[i], sizeof *masked_list) == 0
                        || (step.refused == 0 && i >= before.masked && i < step.session.masked));
    expect(same, "a step writes the gates that it adds alone");
    if (step.refused != 0)
        expect(step.session.gates == before.gates && step.session.masked == before.masked, "a refusal leaves the session as it was");
    memcpy(source_before, source_list, sizeof source_list);
    memcpy(masked_before, masked_list, sizeof masked_list);
    *session = step.session;
    return step.refused;
}

static int opened(fidrovelj_session *session, const uint32_t *widths, size_t values, const char *codes, size_t room)
{
    *session = (fidrovelj_session){0, 0};
    return settled(session, fidrovelj_session_open(widths, values, entries(codes), strlen(codes), masked_list, room, FIDROVELJ_OLD));
}

static int added(fidrovelj_session *session, fidrovelj_gate gate, const char *codes, size_t places, size_t room)
{
    return settled(session, fidrovelj_session_add(*session, gate, entries(codes), strlen(codes), source_list, places, masked_list,
                                                  room, FIDROVELJ_OLD));
}

static int taken_off(fidrovelj_session *session)
{
    return settled(session, fidrovelj_session_take_off(*session, source_list, PLACES));
}

/* The session's text, once the tables are seen to be zero and the records as they were. */
static int64_t shown(fidrovelj_session session, const uint32_t *inputs, size_t values, const uint32_t *outputs, size_t out_values,
                     size_t places, size_t room)
{
    fill();
    int64_t answer = fidrovelj_session_text(session, inputs, values, outputs, out_values, source_list, places, out, room, operands,
                                            LARGE, results, LARGE, FIDROVELJ_OLD);
    expect(all(operands, sizeof operands, 0) && all(results, sizeof results, 0), "a session's tables are zero");
    expect_untouched(answer > 0 ? (size_t)answer : 0, 0, "a session's text touches its result alone");
    return answer;
}

static int64_t shown_masked(fidrovelj_session session, const uint32_t *inputs, size_t values, const uint32_t *outputs,
                            size_t out_values, const char *codes, const char *wanted, size_t room, size_t code_room)
{
    uint8_t wanted_codes[64];
    fill();
    memcpy(wanted_codes, entries(wanted), strlen(wanted));
    int64_t answer = fidrovelj_session_masked(session, inputs, values, outputs, out_values, source_list, PLACES, entries(codes),
                                              strlen(codes), wanted_codes, strlen(wanted), out, room, list_out, code_room, operands,
                                              LARGE, results, LARGE, wires, LARGE, given, LARGE, FIDROVELJ_OLD);
    expect(all(operands, sizeof operands, 0) && all(results, sizeof results, 0) && all(given, sizeof given, 0)
               && all(wires, sizeof wires, 0),
           "a session's tables are zero");
    expect_untouched(answer > 0 ? (size_t)answer : 0, answer > 0 ? strlen(wanted) : 0, "a masked text touches its results alone");
    return answer;
}

/* What a session with an AND and an inverter shows. */
static void session_texts(fidrovelj_session s)
{
    static const uint32_t bits[] = {1, 1}, one[] = {1}, none[] = {0}, many[17] = {0}, all_wires[] = {1, 3}, more[] = {5}, huge[] = {UINT32_MAX, 1};
    static const char text[] = "2 4\n2 1 1\n1 1\n\n2 1 0 1 2 AND\n1 1 2 3 INV\n";
    fidrovelj_source_gate last = fidrovelj_session_gate(s, 1, source_list, PLACES), blank = fidrovelj_session_gate(s, 2, source_list, PLACES);
    expect(last.kind == FIDROVELJ_INV && last.first == 2 && last.second == 0 && last.result == 3 && last.wire == 14 && last.from == 10
               && last.code == 1,
           "the record of gate 1");
    expect(blank.kind == 0 && blank.result == 0 && blank.wire == 0 && blank.code == 0, "no gate 2: a blank record");
    expect(fidrovelj_session_gate(s, 1, source_list, 1).kind == 0, "nor one behind the list's end");

    expect(text_is(shown(s, bits, 2, one, 1, PLACES, ROOM), text), "the session's text");
    expect(shown(s, bits, 2, one, 1, PLACES, sizeof text - 1) == sizeof text - 1, "an exact fit");
    expect(shown(s, bits, 2, one, 1, PLACES, sizeof text - 2) == -14, "a buffer a byte short: 14");
    expect(shown(s, bits, 2, all_wires, 2, PLACES, ROOM) > 0, "all wires put out");
    expect(shown(s, bits, 0, one, 1, PLACES, ROOM) == -4 && shown(s, bits, 2, none, 1, PLACES, ROOM) == -4, "no values, a width of 0: 4");
    expect(shown(s, bits, 2, more, 1, PLACES, ROOM) == -5 && shown(s, huge, 2, one, 1, PLACES, ROOM) == -5, "too many bits: 5");
    expect(shown(s, bits, 2, many, 17, PLACES, ROOM) == -4, "4 before 5");
    expect(shown(s, bits, 2, one, 1, 1, ROOM) == -6, "fewer records than gates: 6");
    expect(shown(s, one, 1, one, 1, PLACES, ROOM) == -8, "an operand that is no wire yet under other widths: 8");
    expect(shown(s, all_wires, 2, one, 1, PLACES, ROOM) == -9, "a result that is not the next wire: 9");
    expect(fidrovelj_session_text(s, bits, 2, one, 1, source_list, PLACES, out, ROOM, operands, FIDROVELJ_SMALL_TABLE, results,
                                  FIDROVELJ_SMALL_TABLE - 1, FIDROVELJ_OLD) == -1,
           "a session's text, question 1");

    int64_t size = shown_masked(s, bits, 2, one, 1, "12", "0", ROOM, LARGE);
    static uint8_t kept[ROOM];
    memcpy(kept, out, sizeof kept);
    expect(size > 0 && list_out[0] == 1 && mask(text, "12", "0", ROOM, LARGE) == size && memcmp(kept, out, (size_t)size) == 0,
           "what Mask gives for the text");
    expect(shown_masked(s, bits, 2, one, 1, "12", "0", (size_t)size - 1, LARGE) == -14, "a masked text a byte short: 14");
    expect(shown_masked(s, bits, 2, one, 1, "12", "0", ROOM, 0) == -14, "no room for the output codes: 14");
    expect(shown_masked(s, bits, 2, one, 1, "14", "0", ROOM, LARGE) == -11 && shown_masked(s, bits, 2, one, 1, "1", "9", ROOM, LARGE) == -11,
           "a code of 4, 11 before 13");
    expect(shown_masked(s, bits, 2, one, 1, "12", "4", ROOM, LARGE) == -13 && shown_masked(s, bits, 2, one, 1, "12", "", ROOM, 0) == -13,
           "a wanted code of 4, 13 before 14");
    expect(shown_masked(s, bits, 2, none, 1, "1", "", ROOM, 0) == -4, "4 before 11");

    /* A record that no step made: question 7. */
    source_list[1].kind = 6;
    expect(shown(s, bits, 2, one, 1, PLACES, ROOM) == -7, "an unknown kind: 7");
    source_list[1].kind = FIDROVELJ_INV;
}

static void sessions(void)
{
    static const uint32_t bits[] = {1, 1}, none[] = {1, 0}, wide[] = {2048, 1};
    static const fidrovelj_gate and = {FIDROVELJ_AND, 0, 1, 2}, inverter = {FIDROVELJ_INV, 2, 0, 3}, xor = {FIDROVELJ_XOR, 3, 2, 4};
    fidrovelj_session s;
    memset(source_list, PATTERN, sizeof source_list);
    memset(masked_list, PATTERN, sizeof masked_list);
    memcpy(source_before, source_list, sizeof source_list);
    memcpy(masked_before, masked_list, sizeof masked_list);

    expect(opened(&s, bits, 0, "12", 20) == 4 && opened(&s, none, 2, "1", 20) == 4, "a session without widths, a width of 0: 4");
    expect(opened(&s, wide, 2, "1", 20) == 5, "2,049 input bits: 5");
    expect(opened(&s, bits, 2, "1", 20) == 11 && opened(&s, bits, 2, "14", 20) == 11, "a code too few, a code of 4: 11");
    expect(opened(&s, bits, 2, "12", 2) == 14 && opened(&s, bits, 2, "10", 3) == 14, "a list without room for the opening: 14");

    expect(opened(&s, bits, 2, "12", 20) == 0 && s.gates == 0 && s.masked == 3, "an opening");
    expect(taken_off(&s) == 23, "nothing to take off: 23");
    expect(added(&s, (fidrovelj_gate){6, 9, 9, 9}, "12", PLACES, 20) == 7, "an unknown kind: 7");
    expect(added(&s, (fidrovelj_gate){FIDROVELJ_INV, 0, 1, 2}, "12", PLACES, 20) == 7, "an inverter of two: 7");
    expect(added(&s, (fidrovelj_gate){FIDROVELJ_AND, 0, 2, 9}, "12", PLACES, 20) == 8, "an operand that is the result: 8");
    expect(added(&s, (fidrovelj_gate){FIDROVELJ_EQ, 2, 0, 2}, "12", PLACES, 20) == 8, "a constant of 2: 8");
    expect(added(&s, (fidrovelj_gate){FIDROVELJ_AND, 0, 1, 3}, "12", PLACES, 20) == 9, "a result beyond the next wire: 9");
    expect(added(&s, and, "12", 0, 20) == 24, "a list without a place: 24");
    expect(added(&s, (fidrovelj_gate){6, 9, 9, 9}, "12", 0, 0) == 24, "24 before 7 and 14");
    expect(added(&s, and, "12", PLACES, 9) == 14, "no room for the seven steps: 14");
    expect(added(&s, and, "12", PLACES, 10) == 0 && s.gates == 1 && s.masked == 10, "an AND");
    expect(source_list[0].wire == 13 && source_list[0].code == 1 && source_list[0].from == 3, "its twin");
    expect(added(&s, and, "12", PLACES, 20) == 9, "the same gate again: 9");

    expect(added(&s, inverter, "12", PLACES, 20) == 0, "an inverter");
    session_texts(s);
    expect(added(&s, xor, "12", PLACES, 20) == 0, "an XOR");
    expect(s.gates == 3 && s.masked == 13, "the XOR of one code changes a mask");
    expect(taken_off(&s) == 0 && s.gates == 2 && s.masked == 11, "the XOR taken off with its mask change");
    expect(taken_off(&s) == 0 && taken_off(&s) == 0 && s.gates == 0 && s.masked == 3, "all taken off");
    expect(taken_off(&s) == 23, "none left: 23");
}

/* ---- sixty-four runs */

/* One gate of each form on two bits, all wires put out. */
static const char each_gate[] =
    "6 8\n1 2\n1 8\n2 1 0 1 2 XOR\n2 1 0 1 3 AND\n1 1 0 4 INV\n1 1 1 5 EQW\n1 1 0 6 EQ\n1 1 1 7 EQ\n";

static void sixty_four(void)
{
    const uint64_t list[3] = {0x9e3779b97f4a7c15, 0xc2b2ae3d27d4eb4f, 1}, a = list[0], b = list[1];
    const uint64_t expected[8] = {a, b, a ^ b, a & b, ~a, b, 0, UINT64_MAX};
    uint64_t lanes[8];
    expect(run64(each_gate, list, 2, 8) == 8, "Run64, an exact fit");
    memcpy(lanes, words_out, sizeof lanes);
    expect(memcmp(lanes, expected, sizeof lanes) == 0, "Run64, each gate");
    for (unsigned j = 0; j < 64; j++) {
        bool same = true;
        char bits[3] = {(char)('0' + (a >> j & 1)), (char)('0' + (b >> j & 1)), '\0'};
        expect(run(each_gate, bits, 8) == 8, "a setting run alone");
        for (int i = 0; i < 8; i++)
            same = same && (lanes[i] >> j & 1) == list_out[i];
        expect(same, "bit j is what Run gives on setting j");
    }
    expect(run64(each_gate, list, 1, 8) == -11, "Run64, a word too few");
    expect(run64(each_gate, list, 3, 8) == -11, "Run64, a word too many");
    expect(run64(each_gate, list, 1, 7) == -11, "Run64, question 11 comes before 14");
    expect(run64(each_gate, list, 2, 7) == -14, "Run64, a buffer a word short");
    expect(run64("1 3\n2 1 1\n1 1\n2 1 0 1 2 MAND\n", list, 2, 8) == -7, "Run64, question 7");
    expect(fidrovelj_run64((const uint8_t *)each_gate, strlen(each_gate), list, 2, words_out, 8, operands, LARGE,
                           results, LARGE, given, LARGE, words, LARGE - 1, FIDROVELJ_OLD)
               == -1,
           "Run64, question 1");
}

/* ---- pairs of wires */

static uint64_t bases[LARGE];

/* Both answers' number, with lists of these lengths. */
static int64_t check_pairs(const char *text, const uint8_t *codes, size_t bits, const uint32_t *pairs, size_t entries,
                           uint64_t *numbers, size_t numbers_len, uint64_t *bad, size_t bad_len)
{
    return fidrovelj_check_pairs((const uint8_t *)text, strlen(text), codes, bits, pairs, entries, numbers, numbers_len,
                                 bad, bad_len, operands, LARGE, results, LARGE, given, LARGE, words, LARGE, base, LARGE,
                                 bases, LARGE, FIDROVELJ_OLD);
}

static void pairs_of_wires(void)
{
    /* A bit under m0, then m0 and m1; wire 3 takes the mask off. */
    static const char *const kept = "0 3\n2 1 2\n1 1\n", *const open = "1 4\n2 1 2\n1 1\n2 1 0 1 3 XOR\n";
    static const uint8_t under_m0[] = {1};
    static const uint32_t with_mask[] = {0, 2, 0, 1}, odd[] = {0, 1, 2}, no_wire[] = {0, 3};
    uint64_t numbers[5] = {9, 9, 9, 9, 9}, bad[2] = {9, 9};

    expect(check_pairs(kept, under_m0, 1, with_mask, 0, numbers, 4, bad, 1) == 0, "no pairs");
    expect(check_pairs(kept, under_m0, 1, with_mask, 2, numbers, 4, bad, 1) == 0, "a bit and the other mask");
    expect(bad[0] == 9 && numbers[0] == 9, "nothing is written where all is clean");
    expect(check_pairs(kept, under_m0, 1, with_mask, 4, numbers, 0, bad, 1) == 2, "a bit and then its mask");
    expect(bad[0] == 1 && bad[1] == 9 && numbers[0] == 9, "one pair stands before it");
    bad[0] = 9;
    expect(check_pairs(open, under_m0, 1, with_mask, 4, numbers, 4, bad, 1) == 3, "a leak and a bad pair");
    expect(numbers[0] == 3 && numbers[1] == 1 && numbers[2] == 0 && numbers[3] == 4 && numbers[4] == 9, "the leak");
    expect(bad[0] == 1, "the bad pair beside the leak");
    numbers[0] = bad[0] = 9;
    expect(check_pairs(open, under_m0, 1, with_mask, 2, numbers, 4, bad, 0) == 1, "a leak and clean pairs");
    numbers[0] = 9;
    expect(check_pairs(open, under_m0, 1, with_mask, 4, numbers, 3, bad, 1) == -14, "a list of three for the leak");
    expect(check_pairs(open, under_m0, 1, with_mask, 4, numbers, 4, bad, 0) == -14, "no room for the bad pair");
    expect(numbers[0] == 9 && bad[0] == 9, "a refused call writes to neither list");
    expect(check_pairs(kept, under_m0, 1, odd, 3, numbers, 4, bad, 1) == -21, "an odd list");
    expect(check_pairs(kept, under_m0, 1, no_wire, 2, numbers, 4, bad, 1) == -21, "wire W");
    expect(check_pairs(open, under_m0, 1, no_wire, 2, numbers, 4, bad, 1) == 3, "wire W less 1");
    expect(check_pairs(kept, (const uint8_t *)"\4", 1, odd, 3, numbers, 4, bad, 1) == -11, "11 before 21");
    expect(fidrovelj_check_pairs((const uint8_t *)kept, strlen(kept), under_m0, 1, odd, 0, numbers, 4, bad, 1, operands,
                                 LARGE, results, LARGE, given, LARGE, words, LARGE, base, LARGE, bases, LARGE - 1,
                                 FIDROVELJ_OLD)
               == -1,
           "a table of base words that is short");
    expect(all(bases, sizeof bases, 0) && all(base, sizeof base, 0) && all(words, sizeof words, 0), "the tables are zero");
}

/* ---- netlists with many inputs */

static uint64_t sets[4][LARGE], wide_leak[5], wide_ones[13], wide_bad[2];
static uint8_t paints[LARGE];

/* The answer with lists of these lengths; what is not told stays as it was, and the tables are zero. */
static int64_t check_wide(const char *text, uint8_t code, size_t bits, const uint32_t *pairs, size_t entries,
                          size_t leak_room, size_t ones_room, size_t bad_room)
{
    static uint8_t codes[LARGE];
    fill();
    memset(codes, code, sizeof codes);
    memset(bases, PATTERN, sizeof bases);
    memset(sets, PATTERN, sizeof sets);
    memset(paints, PATTERN, sizeof paints);
    memset(wide_leak, PATTERN, sizeof wide_leak);
    memset(wide_ones, PATTERN, sizeof wide_ones);
    memset(wide_bad, PATTERN, sizeof wide_bad);
    int64_t answer = fidrovelj_check_wide((const uint8_t *)text, strlen(text), codes, bits, pairs, entries, wide_leak,
                                          leak_room, wide_ones, ones_room, wide_bad, bad_room, operands, LARGE, results,
                                          LARGE, given, LARGE, words, LARGE, base, LARGE, bases, LARGE, sets[0], LARGE,
                                          sets[1], LARGE, sets[2], LARGE, sets[3], LARGE, paints, LARGE, FIDROVELJ_OLD);
    expect(all(operands, sizeof operands, 0) && all(results, sizeof results, 0) && all(given, sizeof given, 0)
               && all(words, sizeof words, 0) && all(base, sizeof base, 0) && all(bases, sizeof bases, 0)
               && all(sets, sizeof sets, 0) && all(paints, sizeof paints, 0),
           "many inputs: the tables are zero");
    size_t told = answer > 0 && answer & 1 ? 4 : 0, one = told > 0 ? (size_t)wide_leak[1] : 0,
           pair = answer > 0 && answer & 2 ? 1 : 0;
    expect(all(wide_leak + told, sizeof wide_leak - told * 8, PATTERN) && one <= 12
               && all(wide_ones + one, sizeof wide_ones - one * 8, PATTERN)
               && all(wide_bad + pair, sizeof wide_bad - pair * 8, PATTERN),
           "many inputs: only what is told is written");
    return answer;
}

static void many_inputs(void)
{
    /* Forty bits, then m0 and m1, which are wires 40 and 41; masks come off bits 37 and 9, and wire 42 is their product. */
    static const char open[] = "3 45\n2 40 2\n1 1\n2 1 37 40 43 XOR\n2 1 9 40 44 XOR\n2 1 43 44 42 AND\n";
    static const char kept[] = "1 43\n2 40 2\n1 1\n2 1 37 41 42 XOR\n";
    static const uint32_t good_then_bad[] = {37, 41, 37, 40}, odd[] = {0, 1, 2}, no_wire[] = {0, 43};

    expect(check_wide(kept, 1, 40, odd, 0, 0, 0, 0) == 0, "many inputs: clean, nothing to tell");
    expect(check_wide(open, 1, 40, odd, 0, 4, 2, 0) == 1, "many inputs: a leak");
    expect(wide_leak[0] == 42 && wide_leak[1] == 2 && wide_leak[2] == 0 && wide_leak[3] == 4, "many inputs: its numbers");
    expect(wide_ones[0] == 9 && wide_ones[1] == 37, "many inputs: its ones, rising");
    expect(check_wide(open, 1, 40, odd, 0, 4, 1, 1) == -14, "many inputs: a list of one for two ones");
    expect(check_wide(open, 1, 40, odd, 0, 3, 12, 1) == -14, "many inputs: a list of three for the leak");
    expect(check_wide(kept, 1, 40, good_then_bad, 4, 0, 0, 1) == 2 && wide_bad[0] == 1, "many inputs: a bad pair");
    expect(check_wide(kept, 1, 40, good_then_bad, 4, 4, 12, 0) == -14, "many inputs: no room for the bad pair");
    expect(check_wide(open, 1, 40, good_then_bad, 4, 4, 12, 1) == 3 && wide_bad[0] == 1 && wide_leak[0] == 42,
           "many inputs: both");
    expect(check_wide(open, 1, 40, good_then_bad, 4, 4, 12, 0) == -14, "many inputs: both, one of them without room");
    expect(check_wide(open, 0, 40, odd, 0, 0, 0, 0) == 0, "many inputs: public bits");
    expect(check_wide(kept, 1, 40, odd, 3, 4, 12, 1) == -21, "many inputs: an odd list");
    expect(check_wide(kept, 1, 40, no_wire, 2, 4, 12, 1) == -21, "many inputs: wire W");
    expect(check_wide(kept, 1, 39, odd, 3, 4, 12, 1) == -11 && check_wide(kept, 4, 40, odd, 3, 4, 12, 1) == -11,
           "many inputs: 11 before 21");
    expect(check_wide(and_gate, 1, 0, odd, 3, 4, 12, 1) == -10, "many inputs: no mask pair");

    /* A line of ANDs over the first bits: twelve and thirteen of them, and a pair that has thirteen together. */
    for (int reaching = 12; reaching <= 13; reaching++) {
        char text[1000];
        int at = snprintf(text, sizeof text, "%d %d\n2 20 2\n1 1\n", reaching - 1, 22 + reaching - 1);
        for (int bit = 1; bit < reaching; bit++)
            at += snprintf(text + at, sizeof text - (size_t)at, "2 1 %d %d %d AND\n", bit == 1 ? 0 : 20 + bit, bit, 21 + bit);
        const uint32_t last = (uint32_t)(20 + reaching);
        const uint32_t within[] = {last, 11}, beyond[] = {last, 11, last, 12};
        expect(check_wide(text, 0, 20, within, 2, 4, 12, 1) == (reaching == 12 ? 0 : -12), "many inputs: twelve, thirteen");
        expect(check_wide(text, 0, 20, beyond, 4, 4, 12, 1) == -12, "many inputs: a pair of thirteen");
        expect(check_wide(text, 0, 20, beyond, 3, 4, 12, 1) == -21, "many inputs: 21 before 12");
    }
}

/* ---- the limits for whole ciphers */

#define WHOLE FIDROVELJ_WHOLE_LARGE_TABLE
#define WHOLE_SMALL FIDROVELJ_WHOLE_SMALL_TABLE

static uint64_t whole_operands[WHOLE], whole_results[WHOLE];
static uint32_t whole_wires[WHOLE_SMALL];
static uint8_t whole_given[WHOLE], whole_codes[WHOLE], whole_out[FIDROVELJ_WHOLE_LARGE_TEXT];
static uint8_t whole_list[WHOLE];

/* ---- the older dialect */

static void old_dialect(void)
{
    const char *old = "1 3\n1 1 1\n\n2 1 0 1 2 AND\n", *fashion = "1 3\n2 1 1\n1 1\n\n2 1 0 1 2 AND\n";
    expect(text_is(from_old(old, ROOM), fashion), "from the older dialect");
    expect(text_is(to_old(fashion, ROOM), old), "to the older dialect");
    expect(text_is(from_old("1 2\n1 0 1\n1 1 0 1 INV", ROOM), "1 2\n1 1\n1 1\n\n1 1 0 1 INV\n"), "party two of 0");
    expect(text_is(to_old("1 2\n1 1\n1 1\n1 1 0 1 INV", ROOM), "1 2\n1 0 1\n\n1 1 0 1 INV\n"), "one input value");
    expect(text_is(from_old("1 3\r\n1 1 1\r\n2 1 0 1 2 AND\r\n", ROOM), fashion), "from the older dialect, CR LF");

    expect(from_old(old, strlen(fashion)) == (int64_t)strlen(fashion), "from the older dialect, an exact fit");
    expect(from_old(old, strlen(fashion) - 1) == -14, "from the older dialect, question 14");
    expect(from_old("1 3\n1 1 1\n2 1 0 1 2 AND.", ROOM) == -3, "from the older dialect, question 3");
    expect(from_old("1 3\n0 2 1\n2 1 0 1 2 AND\n", ROOM) == -4, "party one of 0");
    expect(from_old("1 3\n1 1 0\n2 1 0 1 2 AND\n", ROOM) == -4, "an output of 0");
    expect(from_old("0 2\n2 1 1\n", ROOM) == -5, "from the older dialect, question 5");
    expect(from_old("1 3\n1 1 1\n1 1 0 2 EQW\nX\n", ROOM) == -6, "from the older dialect, question 6");
    expect(from_old("1 3\n1 1 1\n1 1 2 2 EQW\n", ROOM) == -7, "EQW in an old text");
    expect(from_old("1 3\n1 1 1\n1 1 2 2 EQ\n", ROOM) == -7, "EQ in an old text");
    expect(from_old("1 3\n1 1 1\n2 1 0 1 2 MAND\n", ROOM) == -7, "MAND in an old text");
    expect(from_old("1 3\n1 1 1\n2 1 0 2 2 AND\n", ROOM) == -8, "from the older dialect, question 8");
    expect(from_old("1 3\n1 1 1\n2 1 0 1 1 AND\n", ROOM) == -9, "from the older dialect, question 9");

    expect(to_old(fashion, strlen(old)) == (int64_t)strlen(old), "to the older dialect, an exact fit");
    expect(to_old(fashion, strlen(old) - 1) == -14, "to the older dialect, question 14");
    expect(to_old("1 4\n3 1 1 1\n1 1\n2 1 0 1 3 AND\n", ROOM) == -15, "three input values");
    expect(to_old("1 3\n2 1 1\n2 1 1\n2 1 0 1 2 AND\n", ROOM) == -15, "two output values");
    expect(to_old("1 3\n2 1 1\n1 1\n1 1 0 2 EQW\n", 0) == -15, "15 before 14");
    expect(to_old("1 3\n2 1 1\n1 1\n1 1 1 2 EQ\n", ROOM) == -15, "EQ to the older dialect");
    expect(to_old("1 4\n3 1 1 1\n1 1\n2 1 0 1 1 AND\n", ROOM) == -9, "9 before 15");
    expect(to_old(old, ROOM) == -4, "an old text is not in Fashion");
    fill();
    expect(fidrovelj_to_old((const uint8_t *)fashion, strlen(fashion), out, ROOM, operands, LARGE, results, LARGE - 1, given,
                            LARGE, FIDROVELJ_OLD) == -1, "to the older dialect, question 1");
}

static int64_t whole_rewrite(const char *text, size_t table, uint8_t sizes)
{
    return fidrovelj_rewrite((const uint8_t *)text, strlen(text), whole_out, sizeof whole_out, whole_operands, table,
                             whole_results, table, whole_given, table, sizes);
}

static int64_t whole_mask(const char *text, size_t bits)
{
    memset(whole_codes, 1, sizeof whole_codes);
    return fidrovelj_mask((const uint8_t *)text, strlen(text), whole_codes, bits, (const uint8_t *)"", 1, whole_out,
                          sizeof whole_out, whole_list, sizeof whole_list, whole_operands, WHOLE_SMALL, whole_results,
                          WHOLE_SMALL, whole_wires, WHOLE_SMALL, whole_given, WHOLE_SMALL, FIDROVELJ_WHOLE);
}

static void whole_limits(void)
{
    expect(whole_rewrite(one_gate(899999), WHOLE, FIDROVELJ_WHOLE) > 0, "899,999 wires");
    expect(whole_rewrite(one_gate(900000), WHOLE, FIDROVELJ_WHOLE) == -5, "900,000 wires");
    expect(whole_rewrite(one_gate(899999), WHOLE, FIDROVELJ_OLD) == -5, "899,999 wires under the old limits");
    expect(whole_rewrite(one_gate(899999), WHOLE, 255) > 0, "any number but 0 chooses the limits for whole ciphers");
    expect(whole_rewrite(one_gate(3), WHOLE - 1, FIDROVELJ_WHOLE) == -1, "a table of 899,998 entries");
    expect(whole_rewrite(one_gate(3), WHOLE - 1, FIDROVELJ_OLD) > 0, "899,998 entries under the old limits");
    expect(whole_rewrite(one_gate(1000000), WHOLE, FIDROVELJ_WHOLE) == -4, "seven digits");
    expect(whole_mask(one_gate(100000), 99999) > 0, "Mask, 100,000 wires");
    expect(whole_mask(one_gate(100001), 100000) == -5, "Mask, 100,001 wires");
    expect(all(whole_operands, sizeof whole_operands, 0) && all(whole_results, sizeof whole_results, 0)
               && all(whole_wires, sizeof whole_wires, 0) && all(whole_given, sizeof whole_given, 0),
           "the tables are zero");
}

/* ---- equations in Verilog */

#define NAMES (8 * FIDROVELJ_SMALL_TABLE)
static uint32_t states[NAMES];

static int64_t equations_of(const char *text, size_t room, size_t names)
{
    fill();
    memset(states, PATTERN, sizeof states);
    int64_t answer = fidrovelj_from_verilog((const uint8_t *)text, strlen(text), out, room, operands, FIDROVELJ_SMALL_TABLE,
                                            results, FIDROVELJ_SMALL_TABLE, words, NAMES, base, NAMES, words_out, names,
                                            states, NAMES, wires, NAMES, FIDROVELJ_OLD);
    bool zero = true;
    for (size_t i = 0; i < NAMES; i++)
        zero = zero && words[i] == 0 && base[i] == 0 && (i >= names || words_out[i] == 0) && states[i] == 0 && wires[i] == 0;
    expect(zero, "equations: tables of names are zero");
    for (size_t i = answer < 0 ? 0 : (size_t)answer; i < ROOM; i++) {
        if (out[i] != PATTERN) {
            expect(false, "equations: the buffer beyond the result");
            break;
        }
    }
    return answer;
}

static void equations(void)
{
    const char *text = "module m(y,a,b);\r\ninput a,b;output y;assign y=a^~b&a;endmodule\n";
    const char *made = "4 6\n1 2\n1 1\n\n1 1 1 2 INV\n2 1 2 0 3 AND\n2 1 0 3 4 XOR\n1 1 4 5 EQW\n";
    int64_t size = (int64_t)strlen(made);
    expect(equations_of(text, ROOM, NAMES) == size && memcmp(out, made, strlen(made)) == 0, "equations: the netlist made");
    expect(equations_of(text, (size_t)size, NAMES) == size, "equations: a buffer that just holds it");
    expect(equations_of(text, (size_t)size - 1, NAMES) == -14, "equations: a buffer a byte short is 14");
    expect(equations_of(text, ROOM, NAMES - 1) == -1, "equations: a short table of names is 1");
    expect(equations_of("", ROOM, NAMES) == -16, "equations: nothing is 16");
    expect(equations_of("module m(y,a);input a;output y;assign y=~~a;endmodule", ROOM, NAMES) == -16, "equations: ~~ is 16");
    expect(equations_of("module m(y,a);input a;output y;assign y=y;endmodule", ROOM, NAMES) == -17, "equations: read early is 17");
    expect(equations_of("module m(y,a);input a;output y;assign y=(((((((((((((((((((((((((((((((((a)))))))))))))))))))))))))))))))));endmodule",
                        ROOM, NAMES) == -18, "equations: thirty-three deep is 18");
}

/* ---- certifying */

static uint64_t records[15 * LARGE], certified_ones[64];

/* Certify's answer, with lists of these lengths, and what it leaves in tables and lists. */
static int64_t certify(const char *text, const char *codes, size_t leak_room, size_t ones_room)
{
    fill();
    memset(records, PATTERN, sizeof records);
    memset(certified_ones, PATTERN, sizeof certified_ones);
    int64_t answer = fidrovelj_certify((const uint8_t *)text, strlen(text), entries(codes), strlen(codes), leak, leak_room,
                                       certified_ones, ones_room, operands, LARGE, results, LARGE, given, LARGE, words, LARGE,
                                       base, LARGE, records, 15 * LARGE, FIDROVELJ_OLD);
    expect(all(operands, sizeof operands, 0) && all(results, sizeof results, 0) && all(given, sizeof given, 0)
               && all(words, sizeof words, 0) && all(base, sizeof base, 0) && all(records, sizeof records, 0),
           "Certify's tables are zero");
    size_t told = answer == 1 ? 4 : answer == 2 ? 1 : 0, bits = answer == 1 ? leak[1] : 0;
    expect(all(leak + told, (4 - told) * sizeof *leak, PATTERN), "Certify writes its numbers alone");
    expect(all(certified_ones + bits, (64 - bits) * sizeof *certified_ones, PATTERN), "Certify writes the leak's bits alone");
    return answer;
}

static void certifying(void)
{
    static const char *const open = "1 4\n2 1 2\n1 1\n2 1 0 1 3 XOR\n", *const covered = "1 4\n2 1 2\n1 1\n2 1 0 1 3 AND\n";
    static const char *const mixed = "2 6\n2 2 2\n1 1\n2 1 0 1 4 AND\n2 1 4 2 5 XOR\n";
    expect(certify(masked_and, "12", 4, 64) == 0, "Certify, M1's masked netlist");
    expect(certify(masked_public, "02", 0, 0) == 0, "Certify, a public bit, and no lists");
    expect(leak_is(certify(open, "1", 4, 1), 3, 1, 0, 4) && certified_ones[0] == 0, "Certify, M5");
    expect(certify(open, "2", 4, 1) == 0 && certify(open, "0", 4, 1) == 0, "Certify, M6, and a public bit");
    expect(leak_is(certify(covered, "1", 4, 1), 3, 1, 2, 0) && certified_ones[0] == 0, "Certify, M7");
    expect(leak_is(certify(mixed, "01", 4, 2), 5, 2, 0, 4) && certified_ones[0] == 0 && certified_ones[1] == 1,
           "Certify, a public bit mixed with a secret");
    expect(certify("0 15\n2 13 2\n1 1\n", ones(13), 4, 64) == 0, "Certify, question 12 is not put");

    expect(certify("", "", 4, 64) == -4, "Certify, question 4");
    expect(certify("1 4\n2 1 2\n1 1\n2 1 0 1 2 XOR\n", "1", 4, 64) == -9, "Certify, question 9");
    expect(certify("0 3\n1 3\n1 1\n", "1", 4, 64) == -10, "Certify, question 10");
    expect(certify(open, "4", 4, 64) == -11 && certify(open, "11", 4, 64) == -11, "Certify, question 11");
    expect(certify(open, "4", 0, 0) == -11, "Certify, 11 before 14");
    for (size_t room = 0; room < 4; room++)
        expect(certify(open, "1", room, 64) == -14, "Certify, a short list for the leak");
    expect(certify(open, "1", 4, 0) == -14 && certify(mixed, "01", 4, 1) == -14, "Certify, a short list for its bits");
    expect(fidrovelj_certify((const uint8_t *)open, strlen(open), entries("2"), 1, leak, 4, certified_ones, 64, operands, LARGE,
                             results, LARGE, given, LARGE, words, LARGE, base, LARGE, records, 15 * LARGE - 1, FIDROVELJ_OLD)
               == -1,
           "Certify, a table of records that is short");
}

int main(void)
{
    known_results();
    refusals();
    line_ends();
    results_of_others();
    public_bits();
    joined_blocks();
    sessions();
    sixty_four();
    source_wires();
    fewer_changes();
    old_dialect();
    pairs_of_wires();
    many_inputs();
    whole_limits();
    equations();
    certifying();
    printf("C: %d checks, %d failed\n", checks, failures);
    return failures == 0 ? EXIT_SUCCESS : EXIT_FAILURE;
}
