/* Fidrovelj: masked netlists under two mask bits.
 *
 * A netlist is a text in Bristol Fashion, whose lines end in LF or CR LF. The services work on such
 * texts; each puts a list of questions in order, and the first that is answered no refuses the call.
 *
 * What holds of every function
 *
 * - It returns 0 or more for a result, or less than 0 for a refusal: minus the question's number. Only
 *   the steps of a session answer with a struct, which has the number of the refusing question, or 0.
 * - A slice is a pointer and then its length, counted in entries. The pointer is not null, also
 *   where the length is 0. Slices that the function writes overlap no other.
 * - The last parameter chooses the limits: FIDROVELJ_OLD, or FIDROVELJ_WHOLE for whole ciphers. Any
 *   number but 0 is FIDROVELJ_WHOLE.
 * - Working tables may hold anything when they are lent and are zero along their whole length on
 *   return, also from a refused call. Question 1 asks at least FIDROVELJ_LARGE_TABLE entries of
 *   each (Mask: FIDROVELJ_SMALL_TABLE), or FIDROVELJ_WHOLE_LARGE_TABLE (FIDROVELJ_WHOLE_SMALL_TABLE).
 *   Longer ones are cleared along their whole length as well.
 * - A buffer of FIDROVELJ_LARGE_TEXT bytes, or FIDROVELJ_WHOLE_LARGE_TEXT, holds every text that a
 *   call writes.
 * - A refused call leaves result buffers as they were. An accepted one writes its result to the
 *   buffer's front and leaves what lies beyond it as it was.
 * - Nothing is allocated and nothing is kept from call to call, so calls with tables of their own
 *   may run at the same time.
 *
 * The questions
 *
 *  1  Has every lent working table enough entries?
 *  2  Is the text at most 500,000 bytes (Mask: 60,000), or 27,000,000 (3,000,000)?
 *  3  Is each byte a digit, a capital letter, a space, LF, or a CR directly before LF?
 *  4  Are there three header lines of the stated form, each count and width 1 or more?
 *     (Numbers have one to six digits and no leading zero.)
 *  5  Are there at most 18,431 wires (Mask: 2,048), or 899,999 (100,000), at most 17 input values
 *     (Mask: 16) and 16 output values, and no more input bits or output bits than wires?
 *  6  Is the gate count the wires less the input bits, and are there exactly that many gate lines?
 *  7  Has each gate line one of the five forms?                            (7 to 9 line by line)
 *  8  Is each operand an input or the result of an earlier line (of EQ: 0 or 1)?
 *  9  Is each result a wire that is no input and is not yet given?
 * 10  Check, Certify, Join: are there two or more input values, the last of width 2?
 * 11  Has the input list one entry for each input bit (Check, Certify, Join: without the mask pair), each
 *     0 to 3 (Run: 0 or 1; Run64: any word; Mask with fewer changes: 0 to 4)?
 * 12  Check: are there at most 12 input bits besides the mask pair? With many inputs, after 21: do at most
 *     12 of them reach each wire and each listed pair? (Certify: not put.)
 * 13  Mask: has the wanted list one entry for each output bit, each 0 to 3?
 * 14  Can each result buffer hold its whole result?
 * 15  To the older dialect, after 9 and before 14: are the gates XOR, AND and INV, and are there at
 *     most two input values and one output value?
 * 21  Check with pairs, after 12: is the list's length even and each entry a wire of the netlist?
 * 22  Mask with fewer changes, after 13: is the budget 1 or more?
 *
 * 16 to 18 are put to equations, 19 and 20 to AIGER files, 23 and 24 to the steps of a session, 25 to
 * blocks that are joined: they stand with those functions.
 */
#ifndef FIDROVELJ_H
#define FIDROVELJ_H

#include <stddef.h>
#include <stdint.h>

#ifdef __cplusplus
extern "C" {
#endif

/* Which limits a call takes. */
#define FIDROVELJ_OLD 0
#define FIDROVELJ_WHOLE 1

/* The least entries of a working table of Rewrite, the conversions, Run, Run64, Check and Join, and of Mask and Twins: the most
 * wires. */
#define FIDROVELJ_LARGE_TABLE 18431
#define FIDROVELJ_SMALL_TABLE 2048
#define FIDROVELJ_WHOLE_LARGE_TABLE 899999
#define FIDROVELJ_WHOLE_SMALL_TABLE 100000

/* The most bytes of a text that Rewrite, Run, Run64 and Check take, and Mask and Twins. */
#define FIDROVELJ_LARGE_TEXT 500000
#define FIDROVELJ_SMALL_TEXT 60000
#define FIDROVELJ_WHOLE_LARGE_TEXT 27000000
#define FIDROVELJ_WHOLE_SMALL_TEXT 3000000

/* Rewrite: writes the netlist's written form to out (single spaces, LF behind each line, one blank
 * line behind the header, gates and operands in the order given). Returns its length in bytes. */
int64_t fidrovelj_rewrite(const uint8_t *text, size_t text_len,
                          uint8_t *out, size_t out_len,
                          uint64_t *operands, size_t operands_len,
                          uint64_t *results, size_t results_len,
                          uint8_t *marks, size_t marks_len,
                          uint8_t sizes);

/* From the older dialect: reads a text with the older Bristol header, whose first line has the gate
 * count and the wire count and whose second has the bits of party one, of party two and of the output,
 * and writes its netlist to out in the written form: input values of those widths, party two left out
 * when it is 0, one output value, and the gates unchanged. Its gates are XOR, AND and INV; any other
 * is refused by 7. Party one and the output are 1 or more, else 4. Returns the length in bytes. */
int64_t fidrovelj_from_old(const uint8_t *text, size_t text_len,
                           uint8_t *out, size_t out_len,
                           uint64_t *operands, size_t operands_len,
                           uint64_t *results, size_t results_len,
                           uint8_t *marks, size_t marks_len,
                           uint8_t sizes);

/* To the older dialect: writes the netlist to out in the written form under the older header, party
 * two 0 where there is one input value. Question 15 is put after 9 and before 14. Returns the length
 * in bytes. What fidrovelj_from_old reads of it is the same netlist. */
int64_t fidrovelj_to_old(const uint8_t *text, size_t text_len,
                         uint8_t *out, size_t out_len,
                         uint64_t *operands, size_t operands_len,
                         uint64_t *results, size_t results_len,
                         uint8_t *marks, size_t marks_len,
                         uint8_t sizes);

/* Run: evaluates the netlist on list, a 0 or 1 for each input bit, and writes a 0 or 1 for each
 * output bit to out. Returns how many. */
int64_t fidrovelj_run(const uint8_t *text, size_t text_len,
                      const uint8_t *list, size_t list_len,
                      uint8_t *out, size_t out_len,
                      uint64_t *operands, size_t operands_len,
                      uint64_t *results, size_t results_len,
                      uint8_t *marks, size_t marks_len,
                      uint64_t *words, size_t words_len,
                      uint8_t sizes);

/* Run64: evaluates the netlist on sixty-four settings at once. list has a word for each input bit, and
 * out gets a word for each output bit; bit j of each word, bit 0 the lowest, belongs to setting j. Bit j
 * of the output words is what Run gives on bit j of the input words. Returns how many words. */
int64_t fidrovelj_run64(const uint8_t *text, size_t text_len,
                        const uint64_t *list, size_t list_len,
                        uint64_t *out, size_t out_len,
                        uint64_t *operands, size_t operands_len,
                        uint64_t *results, size_t results_len,
                        uint8_t *marks, size_t marks_len,
                        uint64_t *words, size_t words_len,
                        uint8_t sizes);

/* Mask: writes the text of the masked netlist to out and the mask code of each output bit, 1 to 3,
 * to out_codes. Returns the text's length in bytes; there are as many codes as output bits.
 *
 * codes has a mask code for each input bit: a bit with code 1 travels XOR m0, with code 2 XOR m1,
 * with code 3 XOR both; a bit with code 0 is public and arrives unmasked. wanted has for each output
 * bit the code that it is to travel with, or 0 where any will do. The masked netlist has the source's
 * input values and one more of width 2, the mask bits m0 and m1. Its outputs, with their masks taken
 * off, are the source's; and for each of its wires the number of the four mask settings that make it
 * one is the same for all inputs that agree in their public bits. */
int64_t fidrovelj_mask(const uint8_t *text, size_t text_len,
                       const uint8_t *codes, size_t codes_len,
                       const uint8_t *wanted, size_t wanted_len,
                       uint8_t *out, size_t out_len,
                       uint8_t *out_codes, size_t out_codes_len,
                       uint64_t *operands, size_t operands_len,
                       uint64_t *results, size_t results_len,
                       uint32_t *wires, size_t wires_len,
                       uint8_t *marks, size_t marks_len,
                       uint8_t sizes);

/* Mask with fewer changes: writes the text of the masked netlist to out, as fidrovelj_mask does, of the
 * choice with the fewest mask changes; each costs an XOR. codes has for each input bit a mask code 1 to
 * 3, 0 where the bit is public, or 4 where its code is free. The choices are codes 1 to 3 for each free
 * input in order, then for each AND in order its operands as written or swapped; they are taken in
 * order, the last varying fastest, as many as budget allows, and the first with the fewest operand and
 * output changes together is given. Returns the text's length in bytes. in_codes gets its mask code for
 * each input bit, out_codes that of each output bit, and tally two numbers: its changes, and a floor
 * that no choice goes below. The floor is the fewest if all choices were tried, and otherwise the
 * number of gates of two operands that name one wire twice. Choices that provably have no fewer changes
 * than the best before them are counted as tried without being walked, so large budgets often take
 * little time; the outcome is that of trying each. What holds of a text that fidrovelj_mask writes
 * holds of this one, with the input codes given. The questions are Mask's, 11 with codes 0 to 4, then
 * 22 before 14, which asks for room in all four result buffers. */
int64_t fidrovelj_mask_fewest(const uint8_t *text, size_t text_len,
                              const uint8_t *codes, size_t codes_len,
                              const uint8_t *wanted, size_t wanted_len,
                              uint64_t budget,
                              uint8_t *out, size_t out_len,
                              uint8_t *in_codes, size_t in_codes_len,
                              uint8_t *out_codes, size_t out_codes_len,
                              uint64_t *tally, size_t tally_len,
                              uint64_t *operands, size_t operands_len,
                              uint64_t *results, size_t results_len,
                              uint32_t *wires, size_t wires_len,
                              uint8_t *marks, size_t marks_len,
                              uint8_t *ways, size_t ways_len,
                              uint8_t *best, size_t best_len,
                              uint64_t *spans, size_t spans_len,
                              uint8_t sizes);

/* Twins: gives for each wire of a source netlist the wire that stands for it in the netlist that
 * fidrovelj_mask writes for the same text and codes, whatever codes are wanted, and the code of its
 * mask. For all inputs and all four mask settings wire out_wires[w] of the masked netlist is the bit
 * of source wire w XOR the mask of out_codes[w], which is 1 to 3. So an input's twin is its own wire
 * with its own code, or where it is public the wire of its gate with code 1. Returns the number of
 * source wires, which is the number of entries of each result. Mask's limits hold, and the questions
 * are 1 to 9, 11 and 14. */
int64_t fidrovelj_twins(const uint8_t *text, size_t text_len,
                        const uint8_t *codes, size_t codes_len,
                        uint32_t *out_wires, size_t out_wires_len,
                        uint8_t *out_codes, size_t out_codes_len,
                        uint64_t *operands, size_t operands_len,
                        uint64_t *results, size_t results_len,
                        uint8_t *marks, size_t marks_len,
                        uint8_t sizes);

/* Check: decides whether a netlist whose last input value is the two mask bits leaks on a wire, for
 * a mask code for each other input bit, 0 where the bit is public. Returns 0 where it is clean: for
 * each wire the number of the four mask settings that make it one, its count, is the same for all
 * input settings that agree in their public bits. Returns 1 where it leaks, and then writes four
 * numbers to leak: the lowest wire whose counts differ, the smallest setting (input bit 0 is the
 * lowest bit) whose count is not that of the setting with the same public bits and zero secrets,
 * that one's count and its own. A leak of fewer than 4 entries is refused by 14, and stays as it was,
 * where there is a leak to tell. */
int64_t fidrovelj_check(const uint8_t *text, size_t text_len,
                        const uint8_t *codes, size_t codes_len,
                        uint64_t *leak, size_t leak_len,
                        uint64_t *operands, size_t operands_len,
                        uint64_t *results, size_t results_len,
                        uint8_t *marks, size_t marks_len,
                        uint64_t *words, size_t words_len,
                        uint64_t *base, size_t base_len,
                        uint8_t sizes);

/* Check with pairs: decides as Check whether the netlist leaks on a wire, and besides whether pairs of its
 * wires leak together: a register that holds one value after the other shows both. pairs has two wire
 * numbers for each pair; pair j is entries 2j and 2j + 1, and may name one wire twice, an input or a mask
 * bit. A pair is clean where each of the four values that two wires can have is shown by equally many of
 * the four mask settings for all input settings that agree in their public bits. Only the listed pairs
 * are judged. Both answers always come: returns 0 where all is clean, 1 for a leak on a wire, whose four
 * numbers go to leak as Check's, 2 for a bad pair, and 3 for both. The number of pairs before the first
 * bad one goes to the first entry of bad. A list too short for what it is to be told, less than 4 and 1
 * entries, is refused by 14. */
int64_t fidrovelj_check_pairs(const uint8_t *text, size_t text_len,
                              const uint8_t *codes, size_t codes_len,
                              const uint32_t *pairs, size_t pairs_len,
                              uint64_t *leak, size_t leak_len,
                              uint64_t *bad, size_t bad_len,
                              uint64_t *operands, size_t operands_len,
                              uint64_t *results, size_t results_len,
                              uint8_t *marks, size_t marks_len,
                              uint64_t *words, size_t words_len,
                              uint64_t *base, size_t base_len,
                              uint64_t *bases, size_t bases_len,
                              uint8_t sizes);

/* Check of netlists with many inputs: decides what Check with pairs decides, of netlists of any number of input bits, as long as
 * at most twelve of them, the mask pair aside, reach each wire and each listed pair through gate lines (public bits count; EQ is
 * reached by none). Questions 1 to 11, then 21, then 12: more than twelve reach some wire or some listed pair. An empty list of
 * pairs is a check of the wires alone. Both answers are those that Check with pairs would give without its question 12: returns 0
 * where all is clean, 1 for a leak on a wire, 2 for a bad pair, and 3 for both. A leak's four numbers go to leak: its wire, how
 * many input bits are one in its setting, the count of the setting with the same public bits and zero secrets, and its own. Those
 * input bits go to ones, rising: one to twelve. The number of pairs before the first bad one goes to the first entry of bad. A
 * list too short for what it is to be told, less than 4 entries of leak, the ones of ones, 1 of bad, is refused by 14, and then
 * none is written. set0 to set3, paints are working tables as the others: at least 18,431 entries each (899,999). */
int64_t fidrovelj_check_wide(const uint8_t *text, size_t text_len,
                             const uint8_t *codes, size_t codes_len,
                             const uint32_t *pairs, size_t pairs_len,
                             uint64_t *leak, size_t leak_len,
                             uint64_t *ones, size_t ones_len,
                             uint64_t *bad, size_t bad_len,
                             uint64_t *operands, size_t operands_len,
                             uint64_t *results, size_t results_len,
                             uint8_t *marks, size_t marks_len,
                             uint64_t *words, size_t words_len,
                             uint64_t *base, size_t base_len,
                             uint64_t *bases, size_t bases_len,
                             uint64_t *set0, size_t set0_len,
                             uint64_t *set1, size_t set1_len,
                             uint64_t *set2, size_t set2_len,
                             uint64_t *set3, size_t set3_len,
                             uint8_t *paints, size_t paints_len,
                             uint8_t sizes);

/* Certify: says of a netlist of any number of input bits whether its wires' counts are the same for all input settings with the same
 * public bits. Questions 1 to 11 as Check's (12 is not put), then 14. Returns 0 where every wire is clean: proved for all settings.
 * Returns 1 for a leak, whose four numbers go to leak: its wire, how many input bits are one in its setting, the count of the
 * setting with the same public bits and zero secrets, and its own; those input bits go to ones, rising. (The setting need not be the
 * smallest, nor the wire the lowest that leaks.) Returns 2 where neither could be shown: the first entry of leak is the lowest wire that
 * is not known to be clean. A list too short for what it is to be told, less than 4 entries of leak for a leak or 1 for the wire, or of
 * ones for its input bits, is refused by 14, and then none is written. records holds fifteen entries a wire, so at least 276,465
 * (13,499,985); the other working tables at least 18,431 entries each (899,999). */
int64_t fidrovelj_certify(const uint8_t *text, size_t text_len,
                          const uint8_t *codes, size_t codes_len,
                          uint64_t *leak, size_t leak_len,
                          uint64_t *ones, size_t ones_len,
                          uint64_t *operands, size_t operands_len,
                          uint64_t *results, size_t results_len,
                          uint8_t *marks, size_t marks_len,
                          uint64_t *words, size_t words_len,
                          uint64_t *base, size_t base_len,
                          uint64_t *records, size_t records_len,
                          uint8_t sizes);

/* From AIGER: reads an ASCII AIGER file (its first four bytes are "aag ") and writes the netlist made
 * of it to out, in the written form. The inputs form one value in the order of the input lines, the
 * outputs one value. Before each AND gate stands an EQ for each constant operand and an INV for each
 * inverse one, left first; last comes an EQW, INV or EQ for each output. What stands behind the AND
 * lines (symbols, comments) is passed over. Returns the text's length in bytes. Mask's limits hold,
 * and the questions are 1, 2, then
 *
 * 19  Are the opening bytes and the header of the form, I and O 1 or more, M below the limit on wires?
 * 20  Are there no latches?
 * 19  Are all lines there and of the form, no variable above M, given twice, read by an AND line
 *     before it is given, or put out and never given?
 *
 * then 5 of the netlist made, and 14. */
int64_t fidrovelj_from_aiger(const uint8_t *text, size_t text_len,
                             uint8_t *out, size_t out_len,
                             uint64_t *operands, size_t operands_len,
                             uint64_t *results, size_t results_len,
                             uint32_t *variables, size_t variables_len,
                             uint8_t sizes);

/* Join: writes to out, in the written form, the netlist of two masked blocks over the same two mask
 * bits, the outputs of the first going into the inputs of the second. first comes with its input
 * codes and its output codes, second with its input codes. The first's wires keep their numbers and
 * its input values are the joined ones; a wire w of the second past its n inputs, mask bits included,
 * becomes the first's W + w - n, and its output values are the joined ones. Returns the text's length
 * in bytes. Where Mask gave both texts and their codes, the outputs with masks off, by the second's
 * output codes, are the second source's outputs of the first source's outputs, and each wire has equal
 * counts for inputs that agree in the first's public bits. Questions 1 to 11 are put to first, then 2
 * to 11 to second, then
 *
 * 25  Are the first's output codes one for each of its output bits, and the same in number and value
 *     as the second's input codes, none of these 0, and has the second a gate or more for each of its
 *     output bits?
 *
 * then 5 of the joined wires, and 14. */
int64_t fidrovelj_join(const uint8_t *first, size_t first_len,
                       const uint8_t *second, size_t second_len,
                       const uint8_t *first_codes, size_t first_codes_len,
                       const uint8_t *first_out_codes, size_t first_out_codes_len,
                       const uint8_t *second_codes, size_t second_codes_len,
                       uint8_t *out, size_t out_len,
                       uint64_t *operands, size_t operands_len,
                       uint64_t *results, size_t results_len,
                       uint8_t *marks, size_t marks_len,
                       uint64_t *words, size_t words_len,
                       uint64_t *base, size_t base_len,
                       uint8_t sizes);

/* From Verilog: reads a module of equations (module, input, output, wire, assign, endmodule; names of
 * one bit, of one to sixteen letters or digits, a letter first; ~, &, ^ and parentheses) and writes the
 * netlist made of it to out, in the written form. The inputs form one value and the outputs one value,
 * in port order; each operator is one gate, operands before it, left before right, in text order; last
 * comes an EQW for each output. Returns the text's length in bytes. Mask's limits hold; one entry of
 * heads, words, links, states and wires, which are tables of names, has eight numbers, so each needs
 * 8 times as many (16,384, or 800,000 for whole ciphers). The questions are 1, 2, then
 *
 * 16  Is the text one of the subset, depth aside?
 * 17  Is each name declared once, each port an input or an output and each of these a port, each name
 *     read after its assignment, each wire and output assigned once, and is there an input and an output?
 * 18  Do the parentheses stand at most 32 deep?
 *
 * then 5 of the netlist made, and 14. Looking up a name takes about one comparison, as many as there are
 * declared names at worst, for names chosen to share a chain. */
int64_t fidrovelj_from_verilog(const uint8_t *text, size_t text_len,
                               uint8_t *out, size_t out_len,
                               uint64_t *operands, size_t operands_len,
                               uint64_t *results, size_t results_len,
                               uint64_t *heads, size_t heads_len,
                               uint64_t *words, size_t words_len,
                               uint64_t *links, size_t links_len,
                               uint32_t *states, size_t states_len,
                               uint32_t *wires, size_t wires_len,
                               uint8_t sizes);

/* Sessions: source gates are added at the end and taken off there, and their masked gates lie beside them.
 *
 * The caller owns two lists and lends them to each call: source, of the source gates, and masked, of the masked gates before the output
 * copies. A session says how many of each stand at their front; it travels by value, and a call gives the session behind its step. Each
 * step is to get the session and the lists just as the one before left them, and the codes and the sizes that opened the session. Then the
 * masked gates are those that fidrovelj_mask writes for the present source gates, before its output copies. Lists that no opening made
 * are safe to lend as well: the answer is a defined one. A refused step changes nothing; a step writes in the lists only the gates it adds,
 * and taking off writes nothing.
 *
 * Kinds of gates. A gate of one operand has 0 as its second, and the operand of EQ is its constant. */
#define FIDROVELJ_XOR 1
#define FIDROVELJ_AND 2
#define FIDROVELJ_INV 3
#define FIDROVELJ_EQW 4
#define FIDROVELJ_EQ 5

/* A gate. */
typedef struct {
    uint32_t kind, first, second, result;
} fidrovelj_gate;

/* A source gate: the gate, the wire that its result stands on in the masked netlist, the place of its first masked gate in the list of
 * masked gates, and the code of the mask on its result. */
typedef struct {
    uint32_t kind, first, second, result;
    uint32_t wire, from;
    uint8_t code;
} fidrovelj_source_gate;

/* How many source gates, and how many masked gates, stand at the front of the lists. */
typedef struct {
    uint32_t gates, masked;
} fidrovelj_session;

/* What a step answers: the session behind it, and 0, or the number of the question that refuses the step; then the session is the one
 * that was handed in (of an opening: the one without gates). */
typedef struct {
    fidrovelj_session session;
    uint8_t refused;
} fidrovelj_step;

/* Opens a session: widths are those of the input values, and codes has a code 0 to 3 for each input bit. Writes the three mask gates, and
 * one gate for each public bit, to the front of masked. Questions 4, 5, 11, and 14 of masked, with Mask's limits. */
fidrovelj_step fidrovelj_session_open(const uint32_t *widths, size_t widths_len,
                                      const uint8_t *codes, size_t codes_len,
                                      fidrovelj_gate *masked, size_t masked_len,
                                      uint8_t sizes);

/* Adds a gate at the end. Questions
 *
 * 24  Has source a place left, and are there fewer wires than Mask takes?
 *
 * then 7 (a known kind; 0 as the second operand where there is none), 8, 9 (the result is the next wire), and 14 of masked. */
fidrovelj_step fidrovelj_session_add(fidrovelj_session session, fidrovelj_gate gate,
                                     const uint8_t *codes, size_t codes_len,
                                     fidrovelj_source_gate *source, size_t source_len,
                                     fidrovelj_gate *masked, size_t masked_len,
                                     uint8_t sizes);

/* Takes the last gate off, with its masked gates. Question
 *
 * 23  Is there a gate to take off? */
fidrovelj_step fidrovelj_session_take_off(fidrovelj_session session,
                                          const fidrovelj_source_gate *source, size_t source_len);

/* Gate number gate, counted from 0: its record. Where there is no such gate, all of it is 0; no gate has kind 0. */
fidrovelj_source_gate fidrovelj_session_gate(fidrovelj_session session, uint32_t gate,
                                             const fidrovelj_source_gate *source, size_t source_len);

/* The session's netlist in the written form, at the front of out: how many bytes it has. inputs are the widths of the input values,
 * outputs those of the output values, whose bits are the last wires. Questions 1, 4 and 5 with Mask's limits, 6 (are there as many records
 * as gates?), 7 to 9 of each record, as adding puts them, and 14. The records that an opening and steps made get a yes to 6 to 9. */
int64_t fidrovelj_session_text(fidrovelj_session session,
                               const uint32_t *inputs, size_t inputs_len,
                               const uint32_t *outputs, size_t outputs_len,
                               const fidrovelj_source_gate *source, size_t source_len,
                               uint8_t *out, size_t out_len,
                               uint64_t *operands, size_t operands_len,
                               uint64_t *results, size_t results_len,
                               uint8_t sizes);

/* What fidrovelj_mask gives for that text: how many bytes the masked text has, and the code of each output bit at the front of
 * out_codes. codes has a code for each input bit, wanted one for each output bit. The same questions, with 11 and 13 before 14. */
int64_t fidrovelj_session_masked(fidrovelj_session session,
                                 const uint32_t *inputs, size_t inputs_len,
                                 const uint32_t *outputs, size_t outputs_len,
                                 const fidrovelj_source_gate *source, size_t source_len,
                                 const uint8_t *codes, size_t codes_len,
                                 const uint8_t *wanted, size_t wanted_len,
                                 uint8_t *out, size_t out_len,
                                 uint8_t *out_codes, size_t out_codes_len,
                                 uint64_t *operands, size_t operands_len,
                                 uint64_t *results, size_t results_len,
                                 uint32_t *wires, size_t wires_len,
                                 uint8_t *marks, size_t marks_len,
                                 uint8_t sizes);

/* What a leak is made of: questions 1 to 12 as Check puts them, for codes and tables as Check takes them.
 *
 * A verdict on each wire, in the order of their numbers, at the front of out: 0 it has equal counts; 1 it leaks; 2 it
 * leaks and is a cause, since no operand of its gate leaks. Returns how many wires there are. Question 14 of out. */
int64_t fidrovelj_explain_wires(const uint8_t *text, size_t text_len,
                                const uint8_t *codes, size_t codes_len,
                                uint8_t *out, size_t out_len,
                                uint64_t *operands, size_t operands_len,
                                uint64_t *results, size_t results_len,
                                uint8_t *marks, size_t marks_len,
                                uint64_t *words, size_t words_len,
                                uint64_t *base, size_t base_len,
                                uint8_t sizes);

/* The polynomial of a wire, as coefficients at the front of out: entry m is 1 where the product of the variables whose
 * bits are one in m is in the sum, and otherwise 0. Bits 0 and 1 of m are m0 and m1, and bit i + 2 is input bit i,
 * which comes in XOR its mask; entry 0 is the constant. Returns how many there are: 4 times 2 to the number of codes,
 * so at most 16,384. After 12, question 21 asks whether wire is below W; then 14 of out. */
int64_t fidrovelj_polynomial(const uint8_t *text, size_t text_len,
                             const uint8_t *codes, size_t codes_len,
                             size_t wire,
                             uint8_t *out, size_t out_len,
                             uint64_t *operands, size_t operands_len,
                             uint64_t *results, size_t results_len,
                             uint8_t *marks, size_t marks_len,
                             uint64_t *words, size_t words_len,
                             uint8_t sizes);

/* How many settings have the counts 0, 1, 2, 3 and 4 on a wire, at the front of out: returns 5 where the wire has equal
 * counts. Where it leaks three more numbers follow, and it returns 8: a setting whose count is not its base's, of those
 * with the fewest ones the smallest; its base's count; its own. After 12, question 21 asks whether wire is below W;
 * then 14 of out. */
int64_t fidrovelj_counts(const uint8_t *text, size_t text_len,
                         const uint8_t *codes, size_t codes_len,
                         size_t wire,
                         uint64_t *out, size_t out_len,
                         uint64_t *operands, size_t operands_len,
                         uint64_t *results, size_t results_len,
                         uint8_t *bits, size_t bits_len,
                         uint64_t *words, size_t words_len,
                         uint8_t *bases, size_t bases_len,
                         uint8_t sizes);

/* ---- The version, the words of a refusal, the shape of a netlist and the first refused place. */

/* The version of this header. fidrovelj_version gives that of the library: the first number times 10,000, the second
 * times 100, and the third. */
#define FIDROVELJ_VERSION_MAJOR 1
#define FIDROVELJ_VERSION_MINOR 0
#define FIDROVELJ_VERSION_PATCH 0
#define FIDROVELJ_VERSION "1.0.0"

uint32_t fidrovelj_version(void);

/* The words of a refusal, by the number of its question, 1 to 27: how many bytes they have, at most
 * FIDROVELJ_REFUSAL_BYTES; 0 where no question has the number. They go to the front of buffer, without a NUL, if it can
 * hold them; otherwise it stays as it was. */
#define FIDROVELJ_REFUSAL_BYTES 128

int64_t fidrovelj_refusal(uint8_t question, uint8_t *buffer, size_t buffer_len);

/* How many input and output values a netlist has, their bits, its wires and its gates; refused is 0, or the number of
 * the question that refuses the text, and then all else is 0. */
typedef struct {
    uint64_t input_values, output_values, input_bits, output_bits, wires, gates;
    uint8_t refused;
} fidrovelj_shape_answer;

/* Questions 1 to 9 with the limits of a masked netlist. */
fidrovelj_shape_answer fidrovelj_shape(const uint8_t *text, size_t text_len,
                                       uint64_t *operands, size_t operands_len,
                                       uint64_t *results, size_t results_len,
                                       uint8_t *marks, size_t marks_len,
                                       uint8_t sizes);

/* The first refused place of a text. refused is the question of 2 to 9 that refuses the text, 1 where marks is too
 * short, or 0 where none does; where it is 0 or 1 all else is 0. offset is the byte, counted from 0; line and column
 * are counted from 1, blank lines too. entry is the line counted from 0 without blank lines, and word the word of it,
 * counted from 0; both are 0 for 2 and 3.
 *
 *  2  offset is the limit on texts: the first byte past it. have is the text's length, most the limit.
 *  3  The first byte that may not stand.
 *  4  The first header line that is not of its form; the text's end where it is not there.
 *  5  The first limit that is passed: have is the number, and most its limit. Word 1 of entry 0 is W, word 0 of
 *     entries 1 and 2 are the input and the output values, and word 1 of these the input and the output bits.
 *  6  have is the gate count of the header, and most W less the input bits; where both agree, the number of gate lines.
 *  7  The first line that is no gate, with every line before it passed by 7 to 9. So for
 *  8  the first operand that is not given, or the constant that is no bit, and
 *  9  the result. */
typedef struct {
    size_t offset, line, column, entry, word;
    uint64_t have, most;
    uint8_t refused;
} fidrovelj_place_answer;

/* masked is 0 for the limits of a source (Mask, Mask with fewest changes, Twins), and otherwise those of a masked
 * netlist. */
fidrovelj_place_answer fidrovelj_place(const uint8_t *text, size_t text_len,
                                       uint8_t *marks, size_t marks_len,
                                       uint8_t masked, uint8_t sizes);

/* ---- The gate reader: one gate after another of a text, without a table. */

/* The place before the first gate, what the header counts, and 0; or the question that refuses the text, and then all
 * else is 0. */
typedef struct {
    size_t at, input_values, output_values;
    uint64_t input_bits, output_bits;
    uint32_t wires, gates;
    uint8_t refused;
} fidrovelj_open_answer;

/* Opens a reader: questions 2 to 6 with the limits of a masked netlist, and 14 of the two lists, whose fronts get the
 * widths of the input values and of the output values. 17 and 16 entries are always enough. */
fidrovelj_open_answer fidrovelj_gate_open(const uint8_t *text, size_t text_len,
                                          uint32_t *inputs, size_t inputs_len,
                                          uint32_t *outputs, size_t outputs_len,
                                          uint8_t sizes);

/* A gate, and the place before the next one. At the end the gate has kind 0, and refused is 0. Where the line is no
 * gate, the gate has kind 0, and refused is 7. Then the place is the one that was given, so the same answer comes
 * again. */
typedef struct {
    fidrovelj_gate gate;
    size_t at;
    uint8_t refused;
} fidrovelj_next_answer;

/* The gate at a place: at is the opening's, or that of the gate before. */
fidrovelj_next_answer fidrovelj_gate_next(const uint8_t *text, size_t text_len, size_t at);

/* ---- One block of words for all working tables of a call.
 *
 * The functions whose names end in _in make the call of the same name on tables that lie one after another in one block
 * of 64-bit words. fidrovelj_workspace_words says how many words a service needs. Of a block of more words those are
 * used alone, and no other is touched; they are zero on return. A block of fewer words is refused by 1, and is zero on
 * return. (fidrovelj_place_in with the limits of a source takes fewer words too, as many as those limits ask for.)
 * The block's alignment is that of uint64_t. */
#define FIDROVELJ_SERVICE_REWRITE 1
#define FIDROVELJ_SERVICE_FROM_OLD 2
#define FIDROVELJ_SERVICE_TO_OLD 3
#define FIDROVELJ_SERVICE_RUN 4
#define FIDROVELJ_SERVICE_RUN64 5
#define FIDROVELJ_SERVICE_MASK 6
#define FIDROVELJ_SERVICE_MASK_FEWEST 7
#define FIDROVELJ_SERVICE_TWINS 8
#define FIDROVELJ_SERVICE_CHECK 9
#define FIDROVELJ_SERVICE_CHECK_PAIRS 10
#define FIDROVELJ_SERVICE_CHECK_WIDE 11
#define FIDROVELJ_SERVICE_CERTIFY 12
#define FIDROVELJ_SERVICE_FROM_AIGER 13
#define FIDROVELJ_SERVICE_JOIN 14
#define FIDROVELJ_SERVICE_FROM_VERILOG 15
#define FIDROVELJ_SERVICE_SESSION_TEXT 16
#define FIDROVELJ_SERVICE_SESSION_MASKED 17
#define FIDROVELJ_SERVICE_SHAPE 18
#define FIDROVELJ_SERVICE_PLACE 19
#define FIDROVELJ_SERVICE_EXPLAIN_WIRES 20
#define FIDROVELJ_SERVICE_POLYNOMIAL 21
#define FIDROVELJ_SERVICE_COUNTS 22

/* How many words a service's tables have together; 0 where no service has the number. */
size_t fidrovelj_workspace_words(uint8_t service, uint8_t sizes);

/* Where a table stands in a block: the word that it starts at, and how many entries it has. */
typedef struct {
    size_t at, entries;
} fidrovelj_span;

/* Table number table of a service, counted from 0 in the order of the call's parameters. In a block of enough words it
 * lies within it, apart from the others, with as many entries as question 1 asks for. In a block of fewer words the
 * first table has all of them, and the others have no entry. */
fidrovelj_span fidrovelj_workspace_span(uint8_t service, size_t table, size_t words, uint8_t sizes);

/* (C before C99 has no word inline.) */
#if defined(__cplusplus) || (defined(__STDC_VERSION__) && __STDC_VERSION__ >= 199901L)
#define FIDROVELJ_INLINE static inline
#elif defined(__GNUC__)
#define FIDROVELJ_INLINE static __inline__
#else
#define FIDROVELJ_INLINE static
#endif

/* The service, the block, its words and the sizes of the call in which it stands. */
#define FIDROVELJ_TABLE(type, service, table)                                                         \
    (type *)(workspace + fidrovelj_workspace_span(service, table, workspace_words, sizes).at),        \
        fidrovelj_workspace_span(service, table, workspace_words, sizes).entries

FIDROVELJ_INLINE int64_t fidrovelj_rewrite_in(const uint8_t *text, size_t text_len,
                                              uint8_t *out, size_t out_len,
                                              uint64_t *workspace, size_t workspace_words,
                                              uint8_t sizes)
{
    return fidrovelj_rewrite(text, text_len,
                             out, out_len,
                             FIDROVELJ_TABLE(uint64_t, FIDROVELJ_SERVICE_REWRITE, 0),
                             FIDROVELJ_TABLE(uint64_t, FIDROVELJ_SERVICE_REWRITE, 1),
                             FIDROVELJ_TABLE(uint8_t, FIDROVELJ_SERVICE_REWRITE, 2),
                             sizes);
}

FIDROVELJ_INLINE int64_t fidrovelj_from_old_in(const uint8_t *text, size_t text_len,
                                               uint8_t *out, size_t out_len,
                                               uint64_t *workspace, size_t workspace_words,
                                               uint8_t sizes)
{
    return fidrovelj_from_old(text, text_len,
                              out, out_len,
                              FIDROVELJ_TABLE(uint64_t, FIDROVELJ_SERVICE_FROM_OLD, 0),
                              FIDROVELJ_TABLE(uint64_t, FIDROVELJ_SERVICE_FROM_OLD, 1),
                              FIDROVELJ_TABLE(uint8_t, FIDROVELJ_SERVICE_FROM_OLD, 2),
                              sizes);
}

FIDROVELJ_INLINE int64_t fidrovelj_to_old_in(const uint8_t *text, size_t text_len,
                                             uint8_t *out, size_t out_len,
                                             uint64_t *workspace, size_t workspace_words,
                                             uint8_t sizes)
{
    return fidrovelj_to_old(text, text_len,
                            out, out_len,
                            FIDROVELJ_TABLE(uint64_t, FIDROVELJ_SERVICE_TO_OLD, 0),
                            FIDROVELJ_TABLE(uint64_t, FIDROVELJ_SERVICE_TO_OLD, 1),
                            FIDROVELJ_TABLE(uint8_t, FIDROVELJ_SERVICE_TO_OLD, 2),
                            sizes);
}

FIDROVELJ_INLINE int64_t fidrovelj_run_in(const uint8_t *text, size_t text_len,
                                          const uint8_t *list, size_t list_len,
                                          uint8_t *out, size_t out_len,
                                          uint64_t *workspace, size_t workspace_words,
                                          uint8_t sizes)
{
    return fidrovelj_run(text, text_len,
                         list, list_len,
                         out, out_len,
                         FIDROVELJ_TABLE(uint64_t, FIDROVELJ_SERVICE_RUN, 0),
                         FIDROVELJ_TABLE(uint64_t, FIDROVELJ_SERVICE_RUN, 1),
                         FIDROVELJ_TABLE(uint8_t, FIDROVELJ_SERVICE_RUN, 2),
                         FIDROVELJ_TABLE(uint64_t, FIDROVELJ_SERVICE_RUN, 3),
                         sizes);
}

FIDROVELJ_INLINE int64_t fidrovelj_run64_in(const uint8_t *text, size_t text_len,
                                            const uint64_t *list, size_t list_len,
                                            uint64_t *out, size_t out_len,
                                            uint64_t *workspace, size_t workspace_words,
                                            uint8_t sizes)
{
    return fidrovelj_run64(text, text_len,
                           list, list_len,
                           out, out_len,
                           FIDROVELJ_TABLE(uint64_t, FIDROVELJ_SERVICE_RUN64, 0),
                           FIDROVELJ_TABLE(uint64_t, FIDROVELJ_SERVICE_RUN64, 1),
                           FIDROVELJ_TABLE(uint8_t, FIDROVELJ_SERVICE_RUN64, 2),
                           FIDROVELJ_TABLE(uint64_t, FIDROVELJ_SERVICE_RUN64, 3),
                           sizes);
}

FIDROVELJ_INLINE int64_t fidrovelj_mask_in(const uint8_t *text, size_t text_len,
                                           const uint8_t *codes, size_t codes_len,
                                           const uint8_t *wanted, size_t wanted_len,
                                           uint8_t *out, size_t out_len,
                                           uint8_t *out_codes, size_t out_codes_len,
                                           uint64_t *workspace, size_t workspace_words,
                                           uint8_t sizes)
{
    return fidrovelj_mask(text, text_len,
                          codes, codes_len,
                          wanted, wanted_len,
                          out, out_len,
                          out_codes, out_codes_len,
                          FIDROVELJ_TABLE(uint64_t, FIDROVELJ_SERVICE_MASK, 0),
                          FIDROVELJ_TABLE(uint64_t, FIDROVELJ_SERVICE_MASK, 1),
                          FIDROVELJ_TABLE(uint32_t, FIDROVELJ_SERVICE_MASK, 2),
                          FIDROVELJ_TABLE(uint8_t, FIDROVELJ_SERVICE_MASK, 3),
                          sizes);
}

FIDROVELJ_INLINE int64_t fidrovelj_mask_fewest_in(const uint8_t *text, size_t text_len,
                                                  const uint8_t *codes, size_t codes_len,
                                                  const uint8_t *wanted, size_t wanted_len,
                                                  uint64_t budget,
                                                  uint8_t *out, size_t out_len,
                                                  uint8_t *in_codes, size_t in_codes_len,
                                                  uint8_t *out_codes, size_t out_codes_len,
                                                  uint64_t *tally, size_t tally_len,
                                                  uint64_t *workspace, size_t workspace_words,
                                                  uint8_t sizes)
{
    return fidrovelj_mask_fewest(text, text_len,
                                 codes, codes_len,
                                 wanted, wanted_len,
                                 budget,
                                 out, out_len,
                                 in_codes, in_codes_len,
                                 out_codes, out_codes_len,
                                 tally, tally_len,
                                 FIDROVELJ_TABLE(uint64_t, FIDROVELJ_SERVICE_MASK_FEWEST, 0),
                                 FIDROVELJ_TABLE(uint64_t, FIDROVELJ_SERVICE_MASK_FEWEST, 1),
                                 FIDROVELJ_TABLE(uint32_t, FIDROVELJ_SERVICE_MASK_FEWEST, 2),
                                 FIDROVELJ_TABLE(uint8_t, FIDROVELJ_SERVICE_MASK_FEWEST, 3),
                                 FIDROVELJ_TABLE(uint8_t, FIDROVELJ_SERVICE_MASK_FEWEST, 4),
                                 FIDROVELJ_TABLE(uint8_t, FIDROVELJ_SERVICE_MASK_FEWEST, 5),
                                 FIDROVELJ_TABLE(uint64_t, FIDROVELJ_SERVICE_MASK_FEWEST, 6),
                                 sizes);
}

FIDROVELJ_INLINE int64_t fidrovelj_twins_in(const uint8_t *text, size_t text_len,
                                            const uint8_t *codes, size_t codes_len,
                                            uint32_t *out_wires, size_t out_wires_len,
                                            uint8_t *out_codes, size_t out_codes_len,
                                            uint64_t *workspace, size_t workspace_words,
                                            uint8_t sizes)
{
    return fidrovelj_twins(text, text_len,
                           codes, codes_len,
                           out_wires, out_wires_len,
                           out_codes, out_codes_len,
                           FIDROVELJ_TABLE(uint64_t, FIDROVELJ_SERVICE_TWINS, 0),
                           FIDROVELJ_TABLE(uint64_t, FIDROVELJ_SERVICE_TWINS, 1),
                           FIDROVELJ_TABLE(uint8_t, FIDROVELJ_SERVICE_TWINS, 2),
                           sizes);
}

FIDROVELJ_INLINE int64_t fidrovelj_check_in(const uint8_t *text, size_t text_len,
                                            const uint8_t *codes, size_t codes_len,
                                            uint64_t *leak, size_t leak_len,
                                            uint64_t *workspace, size_t workspace_words,
                                            uint8_t sizes)
{
    return fidrovelj_check(text, text_len,
                           codes, codes_len,
                           leak, leak_len,
                           FIDROVELJ_TABLE(uint64_t, FIDROVELJ_SERVICE_CHECK, 0),
                           FIDROVELJ_TABLE(uint64_t, FIDROVELJ_SERVICE_CHECK, 1),
                           FIDROVELJ_TABLE(uint8_t, FIDROVELJ_SERVICE_CHECK, 2),
                           FIDROVELJ_TABLE(uint64_t, FIDROVELJ_SERVICE_CHECK, 3),
                           FIDROVELJ_TABLE(uint64_t, FIDROVELJ_SERVICE_CHECK, 4),
                           sizes);
}

FIDROVELJ_INLINE int64_t fidrovelj_check_pairs_in(const uint8_t *text, size_t text_len,
                                                  const uint8_t *codes, size_t codes_len,
                                                  const uint32_t *pairs, size_t pairs_len,
                                                  uint64_t *leak, size_t leak_len,
                                                  uint64_t *bad, size_t bad_len,
                                                  uint64_t *workspace, size_t workspace_words,
                                                  uint8_t sizes)
{
    return fidrovelj_check_pairs(text, text_len,
                                 codes, codes_len,
                                 pairs, pairs_len,
                                 leak, leak_len,
                                 bad, bad_len,
                                 FIDROVELJ_TABLE(uint64_t, FIDROVELJ_SERVICE_CHECK_PAIRS, 0),
                                 FIDROVELJ_TABLE(uint64_t, FIDROVELJ_SERVICE_CHECK_PAIRS, 1),
                                 FIDROVELJ_TABLE(uint8_t, FIDROVELJ_SERVICE_CHECK_PAIRS, 2),
                                 FIDROVELJ_TABLE(uint64_t, FIDROVELJ_SERVICE_CHECK_PAIRS, 3),
                                 FIDROVELJ_TABLE(uint64_t, FIDROVELJ_SERVICE_CHECK_PAIRS, 4),
                                 FIDROVELJ_TABLE(uint64_t, FIDROVELJ_SERVICE_CHECK_PAIRS, 5),
                                 sizes);
}

FIDROVELJ_INLINE int64_t fidrovelj_check_wide_in(const uint8_t *text, size_t text_len,
                                                 const uint8_t *codes, size_t codes_len,
                                                 const uint32_t *pairs, size_t pairs_len,
                                                 uint64_t *leak, size_t leak_len,
                                                 uint64_t *ones, size_t ones_len,
                                                 uint64_t *bad, size_t bad_len,
                                                 uint64_t *workspace, size_t workspace_words,
                                                 uint8_t sizes)
{
    return fidrovelj_check_wide(text, text_len,
                                codes, codes_len,
                                pairs, pairs_len,
                                leak, leak_len,
                                ones, ones_len,
                                bad, bad_len,
                                FIDROVELJ_TABLE(uint64_t, FIDROVELJ_SERVICE_CHECK_WIDE, 0),
                                FIDROVELJ_TABLE(uint64_t, FIDROVELJ_SERVICE_CHECK_WIDE, 1),
                                FIDROVELJ_TABLE(uint8_t, FIDROVELJ_SERVICE_CHECK_WIDE, 2),
                                FIDROVELJ_TABLE(uint64_t, FIDROVELJ_SERVICE_CHECK_WIDE, 3),
                                FIDROVELJ_TABLE(uint64_t, FIDROVELJ_SERVICE_CHECK_WIDE, 4),
                                FIDROVELJ_TABLE(uint64_t, FIDROVELJ_SERVICE_CHECK_WIDE, 5),
                                FIDROVELJ_TABLE(uint64_t, FIDROVELJ_SERVICE_CHECK_WIDE, 6),
                                FIDROVELJ_TABLE(uint64_t, FIDROVELJ_SERVICE_CHECK_WIDE, 7),
                                FIDROVELJ_TABLE(uint64_t, FIDROVELJ_SERVICE_CHECK_WIDE, 8),
                                FIDROVELJ_TABLE(uint64_t, FIDROVELJ_SERVICE_CHECK_WIDE, 9),
                                FIDROVELJ_TABLE(uint8_t, FIDROVELJ_SERVICE_CHECK_WIDE, 10),
                                sizes);
}

FIDROVELJ_INLINE int64_t fidrovelj_certify_in(const uint8_t *text, size_t text_len,
                                              const uint8_t *codes, size_t codes_len,
                                              uint64_t *leak, size_t leak_len,
                                              uint64_t *ones, size_t ones_len,
                                              uint64_t *workspace, size_t workspace_words,
                                              uint8_t sizes)
{
    return fidrovelj_certify(text, text_len,
                             codes, codes_len,
                             leak, leak_len,
                             ones, ones_len,
                             FIDROVELJ_TABLE(uint64_t, FIDROVELJ_SERVICE_CERTIFY, 0),
                             FIDROVELJ_TABLE(uint64_t, FIDROVELJ_SERVICE_CERTIFY, 1),
                             FIDROVELJ_TABLE(uint8_t, FIDROVELJ_SERVICE_CERTIFY, 2),
                             FIDROVELJ_TABLE(uint64_t, FIDROVELJ_SERVICE_CERTIFY, 3),
                             FIDROVELJ_TABLE(uint64_t, FIDROVELJ_SERVICE_CERTIFY, 4),
                             FIDROVELJ_TABLE(uint64_t, FIDROVELJ_SERVICE_CERTIFY, 5),
                             sizes);
}

FIDROVELJ_INLINE int64_t fidrovelj_from_aiger_in(const uint8_t *text, size_t text_len,
                                                 uint8_t *out, size_t out_len,
                                                 uint64_t *workspace, size_t workspace_words,
                                                 uint8_t sizes)
{
    return fidrovelj_from_aiger(text, text_len,
                                out, out_len,
                                FIDROVELJ_TABLE(uint64_t, FIDROVELJ_SERVICE_FROM_AIGER, 0),
                                FIDROVELJ_TABLE(uint64_t, FIDROVELJ_SERVICE_FROM_AIGER, 1),
                                FIDROVELJ_TABLE(uint32_t, FIDROVELJ_SERVICE_FROM_AIGER, 2),
                                sizes);
}

FIDROVELJ_INLINE int64_t fidrovelj_join_in(const uint8_t *first, size_t first_len,
                                           const uint8_t *second, size_t second_len,
                                           const uint8_t *first_codes, size_t first_codes_len,
                                           const uint8_t *first_out_codes, size_t first_out_codes_len,
                                           const uint8_t *second_codes, size_t second_codes_len,
                                           uint8_t *out, size_t out_len,
                                           uint64_t *workspace, size_t workspace_words,
                                           uint8_t sizes)
{
    return fidrovelj_join(first, first_len,
                          second, second_len,
                          first_codes, first_codes_len,
                          first_out_codes, first_out_codes_len,
                          second_codes, second_codes_len,
                          out, out_len,
                          FIDROVELJ_TABLE(uint64_t, FIDROVELJ_SERVICE_JOIN, 0),
                          FIDROVELJ_TABLE(uint64_t, FIDROVELJ_SERVICE_JOIN, 1),
                          FIDROVELJ_TABLE(uint8_t, FIDROVELJ_SERVICE_JOIN, 2),
                          FIDROVELJ_TABLE(uint64_t, FIDROVELJ_SERVICE_JOIN, 3),
                          FIDROVELJ_TABLE(uint64_t, FIDROVELJ_SERVICE_JOIN, 4),
                          sizes);
}

FIDROVELJ_INLINE int64_t fidrovelj_from_verilog_in(const uint8_t *text, size_t text_len,
                                                   uint8_t *out, size_t out_len,
                                                   uint64_t *workspace, size_t workspace_words,
                                                   uint8_t sizes)
{
    return fidrovelj_from_verilog(text, text_len,
                                  out, out_len,
                                  FIDROVELJ_TABLE(uint64_t, FIDROVELJ_SERVICE_FROM_VERILOG, 0),
                                  FIDROVELJ_TABLE(uint64_t, FIDROVELJ_SERVICE_FROM_VERILOG, 1),
                                  FIDROVELJ_TABLE(uint64_t, FIDROVELJ_SERVICE_FROM_VERILOG, 2),
                                  FIDROVELJ_TABLE(uint64_t, FIDROVELJ_SERVICE_FROM_VERILOG, 3),
                                  FIDROVELJ_TABLE(uint64_t, FIDROVELJ_SERVICE_FROM_VERILOG, 4),
                                  FIDROVELJ_TABLE(uint32_t, FIDROVELJ_SERVICE_FROM_VERILOG, 5),
                                  FIDROVELJ_TABLE(uint32_t, FIDROVELJ_SERVICE_FROM_VERILOG, 6),
                                  sizes);
}

FIDROVELJ_INLINE int64_t fidrovelj_session_text_in(fidrovelj_session session,
                                                   const uint32_t *inputs, size_t inputs_len,
                                                   const uint32_t *outputs, size_t outputs_len,
                                                   const fidrovelj_source_gate *source, size_t source_len,
                                                   uint8_t *out, size_t out_len,
                                                   uint64_t *workspace, size_t workspace_words,
                                                   uint8_t sizes)
{
    return fidrovelj_session_text(session,
                                  inputs, inputs_len,
                                  outputs, outputs_len,
                                  source, source_len,
                                  out, out_len,
                                  FIDROVELJ_TABLE(uint64_t, FIDROVELJ_SERVICE_SESSION_TEXT, 0),
                                  FIDROVELJ_TABLE(uint64_t, FIDROVELJ_SERVICE_SESSION_TEXT, 1),
                                  sizes);
}

FIDROVELJ_INLINE int64_t fidrovelj_session_masked_in(fidrovelj_session session,
                                                     const uint32_t *inputs, size_t inputs_len,
                                                     const uint32_t *outputs, size_t outputs_len,
                                                     const fidrovelj_source_gate *source, size_t source_len,
                                                     const uint8_t *codes, size_t codes_len,
                                                     const uint8_t *wanted, size_t wanted_len,
                                                     uint8_t *out, size_t out_len,
                                                     uint8_t *out_codes, size_t out_codes_len,
                                                     uint64_t *workspace, size_t workspace_words,
                                                     uint8_t sizes)
{
    return fidrovelj_session_masked(session,
                                    inputs, inputs_len,
                                    outputs, outputs_len,
                                    source, source_len,
                                    codes, codes_len,
                                    wanted, wanted_len,
                                    out, out_len,
                                    out_codes, out_codes_len,
                                    FIDROVELJ_TABLE(uint64_t, FIDROVELJ_SERVICE_SESSION_MASKED, 0),
                                    FIDROVELJ_TABLE(uint64_t, FIDROVELJ_SERVICE_SESSION_MASKED, 1),
                                    FIDROVELJ_TABLE(uint32_t, FIDROVELJ_SERVICE_SESSION_MASKED, 2),
                                    FIDROVELJ_TABLE(uint8_t, FIDROVELJ_SERVICE_SESSION_MASKED, 3),
                                    sizes);
}

FIDROVELJ_INLINE fidrovelj_shape_answer fidrovelj_shape_in(const uint8_t *text, size_t text_len,
                                                           uint64_t *workspace, size_t workspace_words,
                                                           uint8_t sizes)
{
    return fidrovelj_shape(text, text_len,
                           FIDROVELJ_TABLE(uint64_t, FIDROVELJ_SERVICE_SHAPE, 0),
                           FIDROVELJ_TABLE(uint64_t, FIDROVELJ_SERVICE_SHAPE, 1),
                           FIDROVELJ_TABLE(uint8_t, FIDROVELJ_SERVICE_SHAPE, 2),
                           sizes);
}

FIDROVELJ_INLINE fidrovelj_place_answer fidrovelj_place_in(const uint8_t *text, size_t text_len,
                                                           uint64_t *workspace, size_t workspace_words,
                                                           uint8_t masked, uint8_t sizes)
{
    return fidrovelj_place(text, text_len,
                           FIDROVELJ_TABLE(uint8_t, FIDROVELJ_SERVICE_PLACE, 0),
                           masked, sizes);
}

FIDROVELJ_INLINE int64_t fidrovelj_explain_wires_in(const uint8_t *text, size_t text_len,
                                                    const uint8_t *codes, size_t codes_len,
                                                    uint8_t *out, size_t out_len,
                                                    uint64_t *workspace, size_t workspace_words,
                                                    uint8_t sizes)
{
    return fidrovelj_explain_wires(text, text_len,
                                   codes, codes_len,
                                   out, out_len,
                                   FIDROVELJ_TABLE(uint64_t, FIDROVELJ_SERVICE_EXPLAIN_WIRES, 0),
                                   FIDROVELJ_TABLE(uint64_t, FIDROVELJ_SERVICE_EXPLAIN_WIRES, 1),
                                   FIDROVELJ_TABLE(uint8_t, FIDROVELJ_SERVICE_EXPLAIN_WIRES, 2),
                                   FIDROVELJ_TABLE(uint64_t, FIDROVELJ_SERVICE_EXPLAIN_WIRES, 3),
                                   FIDROVELJ_TABLE(uint64_t, FIDROVELJ_SERVICE_EXPLAIN_WIRES, 4),
                                   sizes);
}

FIDROVELJ_INLINE int64_t fidrovelj_polynomial_in(const uint8_t *text, size_t text_len,
                                                 const uint8_t *codes, size_t codes_len,
                                                 size_t wire,
                                                 uint8_t *out, size_t out_len,
                                                 uint64_t *workspace, size_t workspace_words,
                                                 uint8_t sizes)
{
    return fidrovelj_polynomial(text, text_len,
                                codes, codes_len,
                                wire,
                                out, out_len,
                                FIDROVELJ_TABLE(uint64_t, FIDROVELJ_SERVICE_POLYNOMIAL, 0),
                                FIDROVELJ_TABLE(uint64_t, FIDROVELJ_SERVICE_POLYNOMIAL, 1),
                                FIDROVELJ_TABLE(uint8_t, FIDROVELJ_SERVICE_POLYNOMIAL, 2),
                                FIDROVELJ_TABLE(uint64_t, FIDROVELJ_SERVICE_POLYNOMIAL, 3),
                                sizes);
}

FIDROVELJ_INLINE int64_t fidrovelj_counts_in(const uint8_t *text, size_t text_len,
                                             const uint8_t *codes, size_t codes_len,
                                             size_t wire,
                                             uint64_t *out, size_t out_len,
                                             uint64_t *workspace, size_t workspace_words,
                                             uint8_t sizes)
{
    return fidrovelj_counts(text, text_len,
                            codes, codes_len,
                            wire,
                            out, out_len,
                            FIDROVELJ_TABLE(uint64_t, FIDROVELJ_SERVICE_COUNTS, 0),
                            FIDROVELJ_TABLE(uint64_t, FIDROVELJ_SERVICE_COUNTS, 1),
                            FIDROVELJ_TABLE(uint8_t, FIDROVELJ_SERVICE_COUNTS, 2),
                            FIDROVELJ_TABLE(uint64_t, FIDROVELJ_SERVICE_COUNTS, 3),
                            FIDROVELJ_TABLE(uint8_t, FIDROVELJ_SERVICE_COUNTS, 4),
                            sizes);
}

#undef FIDROVELJ_TABLE

/* The cone of a wire, an entry for each wire, in the order of their numbers, at the front of out: one more than its
 * distance, which is how many gates stand between, so 1 for the wire itself; 0 where it does not reach the wire within
 * depth gates. Returns how many wires there are. Questions 1 to 9 with the large limits, 21 (is wire below W?), and 14
 * of out. */
int64_t fidrovelj_cone(const uint8_t *text, size_t text_len,
                       size_t wire,
                       uint16_t depth,
                       uint32_t *out, size_t out_len,
                       uint64_t *operands, size_t operands_len,
                       uint64_t *results, size_t results_len,
                       uint8_t *marks, size_t marks_len,
                       uint8_t sizes);

#ifdef __cplusplus
}
#endif

#endif
