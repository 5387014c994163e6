/* The baseline under the library's names, so that the library's tests can be put to it. */
#include "../include/fidrovelj.h"
#include "baseline.h"

int64_t fidrovelj_rewrite(const uint8_t *text, size_t text_len,
                          uint8_t *out, size_t out_len,
                          uint64_t *operands, size_t operands_len,
                          uint64_t *results, size_t results_len,
                          uint8_t *given, size_t given_len,
                          uint8_t sizes)
{
    return baseline_rewrite(text, text_len, out, out_len, operands, operands_len, results, results_len, given,
                            given_len, sizes);
}

int64_t fidrovelj_run(const uint8_t *text, size_t text_len,
                      const uint8_t *list, size_t list_len,
                      uint8_t *out, size_t out_len,
                      uint64_t *operands, size_t operands_len,
                      uint64_t *results, size_t results_len,
                      uint8_t *given, size_t given_len,
                      uint64_t *words, size_t words_len,
                      uint8_t sizes)
{
    return baseline_run(text, text_len, list, list_len, out, out_len, operands, operands_len, results, results_len,
                        given, given_len, words, words_len, sizes);
}

int64_t fidrovelj_run64(const uint8_t *text, size_t text_len,
                        const uint64_t *list, size_t list_len,
                        uint64_t *out, size_t out_len,
                        uint64_t *operands, size_t operands_len,
                        uint64_t *results, size_t results_len,
                        uint8_t *given, size_t given_len,
                        uint64_t *words, size_t words_len,
                        uint8_t sizes)
{
    return baseline_run64(text, text_len, list, list_len, out, out_len, operands, operands_len, results, results_len,
                          given, given_len, words, words_len, sizes);
}

int64_t fidrovelj_mask(const uint8_t *text, size_t text_len,
                       const uint8_t *codes, size_t codes_len,
                       const uint8_t *wanted, size_t wanted_len,
                       uint8_t *out, size_t out_len,
                       uint8_t *out_codes, size_t out_codes_len,
                       uint64_t *operands, size_t operands_len,
                       uint64_t *results, size_t results_len,
                       uint32_t *wires, size_t wires_len,
                       uint8_t *marks, size_t marks_len,
                       uint8_t sizes)
{
    return baseline_mask(text, text_len, codes, codes_len, wanted, wanted_len, out, out_len, out_codes,
                         out_codes_len, operands, operands_len, results, results_len, wires, wires_len, marks,
                         marks_len, sizes);
}

int64_t fidrovelj_mask_fewest(const uint8_t *text, size_t text_len,
                              const uint8_t *codes, size_t codes_len,
                              const uint8_t *wanted, size_t wanted_len,
                              uint64_t budget,
                              uint8_t *out, size_t out_len,
                              uint8_t *in_codes, size_t in_codes_len,
                              uint8_t *out_codes, size_t out_codes_len,
                              uint64_t *tally, size_t tally_len,
                              uint64_t *operands, size_t operands_len,
                              uint64_t *results, size_t results_len,
                              uint32_t *wires, size_t wires_len,
                              uint8_t *marks, size_t marks_len,
                              uint8_t *ways, size_t ways_len,
                              uint8_t *best, size_t best_len,
                              uint64_t *spans, size_t spans_len,
                              uint8_t sizes)
{
    return baseline_mask_fewest(text, text_len, codes, codes_len, wanted, wanted_len, budget, out, out_len, in_codes,
                                in_codes_len, out_codes, out_codes_len, tally, tally_len, operands, operands_len,
                                results, results_len, wires, wires_len, marks, marks_len, ways, ways_len, best,
                                best_len, spans, spans_len, sizes);
}

int64_t fidrovelj_twins(const uint8_t *text, size_t text_len,
                        const uint8_t *codes, size_t codes_len,
                        uint32_t *out_wires, size_t out_wires_len,
                        uint8_t *out_codes, size_t out_codes_len,
                        uint64_t *operands, size_t operands_len,
                        uint64_t *results, size_t results_len,
                        uint8_t *given, size_t given_len,
                        uint8_t sizes)
{
    return baseline_twins(text, text_len, codes, codes_len, out_wires, out_wires_len, out_codes, out_codes_len,
                          operands, operands_len, results, results_len, given, given_len, sizes);
}

fidrovelj_step fidrovelj_session_open(const uint32_t *widths, size_t widths_len,
                                      const uint8_t *codes, size_t codes_len,
                                      fidrovelj_gate *masked, size_t masked_len,
                                      uint8_t sizes)
{
    return baseline_session_open(widths, widths_len, codes, codes_len, masked, masked_len, sizes);
}

fidrovelj_step fidrovelj_session_add(fidrovelj_session session, fidrovelj_gate gate,
                                     const uint8_t *codes, size_t codes_len,
                                     fidrovelj_source_gate *source, size_t source_len,
                                     fidrovelj_gate *masked, size_t masked_len,
                                     uint8_t sizes)
{
    return baseline_session_add(session, gate, codes, codes_len, source, source_len, masked, masked_len, sizes);
}

fidrovelj_step fidrovelj_session_take_off(fidrovelj_session session, const fidrovelj_source_gate *source, size_t source_len)
{
    return baseline_session_take_off(session, source, source_len);
}

fidrovelj_source_gate fidrovelj_session_gate(fidrovelj_session session, uint32_t gate, const fidrovelj_source_gate *source,
                                             size_t source_len)
{
    return baseline_session_gate(session, gate, source, source_len);
}

int64_t fidrovelj_session_text(fidrovelj_session session,
                               const uint32_t *inputs, size_t inputs_len,
                               const uint32_t *outputs, size_t outputs_len,
                               const fidrovelj_source_gate *source, size_t source_len,
                               uint8_t *out, size_t out_len,
                               uint64_t *operands, size_t operands_len,
                               uint64_t *results, size_t results_len,
                               uint8_t sizes)
{
    return baseline_session_text(session, inputs, inputs_len, outputs, outputs_len, source, source_len, out, out_len,
                                 operands, operands_len, results, results_len, sizes);
}

int64_t fidrovelj_session_masked(fidrovelj_session session,
                                 const uint32_t *inputs, size_t inputs_len,
                                 const uint32_t *outputs, size_t outputs_len,
                                 const fidrovelj_source_gate *source, size_t source_len,
                                 const uint8_t *codes, size_t codes_len,
                                 const uint8_t *wanted, size_t wanted_len,
                                 uint8_t *out, size_t out_len,
                                 uint8_t *out_codes, size_t out_codes_len,
                                 uint64_t *operands, size_t operands_len,
                                 uint64_t *results, size_t results_len,
                                 uint32_t *wires, size_t wires_len,
                                 uint8_t *marks, size_t marks_len,
                                 uint8_t sizes)
{
    return baseline_session_masked(session, inputs, inputs_len, outputs, outputs_len, source, source_len, codes,
                                   codes_len, wanted, wanted_len, out, out_len, out_codes, out_codes_len, operands,
                                   operands_len, results, results_len, wires, wires_len, marks, marks_len, sizes);
}

int64_t fidrovelj_check(const uint8_t *text, size_t text_len,
                        const uint8_t *codes, size_t codes_len,
                        uint64_t *leak, size_t leak_len,
                        uint64_t *operands, size_t operands_len,
                        uint64_t *results, size_t results_len,
                        uint8_t *given, size_t given_len,
                        uint64_t *words, size_t words_len,
                        uint64_t *base, size_t base_len,
                        uint8_t sizes)
{
    return baseline_check(text, text_len, codes, codes_len, leak, leak_len, operands, operands_len, results,
                          results_len, given, given_len, words, words_len, base, base_len, sizes);
}

int64_t fidrovelj_check_pairs(const uint8_t *text, size_t text_len,
                              const uint8_t *codes, size_t codes_len,
                              const uint32_t *pairs, size_t pairs_len,
                              uint64_t *leak, size_t leak_len,
                              uint64_t *bad, size_t bad_len,
                              uint64_t *operands, size_t operands_len,
                              uint64_t *results, size_t results_len,
                              uint8_t *given, size_t given_len,
                              uint64_t *words, size_t words_len,
                              uint64_t *base, size_t base_len,
                              uint64_t *bases, size_t bases_len,
                              uint8_t sizes)
{
    return baseline_check_pairs(text, text_len, codes, codes_len, pairs, pairs_len, leak, leak_len, bad, bad_len,
                                operands, operands_len, results, results_len, given, given_len, words, words_len,
                                base, base_len, bases, bases_len, sizes);
}

int64_t fidrovelj_check_wide(const uint8_t *text, size_t text_len,
                             const uint8_t *codes, size_t codes_len,
                             const uint32_t *pairs, size_t pairs_len,
                             uint64_t *leak, size_t leak_len,
                             uint64_t *ones, size_t ones_len,
                             uint64_t *bad, size_t bad_len,
                             uint64_t *operands, size_t operands_len,
                             uint64_t *results, size_t results_len,
                             uint8_t *marks, size_t marks_len,
                             uint64_t *words, size_t words_len,
                             uint64_t *base, size_t base_len,
                             uint64_t *bases, size_t bases_len,
                             uint64_t *set0, size_t set0_len,
                             uint64_t *set1, size_t set1_len,
                             uint64_t *set2, size_t set2_len,
                             uint64_t *set3, size_t set3_len,
                             uint8_t *paints, size_t paints_len,
                             uint8_t sizes)
{
    return baseline_check_wide(text, text_len, codes, codes_len, pairs, pairs_len, leak, leak_len, ones, ones_len,
                               bad, bad_len, operands, operands_len, results, results_len, marks, marks_len, words,
                               words_len, base, base_len, bases, bases_len, set0, set0_len, set1, set1_len, set2,
                               set2_len, set3, set3_len, paints, paints_len, sizes);
}

int64_t fidrovelj_from_aiger(const uint8_t *text, size_t text_len,
                             uint8_t *out, size_t out_len,
                             uint64_t *operands, size_t operands_len,
                             uint64_t *results, size_t results_len,
                             uint32_t *variables, size_t variables_len,
                             uint8_t sizes)
{
    return baseline_from_aiger(text, text_len, out, out_len, operands, operands_len, results, results_len, variables,
                               variables_len, sizes);
}

int64_t fidrovelj_from_old(const uint8_t *text, size_t text_len,
                           uint8_t *out, size_t out_len,
                           uint64_t *operands, size_t operands_len,
                           uint64_t *results, size_t results_len,
                           uint8_t *given, size_t given_len,
                           uint8_t sizes)
{
    return baseline_from_old(text, text_len, out, out_len, operands, operands_len, results, results_len, given, given_len,
                        sizes);
}

int64_t fidrovelj_to_old(const uint8_t *text, size_t text_len,
                         uint8_t *out, size_t out_len,
                         uint64_t *operands, size_t operands_len,
                         uint64_t *results, size_t results_len,
                         uint8_t *given, size_t given_len,
                         uint8_t sizes)
{
    return baseline_to_old(text, text_len, out, out_len, operands, operands_len, results, results_len, given, given_len,
                        sizes);
}

int64_t fidrovelj_join(const uint8_t *first, size_t first_len,
                       const uint8_t *second, size_t second_len,
                       const uint8_t *first_codes, size_t first_codes_len,
                       const uint8_t *first_out_codes, size_t first_out_codes_len,
                       const uint8_t *second_codes, size_t second_codes_len,
                       uint8_t *out, size_t out_len,
                       uint64_t *operands, size_t operands_len,
                       uint64_t *results, size_t results_len,
                       uint8_t *given, size_t given_len,
                       uint64_t *words, size_t words_len,
                       uint64_t *base, size_t base_len,
                       uint8_t sizes)
{
    return baseline_join(first, first_len, second, second_len, first_codes, first_codes_len, first_out_codes,
                         first_out_codes_len, second_codes, second_codes_len, out, out_len, operands, operands_len,
                         results, results_len, given, given_len, words, words_len, base, base_len, sizes);
}

int64_t fidrovelj_certify(const uint8_t *text, size_t text_len,
                          const uint8_t *codes, size_t codes_len,
                          uint64_t *leak, size_t leak_len,
                          uint64_t *ones, size_t ones_len,
                          uint64_t *operands, size_t operands_len,
                          uint64_t *results, size_t results_len,
                          uint8_t *marks, size_t marks_len,
                          uint64_t *words, size_t words_len,
                          uint64_t *base, size_t base_len,
                          uint64_t *records, size_t records_len,
                          uint8_t sizes)
{
    return baseline_certify(text, text_len, codes, codes_len, leak, leak_len, ones, ones_len, operands, operands_len, results,
                            results_len, marks, marks_len, words, words_len, base, base_len, records, records_len, sizes);
}

int64_t fidrovelj_from_verilog(const uint8_t *text, size_t text_len,
                               uint8_t *out, size_t out_len,
                               uint64_t *operands, size_t operands_len,
                               uint64_t *results, size_t results_len,
                               uint64_t *heads, size_t heads_len,
                               uint64_t *words, size_t words_len,
                               uint64_t *links, size_t links_len,
                               uint32_t *states, size_t states_len,
                               uint32_t *wires, size_t wires_len,
                               uint8_t sizes)
{
    return baseline_from_verilog(text, text_len, out, out_len, operands, operands_len, results, results_len, heads,
                                 heads_len, words, words_len, links, links_len, states, states_len, wires, wires_len,
                                 sizes);
}
