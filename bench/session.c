/* Sessions: what a step takes however long the list is, by the library and by plain C.
 *
 *     session
 *
 * On a list of so many gates one is added and taken off again, in turn by both, many times: the best of several rounds, in
 * nanoseconds for both steps together. */
#include "../include/fidrovelj.h"
#include "baseline.h"

#include <stdio.h>
#include <stdlib.h>
#include <string.h>
#include <time.h>

#define WIRES FIDROVELJ_WHOLE_SMALL_TABLE
#define INPUTS 64
#define STEPS 20000

static fidrovelj_source_gate source[WIRES];
static fidrovelj_gate masked[9 * WIRES];
static uint8_t codes[INPUTS];

static double now(void)
{
    struct timespec t;
    clock_gettime(CLOCK_PROCESS_CPUTIME_ID, &t);
    return (double)t.tv_sec * 1e9 + (double)t.tv_nsec;
}

static void die(const char *what)
{
    fprintf(stderr, "session: %s\n", what);
    exit(EXIT_FAILURE);
}

/* Gates whose operands lie all over the list; every other one is an AND. */
static fidrovelj_gate gate_at(uint32_t wire, uint32_t turn)
{
    uint32_t first = (wire * 7919U + turn) % wire, second = (wire * 104729U + turn) % wire;
    return (fidrovelj_gate){(wire + turn) % 2 ? FIDROVELJ_XOR : FIDROVELJ_AND, first, second, wire};
}

/* A gate added and taken off again, so many times: the time for one of each. */
static double library_steps(fidrovelj_session s)
{
    double start = now();
    for (uint32_t i = 0; i < STEPS; i++) {
        fidrovelj_step step = fidrovelj_session_add(s, gate_at(INPUTS + s.gates, i), codes, INPUTS, source, WIRES, masked,
                                                    9 * WIRES, FIDROVELJ_WHOLE);
        fidrovelj_step back = fidrovelj_session_take_off(step.session, source, WIRES);
        if (step.refused != 0 || back.refused != 0 || memcmp(&back.session, &s, sizeof s) != 0)
            die("a step is refused");
    }
    return (now() - start) / STEPS;
}

static double baseline_steps(fidrovelj_session s)
{
    double start = now();
    for (uint32_t i = 0; i < STEPS; i++) {
        fidrovelj_step step = baseline_session_add(s, gate_at(INPUTS + s.gates, i), codes, INPUTS, source, WIRES, masked,
                                                   9 * WIRES, FIDROVELJ_WHOLE);
        fidrovelj_step back = baseline_session_take_off(step.session, source, WIRES);
        if (step.refused != 0 || back.refused != 0 || memcmp(&back.session, &s, sizeof s) != 0)
            die("a step is refused");
    }
    return (now() - start) / STEPS;
}

int main(void)
{
    static const uint32_t lengths[] = {1, 10, 100, 1000, 10000, 50000, 99000};
    const uint32_t inputs = INPUTS;
    memset(codes, 1, sizeof codes);
    fidrovelj_step step = fidrovelj_session_open(&inputs, 1, codes, INPUTS, masked, 9 * WIRES, FIDROVELJ_WHOLE);
    if (step.refused != 0)
        die("a session is not opened");
    printf("%-14s %12s %12s %7s\n", "gates", "library, ns", "C, ns", "ratio");
    for (size_t i = 0; i < sizeof lengths / sizeof *lengths; i++) {
        while (step.session.gates < lengths[i]) {
            step = fidrovelj_session_add(step.session, gate_at(INPUTS + step.session.gates, 0), codes, INPUTS, source, WIRES,
                                         masked, 9 * WIRES, FIDROVELJ_WHOLE);
            if (step.refused != 0)
                die("a gate is not added");
        }
        double best = 1e18, best_c = 1e18;
        for (int round = 0; round < 12; round++) {
            double ours = library_steps(step.session), theirs = baseline_steps(step.session);
            best = ours < best ? ours : best;
            best_c = theirs < best_c ? theirs : best_c;
        }
        printf("%-14u %12.1f %12.1f %7.2f\n", lengths[i], best, best_c, best / best_c);
    }
    return EXIT_SUCCESS;
}
