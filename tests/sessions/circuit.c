/* Bounded model checking of a circuit, by a solver that is asked under assumptions: two accumulators that add five times their
 * input, one by shifting and adding, the other by adding five times. They are unrolled step by step. At each depth each pair of
 * bits is asked for a difference, and whether the sum can have all bits set, and the clauses of the next step are given.
 *
 *   circuit BITS DEPTH     one line: how many queries were satisfiable, and how many were not
 */
#include "ipasir.h"
#include <stdio.h>
#include <stdlib.h>

enum { MOST = 64 };

static void *solver;
static int variables;

static int fresh(void) { return ++variables; }

static void clause(int a, int b, int c) {
    int literals[3] = {a, b, c};
    for (int i = 0; i < 3; i++) {
        if (literals[i]) {
            ipasir_add(solver, literals[i]);
        }
    }
    ipasir_add(solver, 0);
}

static int both(int a, int b) {
    int out = fresh();
    clause(-out, a, 0);
    clause(-out, b, 0);
    clause(out, -a, -b);
    return out;
}

static int either(int a, int b) { return -both(-a, -b); }

static int differ(int a, int b) {
    int out = fresh();
    clause(-out, a, b);
    clause(-out, -a, -b);
    clause(out, -a, b);
    clause(out, a, -b);
    return out;
}

/* sum = a + b, without the last carry */
static void add(int *sum, const int *a, const int *b, int bits, int zero) {
    int carry = zero;
    for (int i = 0; i < bits; i++) {
        int half = differ(a[i], b[i]);
        int next = either(both(a[i], b[i]), both(half, carry));
        sum[i] = differ(half, carry);
        carry = next;
    }
}

static void shift(int *out, const int *in, int by, int bits, int zero) {
    for (int i = bits - 1; i >= 0; i--) {
        out[i] = i < by ? zero : in[i - by];
    }
}

static int solve(const int *assumed, int count, int *found) {
    for (int i = 0; i < count; i++) {
        ipasir_assume(solver, assumed[i]);
    }
    int status = ipasir_solve(solver);
    found[status == 20]++;
    return status;
}

int main(int argc, char **argv) {
    int bits = argc > 1 ? atoi(argv[1]) : 6, depth = argc > 2 ? atoi(argv[2]) : 20;
    int first[MOST], second[MOST], input[MOST], part[MOST], found[2] = {0, 0};
    if (bits < 1 || bits > MOST || depth < 1) {
        fprintf(stderr, "usage: circuit BITS DEPTH\n");
        return 2;
    }
    solver = ipasir_init();
    int zero = fresh();
    clause(-zero, 0, 0);
    for (int i = 0; i < bits; i++) {
        first[i] = second[i] = zero;
    }
    for (int step = 1; step <= depth; step++) {
        for (int i = 0; i < bits; i++) {
            input[i] = fresh();
        }
        add(first, first, input, bits, zero);
        shift(part, input, 2, bits, zero);
        add(first, first, part, bits, zero);
        for (int times = 0; times < 5; times++) {
            add(second, second, input, bits, zero);
        }
        for (int i = 0; i < bits; i++) {
            int apart = differ(first[i], second[i]);
            if (solve(&apart, 1, found) != 20) {
                fprintf(stderr, "bit %d differs at step %d\n", i, step);
                return 1;
            }
            clause(-apart, 0, 0);
        }
        if (solve(first, bits, found) == 10 && ipasir_val(solver, first[0]) != first[0]) {
            return 1;
        }
    }
    ipasir_release(solver);
    printf("%d satisfiable, %d unsatisfiable\n", found[0], found[1]);
    return 0;
}
