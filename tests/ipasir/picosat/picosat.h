/* The calls of picosat that `tests/sessions/resolver.c` makes, by IPASIR. */
#ifndef PICOSAT_BY_IPASIR
#define PICOSAT_BY_IPASIR
#include "ipasir.h"

enum { PICOSAT_SATISFIABLE = 10, PICOSAT_UNSATISFIABLE = 20 };
typedef void PicoSAT;

static PicoSAT *picosat_init(void) { return ipasir_init(); }
static void picosat_reset(PicoSAT *solver) { ipasir_release(solver); }
static void picosat_add(PicoSAT *solver, int literal) { ipasir_add(solver, literal); }
static void picosat_assume(PicoSAT *solver, int literal) { ipasir_assume(solver, literal); }
static int picosat_sat(PicoSAT *solver, int limit) { return (void)limit, ipasir_solve(solver); }
static int picosat_failed_assumption(PicoSAT *solver, int literal) { return ipasir_failed(solver, literal); }
static int picosat_deref(PicoSAT *solver, int literal) {
    int value = ipasir_val(solver, literal);
    return value == literal ? 1 : value ? -1 : 0;
}
#endif
