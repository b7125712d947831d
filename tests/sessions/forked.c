/* A solver of picosat that is there before the process forks:
 *
 *   forked            the parent and a child continue with it, another child leaves it alone, and a third resets it
 *   forked contexts   it is asked in a context, of which there is no record
 */
#include <picosat/picosat.h>
#include <stdio.h>
#include <stdlib.h>
#include <string.h>
#include <sys/wait.h>
#include <unistd.h>

/* more than a record keeps back before it writes */
enum { TOP = 20000 };

static void clause(PicoSAT *solver, int first, int second) {
    picosat_add(solver, first);
    if (second) {
        picosat_add(solver, second);
    }
    picosat_add(solver, 0);
}

static void wants(int status, int found) {
    if (status != found) {
        fprintf(stderr, "the solver answers %d\n", found);
        _exit(1);
    }
}

/* A child that does this has to end well. */
static void child(void (*does)(PicoSAT *), PicoSAT *solver) {
    int status;
    pid_t process = fork();
    if (process == 0) {
        does(solver);
        exit(0);
    }
    if (waitpid(process, &status, 0) != process || status != 0) {
        exit(1);
    }
}

static void nothing(PicoSAT *solver) { (void)solver; }

static void asks(PicoSAT *solver) {
    if (picosat_deref(solver, TOP) != 1) {
        exit(1);
    }
    clause(solver, -TOP, 0);
    picosat_assume(solver, 1);
    wants(PICOSAT_UNSATISFIABLE, picosat_sat(solver, -1));
    if (!picosat_failed_assumption(solver, 1)) {
        exit(1);
    }
    wants(PICOSAT_SATISFIABLE, picosat_sat(solver, -1));
    picosat_reset(solver);
}

int main(int count, char **words) {
    PicoSAT *solver = picosat_init();
    for (int variable = 1; variable < TOP; variable++) {
        clause(solver, -variable, variable + 1);
    }
    if (count > 1 && strcmp(words[1], "contexts") == 0) {
        picosat_push(solver);
        picosat_pop(solver);
        picosat_reset(solver);
        return 0;
    }
    picosat_assume(solver, 1);
    wants(PICOSAT_SATISFIABLE, picosat_sat(solver, -1));
    child(nothing, solver);
    child(picosat_reset, solver);
    child(asks, solver);
    clause(solver, 1, 0);
    wants(PICOSAT_SATISFIABLE, picosat_sat(solver, -1));
    picosat_assume(solver, -TOP);
    wants(PICOSAT_UNSATISFIABLE, picosat_sat(solver, -1));
    picosat_reset(solver);
    /* the first query is in both records */
    puts("4 satisfiable, 2 unsatisfiable");
    return 0;
}
