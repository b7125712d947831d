/* A resolver of versions over picosat's library: packages with versions, what each needs and what it excludes. Requests ask for
 * versions of some packages together; where they can't be had, the request is made smaller by what the solver says of it. New
 * versions come in between.
 *
 *   resolver PACKAGES REQUESTS     one line: how many queries were satisfiable, and how many were not
 */
#include <picosat/picosat.h>
#include <stdio.h>
#include <stdlib.h>

enum { PACKAGES = 400, VERSIONS = 40 };

static PicoSAT *solver;
static int variables, count[PACKAGES], version[PACKAGES][VERSIONS];
static unsigned long state = 88172645463325252UL;

static int below(int bound) {
    state ^= state << 13;
    state ^= state >> 7;
    state ^= state << 17;
    return (int)((state >> 16) % (unsigned long)bound);
}

/* A package gets a version: at most one of them is taken, it needs some others, and may exclude one. */
static void publish(int package, int packages) {
    if (count[package] == VERSIONS) {
        return;
    }
    int mine = ++variables;
    for (int i = 0; i < count[package]; i++) {
        picosat_add(solver, -mine);
        picosat_add(solver, -version[package][i]);
        picosat_add(solver, 0);
    }
    for (int needs = below(4); needs; needs--) {
        int other = below(packages);
        if (other == package || !count[other]) {
            continue;
        }
        int from = below(count[other]);
        picosat_add(solver, -mine);
        for (int i = from; i < count[other] && i < from + 2; i++) {
            picosat_add(solver, version[other][i]);
        }
        picosat_add(solver, 0);
    }
    int other = below(packages);
    if (other != package && count[other] && below(3) == 0) {
        picosat_add(solver, -mine);
        picosat_add(solver, -version[other][below(count[other])]);
        picosat_add(solver, 0);
    }
    version[package][count[package]++] = mine;
}

static int solve(const int *wanted, int length, int *found) {
    for (int i = 0; i < length; i++) {
        picosat_assume(solver, wanted[i]);
    }
    int status = picosat_sat(solver, -1);
    found[status == PICOSAT_UNSATISFIABLE]++;
    return status;
}

/* Asks, and without one of those that failed together, until they can be had. */
static void request(int *wanted, int length, int *found) {
    while (solve(wanted, length, found) == PICOSAT_UNSATISFIABLE) {
        int left = 0, is_dropped = 0;
        for (int i = 0; i < length; i++) {
            if (!is_dropped && picosat_failed_assumption(solver, wanted[i])) {
                is_dropped = 1;
            } else {
                wanted[left++] = wanted[i];
            }
        }
        length = left;
    }
    for (int i = 0; i < length; i++) {
        if (picosat_deref(solver, wanted[i]) != 1) {
            abort();
        }
    }
}

int main(int argc, char **argv) {
    int packages = argc > 1 ? atoi(argv[1]) : 60, requests = argc > 2 ? atoi(argv[2]) : 100, found[2] = {0, 0};
    if (packages < 2 || packages > PACKAGES || requests < 1) {
        fprintf(stderr, "usage: resolver PACKAGES REQUESTS\n");
        return 2;
    }
    solver = picosat_init();
    for (int i = 0; i < 4 * packages; i++) {
        publish(i % packages, packages);
    }
    for (int i = 0; i < requests; i++) {
        int wanted[8], length = 2 + below(7);
        if (below(4) == 0) {
            publish(below(packages), packages);
        }
        for (int k = 0; k < length; k++) {
            int package = below(packages);
            wanted[k] = version[package][below(count[package])];
        }
        request(wanted, length, found);
    }
    picosat_reset(solver);
    printf("%d satisfiable, %d unsatisfiable\n", found[0], found[1]);
    return 0;
}
