// A solver whose proof is checked while it runs: CaDiCaL puts its DRAT steps into a pipe, and `drat_check` reads them there.
// No proof file is written.
//
//   c++ -std=c++17 -I../c -o with_cadical with_cadical.cpp -lcadical
//   with_cadical DRAT_CHECK FORMULA [CONFLICTS]
//
// It prints what the checker answers, and ends with its status: 0 only where no assignment satisfies the formula. The solver's
// own answer is not looked at. With a number of conflicts the solver gives up after as many.
#include "cefindrato_running.hpp"
#include <cadical.hpp>
#include <csignal>
#include <cstdlib>

using cefindrato::Answer;

// Solves the formula, and writes the steps into the file. It may give up after this many conflicts; -1: it does not.
static void solve(const char *formula, int conflicts, FILE *proof) {
    CaDiCaL::Solver solver;
    int variables;
    solver.set("quiet", 1);
    solver.trace_proof(proof, "pipe");
    if (const char *fault = solver.read_dimacs(formula, variables)) {
        std::fprintf(stderr, "%s\n", fault);
        return;
    }
    solver.limit("conflicts", conflicts);
    solver.solve();
    solver.close_proof_trace();
}

int main(int count, char **words) try {
    if (count != 3 && count != 4) {
        std::fputs("usage: with_cadical DRAT_CHECK FORMULA [CONFLICTS]\n", stderr);
        return 2;
    }
    std::signal(SIGPIPE, SIG_IGN);
    cefindrato::Running check(words[1], words[2]);
    solve(words[2], count == 4 ? std::atoi(words[3]) : -1, check.proof());
    std::string why;
    switch (check.finish(&why)) {
    case Answer::verified:
        std::puts("verified");
        return 0;
    case Answer::not_verified:
        std::puts("not verified");
        return 3;
    default:
        std::printf("%s\n", why.c_str());
        return 1;
    }
} catch (const std::system_error &why) {
    std::fprintf(stderr, "%s\n", why.what());
    return 2;
}
