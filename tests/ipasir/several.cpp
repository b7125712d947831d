// Several solvers by IPASIR in one program:
//
//   several threads     each of two threads has its own
//   several orders      three that are given up in another order, one of them without a query, and one that is never given up
//   several forked      a child goes on with a solver, another leaves it alone, a third gives it up, and the parent goes on with it
//   several calls       the calls for the application's functions
//   several edges       what an application may do at the edges: see there
//   several killed      the same, and then it is killed
#include "ipasir.h"
#include <csignal>
#include <cstdio>
#include <cstdlib>
#include <initializer_list>
#include <string>
#include <sys/wait.h>
#include <thread>
#include <unistd.h>

namespace {

void wants(bool is_right, const char *what) {
    if (!is_right) {
        std::printf("wrong: %s\n", what);
        std::exit(1);
    }
}

void clause(void *solver, std::initializer_list<int> literals) {
    for (int literal : literals) {
        ipasir_add(solver, literal);
    }
    ipasir_add(solver, 0);
}

int ask(void *solver, std::initializer_list<int> assumed) {
    for (int literal : assumed) {
        ipasir_assume(solver, literal);
    }
    return ipasir_solve(solver);
}

// So many pigeons in one hole less, where they are let in by the literal `in`. The variables begin after it.
void pigeons(void *solver, int count, int in) {
    auto sits = [count, in](int pigeon, int hole) { return in + 1 + pigeon * (count - 1) + hole; };
    for (int pigeon = 0; pigeon < count; pigeon++) {
        ipasir_add(solver, -in);
        for (int hole = 0; hole < count - 1; hole++) {
            ipasir_add(solver, sits(pigeon, hole));
        }
        ipasir_add(solver, 0);
        for (int other = 0; other < pigeon; other++) {
            for (int hole = 0; hole < count - 1; hole++) {
                clause(solver, {-sits(pigeon, hole), -sits(other, hole)});
            }
        }
    }
}

void of_thread(int count) {
    for (int round = 0; round < 3; round++) {
        void *solver = ipasir_init();
        pigeons(solver, count, 1);
        wants(ask(solver, {}) == 10 && ipasir_val(solver, 1) == -1, "pigeons that stay out");
        wants(ask(solver, {1}) == 20 && ipasir_failed(solver, 1), "pigeons that are let in");
        ipasir_release(solver);
    }
}

void threads() {
    std::thread first(of_thread, 6), second(of_thread, 7);
    first.join();
    second.join();
}

void orders() {
    void *one = ipasir_init(), *two = ipasir_init(), *three = ipasir_init(), *four = ipasir_init();
    pigeons(one, 5, 1);
    clause(two, {1});
    clause(four, {-1, 2});
    wants(ask(one, {1}) == 20 && ask(two, {}) == 10 && ask(four, {1, -2}) == 20, "each by its own clauses");
    ipasir_release(two);
    wants(ask(one, {}) == 10 && ipasir_val(one, 1) == -1, "the one that is left");
    ipasir_release(one);
    ipasir_release(three);
}

void in_child(void (*does)(void *), void *solver) {
    int status;
    pid_t process = fork();
    if (process == 0) {
        does(solver);
    }
    wants(waitpid(process, &status, 0) == process && status == 0, "a child ends well");
}

void forked() {
    void *solver = ipasir_init();
    pigeons(solver, 6, 1);
    wants(ask(solver, {1}) == 20, "before the fork");
    in_child([](void *) { std::exit(0); }, solver);
    in_child([](void *) { ::_exit(0); }, solver);
    in_child([](void *its) { ipasir_release(its), std::exit(0); }, solver);
    in_child(
        [](void *its) {
            clause(its, {1, 2});
            wants(ask(its, {}) == 10 && ipasir_val(its, 2) == 2 && ask(its, {-2}) == 20, "the child's own clause");
            ::_exit(0);
        },
        solver);
    wants(ask(solver, {-2}) == 10, "the parent's clauses");
    ipasir_release(solver);
}

int stop(void *state) { return ++*static_cast<int *>(state) > 0; }
void learn(void *state, int *literals) { *static_cast<long *>(state) += *literals != 0; }

void calls() {
    void *solver = ipasir_init();
    int asked = 0;
    long learned = 0;
    pigeons(solver, 9, 1);
    ipasir_set_learn(solver, &learned, 1000, learn);
    ipasir_set_terminate(solver, &asked, stop);
    wants(ask(solver, {1}) == 0 && asked, "it is ended by the application");
    wants(!ipasir_failed(solver, 1) && !ipasir_val(solver, 1), "nothing is told of no answer");
    ipasir_set_terminate(solver, nullptr, nullptr);
    wants(ask(solver, {1}) == 20 && learned, "learned clauses");
    ipasir_set_learn(solver, nullptr, 0, nullptr);
    ipasir_release(solver);
}

void edges() {
    void *solver = ipasir_init();
    wants(ask(solver, {}) == 10 && ipasir_val(solver, 7) == -7 && ipasir_val(solver, -7) == -7, "no clause, and a variable that none has");
    clause(solver, {1, 1, 2, 1});
    clause(solver, {3, -3});
    wants(ask(solver, {-1, -1}) == 10 && ipasir_val(solver, 2) == 2 && ipasir_val(solver, 1) == -1, "a literal assumed twice");
    wants(ask(solver, {-1, -2, -1}) == 20 && ipasir_failed(solver, -1) && ipasir_failed(solver, -2), "a core of both");
    wants(!ipasir_failed(solver, 1) && !ipasir_failed(solver, 3), "what was not assumed");
    wants(ask(solver, {4, -4}) == 20 && ipasir_failed(solver, 4) && ipasir_failed(solver, -4), "opposite assumptions");
    wants(ask(solver, {5}) == 10 && ipasir_val(solver, 5) == 5, "an assumption that no clause has");
    wants(ask(solver, {-1, 1}) == 20, "opposite assumptions that clauses have");
    wants(ask(solver, {}) == 10, "assumptions hold for one query");
    clause(solver, {});
    wants(ask(solver, {}) == 20 && ask(solver, {1}) == 20 && !ipasir_failed(solver, 1), "an empty clause");
    clause(solver, {6});
    wants(ask(solver, {6}) == 20, "a query after the clauses have become unsatisfiable");
    ipasir_release(solver);
    solver = ipasir_init();
    clause(solver, {1});
    clause(solver, {-1});
    wants(ask(solver, {2}) == 20 && !ipasir_failed(solver, 2), "two opposite clauses");
    ipasir_release(solver);
}

void killed() {
    edges();
    std::raise(SIGKILL);
}

} // namespace

int main(int count, char **words) {
    std::string word = count == 2 ? words[1] : "";
    void (*does)() = word == "threads"  ? threads
                     : word == "orders" ? orders
                     : word == "forked" ? forked
                     : word == "calls"  ? calls
                     : word == "edges"  ? edges
                     : word == "killed" ? killed
                                        : nullptr;
    if (!does) {
        std::fputs("usage: several threads | orders | forked | calls | edges | killed\n", stderr);
        return 2;
    }
    does();
}
