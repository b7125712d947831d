// IPASIR over CaDiCaL's library as Debian has it (1.5.3), with a record of each session: see record.hpp.
//
//   c++ -std=c++17 -O2 -c ipasir_cadical.cpp
//   c++ -o mine mine.o ipasir_cadical.o -lcadical
//
// The trace of this version does not say when it restores a clause, so deletions of clauses of the session are left out, and a
// derived clause that it restores is missing. Where that matters, `sessions check` passes over all deletions.
#include "cadical_callbacks.hpp"
#include "ipasir.h"
#include "record.hpp"
#include <unordered_set>

namespace {

using sessions::Literals;

// One name for all orders of a clause.
std::string name_of(Literals literals) {
    std::sort(literals.begin(), literals.end());
    literals.erase(std::unique(literals.begin(), literals.end()), literals.end());
    return std::string(reinterpret_cast<const char *>(literals.data()), literals.size() * sizeof(int));
}

class Solver {
  public:
    CaDiCaL::Solver solver;
    sessions::Callbacks callbacks{solver};

    Solver() : record_(sessions::Record::wanted()) {
        solver.set("quiet", 1);
        if (record_) {
            solver.set("binary", 0);
            solver.trace_proof(steps_.file(), "memory");
        }
    }

    ~Solver() {
        if (record_) {
            if (record_->is_own()) {
                drain();
            }
            solver.close_proof_trace();
            record_->end();
        }
    }

    void add(int literal) {
        if (record_ && record_->add(literal)) {
            drain();
            given_.insert(name_of(record_->clause()));
            record_->given();
        }
        solver.add(literal);
    }

    void assume(int literal) {
        if (record_) {
            record_->assume(literal);
        }
        solver.assume(literal);
    }

    int solve() {
        if (record_) {
            drain();
            record_->asked();
        }
        int status = solver.solve();
        if (record_) {
            answered(status);
        }
        return status;
    }

    int value(int literal) {
        int value = solver.val(literal) > 0 ? literal : -literal;
        if (record_) {
            record_->told(value);
        }
        return value;
    }

    int failed(int literal) {
        if (record_) {
            record_->told_core();
        }
        return solver.failed(literal);
    }

  private:
    // What is asked of the solver here makes it write: the clause of a core is the last step before it.
    void answered(int status) {
        std::set<int> core;
        if (status == 20) {
            std::copy_if(record_->assumed().begin(), record_->assumed().end(), std::inserter(core, core.end()),
                         [this](int literal) { return solver.failed(literal); });
        }
        drain();
        record_->answered(status);
        if (status == 20) {
            record_->core(core);
        } else if (status == 10) {
            Literals model;
            for (int variable = 1; variable <= record_->top(); variable++) {
                model.push_back(solver.val(variable) > 0 ? variable : -variable);
            }
            record_->model(model);
        }
    }

    void drain() {
        solver.flush_proof_trace();
        steps_.drain([this](const Literals &literals, bool is_deletion) {
            if (!is_deletion) {
                record_->lemma(literals);
            } else if (!given_.count(name_of(literals))) {
                record_->deletion(literals);
            }
        });
    }

    sessions::Steps steps_;
    std::unique_ptr<sessions::Record> record_;
    std::unordered_set<std::string> given_;
};

Solver *of(void *solver) { return static_cast<Solver *>(solver); }

} // namespace

extern "C" {

const char *ipasir_signature(void) { return CaDiCaL::Solver::signature(); }
void *ipasir_init(void) { return new Solver; }
void ipasir_release(void *solver) { delete of(solver); }
void ipasir_add(void *solver, int literal) { of(solver)->add(literal); }
void ipasir_assume(void *solver, int literal) { of(solver)->assume(literal); }
int ipasir_solve(void *solver) { return of(solver)->solve(); }
int ipasir_val(void *solver, int literal) { return of(solver)->value(literal); }
int ipasir_failed(void *solver, int literal) { return of(solver)->failed(literal); }

void ipasir_set_terminate(void *solver, void *state, int (*terminate)(void *)) { of(solver)->callbacks.terminate(state, terminate); }

void ipasir_set_learn(void *solver, void *state, int max_length, void (*learn)(void *, int *)) {
    of(solver)->callbacks.learn(state, max_length, learn);
}
}
