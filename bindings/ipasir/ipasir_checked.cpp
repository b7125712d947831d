// IPASIR over CaDiCaL, where each answer is returned once the checker has accepted it: `libcefindrato_ipasir`.
//
// The clauses and queries of which the answers are shown are those of the application's calls, which this file keeps; the solver tells its
// answers, models, cores and lemmas. An answer that is not shown becomes 0, unless SESSION_CHECK says otherwise: see answers.hpp.
#include "../sessions/cadical_callbacks.hpp"
#include "../sessions/ipasir.h"
#include "session.hpp"
#if __has_include(<tracer.hpp>) || __has_include(<cadical/tracer.hpp>)
#include "solver_tracer.hpp"
#else
#include "solver_drup.hpp"
#endif
#include <memory>

namespace {

using namespace cefindrato_ipasir;

class Layer {
  public:
    Layer() { Answers::all().begin(); }
    Layer(const Layer &) = delete;
    Layer &operator=(const Layer &) = delete;

    void add(int literal) {
        next();
        if (literal) {
            see(literal);
            clause_.push_back(literal);
            solver_.cadical.add(literal);
        } else {
            solver_.give(clause_);
            clause_.clear();
        }
    }

    void assume(int literal) {
        next();
        see(literal);
        assumed_.push_back(literal);
        solver_.cadical.assume(literal);
    }

    int solve() {
        next();
        int status = solver_.solve();
        told_ = status == 10 || status == 20 ? status : 0;
        cause_.clear();
        is_shown_ = told_ == 0 || (told_ == 10 ? shows_model() : shows_core());
        Answers::all().count(told_, is_shown_ ? "" : cause_);
        solver_.rest();
        if (!is_shown_ && Answers::all().mode() != Mode::count) {
            told_ = 0;
        }
        has_answer_ = true;
        return told_;
    }

    // Only what was shown, unless the answer was let through. A variable that no call has named is false.
    int value(int literal) {
        if (told_ != 10) {
            return 0;
        }
        int variable = std::abs(literal);
        if (variable > top_) {
            return -variable;
        }
        auto at = static_cast<std::size_t>(variable) - 1;
        bool is_told = at < model_.size() && std::abs(model_[at]) == variable;
        return is_told ? model_[at] : 0;
    }

    int failed(int literal) { return told_ == 20 && core_.count(literal); }

    sessions::Callbacks &callbacks() { return callbacks_; }

  private:
    // Before whatever comes after an answer.
    void next() {
        if (has_answer_) {
            assumed_.clear();
            told_ = 0;
            has_answer_ = false;
        }
    }

    void see(int literal) {
        if (literal != INT32_MIN) {
            top_ = std::max(top_, std::abs(literal));
        }
    }

    bool shows_model() {
        solver_.read_model(top_, model_);
        bool is_shown = session_.satisfies(assumed_, model_);
        cause_ = session_.cause();
        return is_shown;
    }

    bool shows_core() {
        core_.clear();
        Literals core;
        for (int literal : assumed_) {
            if (solver_.cadical.failed(literal) && core_.insert(literal).second) {
                core.push_back(literal);
            }
        }
        return solver_.show_core(assumed_, core, cause_);
    }

    Session session_;
    Solver solver_{session_};
    sessions::Callbacks callbacks_{solver_.cadical};
    Literals clause_, assumed_, model_;
    std::unordered_set<int> core_;
    int top_ = 0, told_ = 0;
    bool has_answer_ = false, is_shown_ = false;
    std::string cause_;
};

Layer *of(void *solver) { return static_cast<Layer *>(solver); }

} // namespace

extern "C" {

const char *ipasir_signature(void) { return CaDiCaL::Solver::signature(); }
void *ipasir_init(void) { return new Layer; }
void ipasir_release(void *solver) { delete of(solver); }
void ipasir_add(void *solver, int literal) { of(solver)->add(literal); }
void ipasir_assume(void *solver, int literal) { of(solver)->assume(literal); }
int ipasir_solve(void *solver) { return of(solver)->solve(); }
int ipasir_val(void *solver, int literal) { return of(solver)->value(literal); }
int ipasir_failed(void *solver, int literal) { return of(solver)->failed(literal); }

void ipasir_set_terminate(void *solver, void *state, int (*terminate)(void *)) { of(solver)->callbacks().terminate(state, terminate); }

void ipasir_set_learn(void *solver, void *state, int max_length, void (*learn)(void *, int *)) {
    of(solver)->callbacks().learn(state, max_length, learn);
}
}
