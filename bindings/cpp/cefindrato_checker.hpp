// The ported checker of varisat's proofs, step by step, for C++17.
//
// The calls are those of cefindrato_checker.h. A checker belongs to one thread at a time. checker_example.cpp is an example.
#ifndef CEFINDRATO_CHECKER_HPP
#define CEFINDRATO_CHECKER_HPP
#include "cefindrato_checker.h"
#include "cefindrato_handle.hpp"
#include <new>
#include <stdexcept>
#include <vector>

namespace cefindrato {

// The kinds of a step.
enum class Step {
    add_clause = CEFINDRATO_STEP_ADD_CLAUSE,
    at_clause = CEFINDRATO_STEP_AT_CLAUSE,
    redundant_at_clause = CEFINDRATO_STEP_REDUNDANT_AT_CLAUSE,
    delete_redundant = CEFINDRATO_STEP_DELETE_REDUNDANT,
    delete_satisfied = CEFINDRATO_STEP_DELETE_SATISFIED,
    delete_simplified = CEFINDRATO_STEP_DELETE_SIMPLIFIED,
    model = CEFINDRATO_STEP_MODEL,
    assumptions = CEFINDRATO_STEP_ASSUMPTIONS,
    failed_assumptions = CEFINDRATO_STEP_FAILED_ASSUMPTIONS,
    end = CEFINDRATO_STEP_END
};

// Whether a call is accepted, and if not, why.
struct CheckerAnswer {
    int cause = 0;     // CEFINDRATO_CHECKER_TAUTOLOGY to CEFINDRATO_CHECKER_STEPS_EXHAUSTED; 0: it is accepted
    uint64_t step = 0; // if it is rejected, how many steps were checked so far, with this one; else 0
    explicit operator bool() const { return cause == 0; }
    const char *text() const { return cefindrato_checker_cause_text(cause); } // why it is rejected; empty if it is accepted
};

// The hash of a clause without repeated literals.
inline uint64_t clause_hash(const std::vector<int32_t> &clause) { return cefindrato_clause_hash(clause.data(), clause.size()); }

// A checker, which ends with the object. A call throws std::bad_alloc if there is no memory, std::runtime_error if there was none within an
// earlier check, so that the checker has failed, and std::invalid_argument if a number is no literal or the checker was moved from.
class Checker {
  public:
    Checker() { answer_of(cefindrato_checker_begin(checker.get())); }

    CheckerAnswer add_clause(const std::vector<int32_t> &clause) {
        return answer_of(cefindrato_add_clause(checker.get(), clause.data(), clause.size()));
    }
    CheckerAnswer check_step(Step kind, const std::vector<int32_t> &literals = {}, const std::vector<uint64_t> &hashes = {}) {
        return answer_of(cefindrato_check_step(checker.get(), static_cast<int>(kind), literals.data(), literals.size(), hashes.data(),
                                               hashes.size()));
    }
    // Whether unsatisfiability is recorded: then no assignment satisfies the clauses.
    bool unsat() { return cefindrato_checker_unsat(checker.get()); }

  private:
    static CheckerAnswer answer_of(const cefindrato_checker_answer &answer) {
        if (answer.status == CEFINDRATO_OUT_OF_MEMORY)
            throw std::bad_alloc();
        if (answer.status == CEFINDRATO_NOT_RUN && answer.cause == CEFINDRATO_CHECKER_FAILED)
            throw std::runtime_error(cefindrato_checker_cause_text(answer.cause));
        if (answer.status == CEFINDRATO_NOT_RUN)
            throw std::invalid_argument(cefindrato_checker_cause_text(answer.cause));
        return {answer.cause, answer.step};
    }

    detail::Handle<cefindrato_checker, cefindrato_checker_end> checker;
};

} // namespace cefindrato
#endif
