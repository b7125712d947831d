// The session of one solver with the checker, from the application's side: the clauses and queries as the application gave them.
#pragma once
#include "answers.hpp"
#include "cefindrato_session.h"
#include "codes.hpp"
#include <unordered_set>

namespace cefindrato_ipasir {

class Session {
  public:
    Session() { accept(cefindrato_session_begin(&session_), "no session"); }
    ~Session() { cefindrato_session_end(&session_); }
    Session(const Session &) = delete;
    Session &operator=(const Session &) = delete;

    // A clause of the application. One that the checker does not have is missed by all later answers.
    void give(uint64_t id, const Literals &clause) {
        if (fault_.empty() && !accept(cefindrato_give(&session_, id, clause.data(), clause.size()), "a clause of the application")) {
            fault_ = cause_;
        }
    }

    // Whether a lemma of the solver follows.
    bool derive(uint64_t id, const Literals &lemma, const Ids &hints) {
        return accept(cefindrato_derive(&session_, id, lemma.data(), lemma.size(), hints.data(), hints.size()), "a lemma");
    }

    void remove(const Ids &ids) { cefindrato_delete(&session_, ids.data(), ids.size()); }
    void remove(uint64_t id) { cefindrato_delete(&session_, &id, 1); }

    bool fails(const Literals &assumed, const Literals &core, const Ids &hints) {
        return is_whole() && accept(cefindrato_fails(&session_, assumed.data(), assumed.size(), core.data(), core.size(), hints.data(),
                                                     hints.size()),
                                    "the core");
    }

    bool satisfies(const Literals &assumed, const Literals &model) {
        return is_whole() &&
               accept(cefindrato_satisfies(&session_, assumed.data(), assumed.size(), model.data(), model.size()), "the model");
    }

    // Why the last call was refused.
    const std::string &cause() const { return cause_; }

  private:
    bool is_whole() {
        if (!fault_.empty()) {
            cause_ = fault_;
        }
        return fault_.empty();
    }

    bool accept(const cefindrato_session_answer &answer, const char *what) {
        if (answer.status == CEFINDRATO_VERIFIED) {
            return true;
        }
        cause_ = std::string(what) + ": " + text(answer);
        return false;
    }

    static std::string text(const cefindrato_session_answer &answer) {
        if (answer.status == CEFINDRATO_OUT_OF_MEMORY) {
            return "out of memory";
        }
        switch (answer.cause) {
        case CEFINDRATO_ID_TAKEN:
            return "id is taken";
        case CEFINDRATO_UNKNOWN_ID:
            return "no clause has the id of a hint";
        case CEFINDRATO_NOT_UNIT:
            return "clause of a hint is not unit";
        case CEFINDRATO_NO_CONFLICT:
            return "hints end without a conflict";
        case CEFINDRATO_NOT_ASSUMED:
            return "a literal was not assumed";
        case CEFINDRATO_BOTH_SIGNS:
            return "both signs of a variable";
        case CEFINDRATO_MISSES_ASSUMPTION:
            return "misses an assumption";
        case CEFINDRATO_MISSES_CLAUSE:
            return "has no literal of clause " + std::to_string(answer.clause);
        case CEFINDRATO_NO_LITERAL:
            return "a number is no literal";
        default:
            return "there is no session";
        }
    }

    cefindrato_session session_ = {nullptr, false};
    std::string cause_, fault_;
};

} // namespace cefindrato_ipasir
