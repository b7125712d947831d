// A session of queries to an incremental solver, for C++17: each answer is checked before the caller acts on it.
//
// The calls are those of cefindrato_session.h. A session belongs to one thread at a time.
#ifndef CEFINDRATO_SESSION_HPP
#define CEFINDRATO_SESSION_HPP
#include "cefindrato_handle.hpp"
#include "cefindrato_session.h"
#include <new>
#include <stdexcept>
#include <vector>

namespace cefindrato {

// Whether a call is accepted, and if not, why.
struct SessionAnswer {
    int cause = 0;       // CEFINDRATO_ID_TAKEN to CEFINDRATO_MISSES_CLAUSE; 0: it is accepted
    uint64_t clause = 0; // the first clause that a model misses, counted from 1; else 0
    explicit operator bool() const { return cause == 0; }
    const char *text() const { return cefindrato_session_cause_text(cause); } // why it is rejected; empty if it is accepted
};

// A session, which ends with the object. A call throws std::bad_alloc if there is no memory, and std::invalid_argument if a number is no
// literal or the session was moved from; the session is then as it was.
class Session {
  public:
    Session() { answer_of(cefindrato_session_begin(session.get())); }

    SessionAnswer give(uint64_t id, const std::vector<int32_t> &clause) {
        return answer_of(cefindrato_give(session.get(), id, clause.data(), clause.size()));
    }
    SessionAnswer derive(uint64_t id, const std::vector<int32_t> &lemma, const std::vector<uint64_t> &hints) {
        return answer_of(cefindrato_derive(session.get(), id, lemma.data(), lemma.size(), hints.data(), hints.size()));
    }
    void remove(const std::vector<uint64_t> &ids) { answer_of(cefindrato_delete(session.get(), ids.data(), ids.size())); }
    SessionAnswer fails(const std::vector<int32_t> &assumed, const std::vector<int32_t> &core, const std::vector<uint64_t> &hints) {
        return answer_of(
            cefindrato_fails(session.get(), assumed.data(), assumed.size(), core.data(), core.size(), hints.data(), hints.size()));
    }
    SessionAnswer satisfies(const std::vector<int32_t> &assumed, const std::vector<int32_t> &model) {
        return answer_of(cefindrato_satisfies(session.get(), assumed.data(), assumed.size(), model.data(), model.size()));
    }

  private:
    static SessionAnswer answer_of(const cefindrato_session_answer &answer) {
        if (answer.status == CEFINDRATO_OUT_OF_MEMORY)
            throw std::bad_alloc();
        if (answer.status == CEFINDRATO_NOT_RUN)
            throw std::invalid_argument(cefindrato_session_cause_text(answer.cause));
        return {answer.cause, answer.clause};
    }

    detail::Handle<cefindrato_session, cefindrato_session_end> session;
};

} // namespace cefindrato
#endif
