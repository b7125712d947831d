/* A session of queries to an incremental solver: each answer is checked before the caller acts on it.
 *
 * Literals are DIMACS numbers: from 1 to 268435456, and their negations. A call with another status than CEFINDRATO_VERIFIED leaves the
 * session as it was. A session belongs to one thread at a time. */
#ifndef CEFINDRATO_SESSION_H
#define CEFINDRATO_SESSION_H
#include "cefindrato.h"
#ifdef __cplusplus
extern "C" {
#endif

/* A session. If all its bytes are 0, there is none. Only the calls below write to it. It may be moved, but two copies must not both be
 * used. */
typedef struct {
    void *at;
    bool held;
} cefindrato_session;

/* Why a call is rejected (1 to 8), or none (9 to 11). */
enum {
    CEFINDRATO_ID_TAKEN = 1,          /* the id of the new clause names a clause already */
    CEFINDRATO_UNKNOWN_ID = 2,        /* a hint names no clause */
    CEFINDRATO_NOT_UNIT = 3,          /* a hint names a clause with two literals that are not false */
    CEFINDRATO_NO_CONFLICT = 4,       /* the hints end without a conflict */
    CEFINDRATO_NOT_ASSUMED = 5,       /* a literal of the core was not assumed */
    CEFINDRATO_BOTH_SIGNS = 6,        /* the model has both signs of a variable */
    CEFINDRATO_MISSES_ASSUMPTION = 7, /* the model does not have an assumption */
    CEFINDRATO_MISSES_CLAUSE = 8,     /* the model has no literal of a clause that was given */
    CEFINDRATO_NO_SESSION = 9,        /* the session was not begun, or it has ended, or its pointer is null */
    CEFINDRATO_BEGUN = 10,            /* the session was begun and has not ended */
    CEFINDRATO_NO_LITERAL = 11        /* a number is that of no literal */
};

typedef struct {
    uint8_t status;  /* CEFINDRATO_VERIFIED: accepted. CEFINDRATO_NOT_VERIFIED: rejected. CEFINDRATO_NOT_RUN, CEFINDRATO_OUT_OF_MEMORY */
    uint8_t cause;   /* why it is rejected or not run; else 0 */
    uint64_t clause; /* of CEFINDRATO_MISSES_CLAUSE the first such clause, counted from 1; else 0 */
} cefindrato_session_answer;

/* The text of a cause; of another number, as of 0, the empty text. */
static inline const char *cefindrato_session_cause_text(int cause) {
    switch (cause) {
    case CEFINDRATO_ID_TAKEN:
        return "id is taken";
    case CEFINDRATO_UNKNOWN_ID:
        return "no clause has the id of a hint";
    case CEFINDRATO_NOT_UNIT:
        return "clause of a hint is not unit";
    case CEFINDRATO_NO_CONFLICT:
        return "hints end without a conflict";
    case CEFINDRATO_NOT_ASSUMED:
        return "a literal of the core was not assumed";
    case CEFINDRATO_BOTH_SIGNS:
        return "the model has both signs of a variable";
    case CEFINDRATO_MISSES_ASSUMPTION:
        return "the model does not have an assumption";
    case CEFINDRATO_MISSES_CLAUSE:
        return "the model has no literal of a clause";
    case CEFINDRATO_NO_SESSION:
        return "there is no session";
    case CEFINDRATO_BEGUN:
        return "the session was begun already";
    case CEFINDRATO_NO_LITERAL:
        return "a number is no literal";
    default:
        return "";
    }
}

/* What the library exports. No pointer may be null, even at length 0; no list may overlap the session. */
cefindrato_session_answer cefindrato_session_begin(cefindrato_session *session);
void cefindrato_session_end(cefindrato_session *session);
cefindrato_session_answer cefindrato_session_give(cefindrato_session *session, uint64_t id, const int32_t *clause, size_t clause_len);
cefindrato_session_answer cefindrato_session_derive(cefindrato_session *session, uint64_t id, const int32_t *lemma, size_t lemma_len,
                                                    const uint64_t *hints, size_t hints_len);
cefindrato_session_answer cefindrato_session_delete(cefindrato_session *session, const uint64_t *ids, size_t ids_len);
cefindrato_session_answer cefindrato_session_fails(cefindrato_session *session, const int32_t *assumed, size_t assumed_len,
                                                   const int32_t *core, size_t core_len, const uint64_t *hints, size_t hints_len);
cefindrato_session_answer cefindrato_session_satisfies(cefindrato_session *session, const int32_t *assumed, size_t assumed_len,
                                                       const int32_t *model, size_t model_len);

/* The calls for callers: a list may be null where its length is 0. If it is null and its length is not 0, the status is
 * CEFINDRATO_NOT_RUN, and the cause 0. If the session is null, the cause is CEFINDRATO_NO_SESSION. */

static inline cefindrato_session_answer cefindrato_session_unasked(const cefindrato_session *session) {
    cefindrato_session_answer answer = {CEFINDRATO_NOT_RUN, 0, 0};
    if (!session)
        answer.cause = CEFINDRATO_NO_SESSION;
    return answer;
}

/* Begins a session without clauses. */
static inline cefindrato_session_answer cefindrato_begin_session(cefindrato_session *session) {
    if (!session)
        return cefindrato_session_unasked(session);
    return cefindrato_session_begin(session);
}

/* Ends a session, if there is one, and frees its memory. */
static inline void cefindrato_end_session(cefindrato_session *session) {
    if (session)
        cefindrato_session_end(session);
}

/* Adds a clause of the application, under an id that names none. */
static inline cefindrato_session_answer cefindrato_give(cefindrato_session *session, uint64_t id, const int32_t *clause,
                                                        size_t clause_len) {
    if (!session || (!clause && clause_len))
        return cefindrato_session_unasked(session);
    return cefindrato_session_give(session, id, cefindrato_numbers(clause), clause_len);
}

/* Adds a lemma of the solver, under an id that names no clause. With all its literals false, propagation along the hints leads to a
 * conflict; hints after the conflict are ignored. A clause that is only redundant (RAT, PR) is rejected, since a clause that is given
 * later can contradict it. */
static inline cefindrato_session_answer cefindrato_derive(cefindrato_session *session, uint64_t id, const int32_t *lemma,
                                                          size_t lemma_len, const uint64_t *hints, size_t hints_len) {
    if (!session || (!lemma && lemma_len) || (!hints && hints_len))
        return cefindrato_session_unasked(session);
    return cefindrato_session_derive(session, id, cefindrato_numbers(lemma), lemma_len, cefindrato_ids(hints), hints_len);
}

/* Deletes the clauses of these ids; an id that names none is ignored. A model still has to satisfy a clause that was given. */
static inline cefindrato_session_answer cefindrato_delete(cefindrato_session *session, const uint64_t *ids, size_t ids_len) {
    if (!session || (!ids && ids_len))
        return cefindrato_session_unasked(session);
    return cefindrato_session_delete(session, cefindrato_ids(ids), ids_len);
}

/* Checks the answer "unsatisfiable". If it is verified, each literal of the core was assumed, and no assignment satisfies the clauses
 * that were given so far and makes all of the core true. Two literals of the core are opposite, or with all of them true propagation
 * along the hints leads to a conflict. */
static inline cefindrato_session_answer cefindrato_fails(cefindrato_session *session, const int32_t *assumed, size_t assumed_len,
                                                         const int32_t *core, size_t core_len, const uint64_t *hints,
                                                         size_t hints_len) {
    if (!session || (!assumed && assumed_len) || (!core && core_len) || (!hints && hints_len))
        return cefindrato_session_unasked(session);
    return cefindrato_session_fails(session, cefindrato_numbers(assumed), assumed_len, cefindrato_numbers(core), core_len,
                                    cefindrato_ids(hints), hints_len);
}

/* Checks the answer "satisfiable". If it is verified, some assignment makes all literals of the model and all assumptions true, and
 * satisfies the clauses that were given so far. The model needs a literal of each of them, and need not be total. */
static inline cefindrato_session_answer cefindrato_satisfies(cefindrato_session *session, const int32_t *assumed, size_t assumed_len,
                                                             const int32_t *model, size_t model_len) {
    if (!session || (!assumed && assumed_len) || (!model && model_len))
        return cefindrato_session_unasked(session);
    return cefindrato_session_satisfies(session, cefindrato_numbers(assumed), assumed_len, cefindrato_numbers(model), model_len);
}

#ifdef __cplusplus
}
#endif
#endif
