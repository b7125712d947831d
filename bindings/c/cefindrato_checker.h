/* The ported checker of varisat's proofs, step by step: clauses, lemmas that follow by unit propagation, deletions, models, and queries
 * under assumptions.
 *
 * Literals are DIMACS numbers: from 1 to 268435456, and their negations. A checker takes 24 bytes for each number up to its greatest
 * variable: number variables from 1 on, without gaps. A lemma or a failed core names the clauses that it needs by their hashes. A checker
 * belongs to one thread at a time. */
#ifndef CEFINDRATO_CHECKER_H
#define CEFINDRATO_CHECKER_H
#include "cefindrato.h"
#ifdef __cplusplus
extern "C" {
#endif

/* A checker. If all its bytes are 0, there is none. Only the calls below write to it. It may be moved, but two copies must not both be
 * used. */
typedef struct {
    void *at;
    bool held;
} cefindrato_checker;

/* The kinds of a step. The literals are those of the clause, or as the comment says; only lemmas and failed cores have hashes. */
enum {
    CEFINDRATO_STEP_ADD_CLAUSE = 1,          /* an input clause, as by cefindrato_add_clause; it is counted as a step */
    CEFINDRATO_STEP_AT_CLAUSE = 2,           /* a lemma, which is irredundant: it may take the place of a clause */
    CEFINDRATO_STEP_REDUNDANT_AT_CLAUSE = 3, /* a lemma, which is redundant: it may be deleted at any time */
    CEFINDRATO_STEP_DELETE_REDUNDANT = 4,    /* deletes a redundant clause */
    CEFINDRATO_STEP_DELETE_SATISFIED = 5,    /* deletes an irredundant clause that has the literal of a unit clause */
    CEFINDRATO_STEP_DELETE_SIMPLIFIED = 6,   /* deletes an irredundant clause that has all literals of the last irredundant lemma, and
                                              * more; no deletion may stand between them */
    CEFINDRATO_STEP_MODEL = 7,               /* literals of an assignment that satisfies the clauses, the assumptions among them */
    CEFINDRATO_STEP_ASSUMPTIONS = 8,         /* literals that are assumed from here on, in place of earlier ones */
    CEFINDRATO_STEP_FAILED_ASSUMPTIONS = 9,  /* assumed literals that can't all be true */
    CEFINDRATO_STEP_END = 10                 /* claims nothing */
};

/* Why a call is rejected (2 to 29, without those of steps that are not here), or none (30 to 34). */
enum {
    CEFINDRATO_CHECKER_TAUTOLOGY = 2,                       /* a clause that is derived or deleted has both signs of a variable */
    CEFINDRATO_CHECKER_NO_CLAUSE_FOR_HASH = 3,              /* a hash is that of no clause with two literals or more */
    CEFINDRATO_CHECKER_AT_CHECK_FAILED = 4,                 /* propagation leads to no conflict */
    CEFINDRATO_CHECKER_DELETE_UNIT_OR_EMPTY = 5,            /* a clause with fewer than two literals is not deleted */
    CEFINDRATO_CHECKER_DELETE_UNKNOWN = 6,                  /* there is no such clause */
    CEFINDRATO_CHECKER_DELETE_REDUNDANT_IS_IRREDUNDANT = 7, /* the clause is not redundant */
    CEFINDRATO_CHECKER_DELETE_IRREDUNDANT_IS_REDUNDANT = 8, /* the clause is redundant */
    CEFINDRATO_CHECKER_NOT_SATISFIED = 9,                   /* the deleted clause has the literal of no unit clause */
    CEFINDRATO_CHECKER_NOT_SUBSUMED = 10,                   /* the last irredundant lemma is no part of the deleted clause */
    CEFINDRATO_CHECKER_MODEL_AGAINST_UNIT = 18,             /* the model has the negation of a unit clause */
    CEFINDRATO_CHECKER_MODEL_AGAINST_ITSELF = 19,           /* the model has both signs of a variable */
    CEFINDRATO_CHECKER_MODEL_MISSES_ASSUMPTION = 20,        /* the model does not have an assumption */
    CEFINDRATO_CHECKER_MODEL_MISSES_CLAUSE = 21,            /* the model has no literal of a stored clause, which may be a lemma */
    CEFINDRATO_CHECKER_NOT_ASSUMED = 22,                    /* a literal of the core was not assumed */
    CEFINDRATO_CHECKER_UNKNOWN_VAR = 23,                    /* the model has a variable beyond those of clauses and assumptions */
    CEFINDRATO_CHECKER_MODEL_AFTER_UNSAT = 26,              /* unsatisfiability is recorded, so there is no model */
    CEFINDRATO_CHECKER_IDS_EXHAUSTED = 27,                  /* no number is left for a clause */
    CEFINDRATO_CHECKER_COUNT_EXHAUSTED = 28,                /* the same clause was added as often as can be counted */
    CEFINDRATO_CHECKER_STEPS_EXHAUSTED = 29,                /* no number is left for a step */
    CEFINDRATO_CHECKER_NONE = 30,                           /* the checker was not begun, or it has ended, or its pointer is null */
    CEFINDRATO_CHECKER_BEGUN = 31,                          /* the checker was begun and has not ended */
    CEFINDRATO_CHECKER_NO_LITERAL = 32,                     /* a number is that of no literal */
    CEFINDRATO_CHECKER_NO_STEP = 33,                        /* a number is that of no kind of step */
    CEFINDRATO_CHECKER_FAILED = 34                          /* there was no memory within an earlier call, or within this one */
};

typedef struct {
    uint8_t status; /* CEFINDRATO_VERIFIED: accepted. CEFINDRATO_NOT_VERIFIED: rejected. CEFINDRATO_NOT_RUN, CEFINDRATO_OUT_OF_MEMORY */
    uint8_t cause;  /* why it is rejected or not run; CEFINDRATO_CHECKER_FAILED if there was no memory and the checker has failed; else 0 */
    uint64_t step;  /* if it is rejected, how many steps were checked so far, with this one; else 0 */
} cefindrato_checker_answer;

/* The text of a cause; of another number, as of 0, the empty text. */
static inline const char *cefindrato_checker_cause_text(int cause) {
    switch (cause) {
    case CEFINDRATO_CHECKER_TAUTOLOGY:
        return "clause is a tautology";
    case CEFINDRATO_CHECKER_NO_CLAUSE_FOR_HASH:
        return "no clause found for hash";
    case CEFINDRATO_CHECKER_AT_CHECK_FAILED:
        return "AT check failed";
    case CEFINDRATO_CHECKER_DELETE_UNIT_OR_EMPTY:
        return "delete of unit or empty clause";
    case CEFINDRATO_CHECKER_DELETE_UNKNOWN:
        return "delete of unknown clause";
    case CEFINDRATO_CHECKER_DELETE_REDUNDANT_IS_IRREDUNDANT:
        return "delete of redundant clause which is irredundant";
    case CEFINDRATO_CHECKER_DELETE_IRREDUNDANT_IS_REDUNDANT:
        return "delete of irredundant clause which is redundant";
    case CEFINDRATO_CHECKER_NOT_SATISFIED:
        return "deleted clause is not satisfied";
    case CEFINDRATO_CHECKER_NOT_SUBSUMED:
        return "deleted clause is not subsumed by previous clause";
    case CEFINDRATO_CHECKER_MODEL_AGAINST_UNIT:
        return "model assignment conflicts with unit clause";
    case CEFINDRATO_CHECKER_MODEL_AGAINST_ITSELF:
        return "model contains conflicting assignment";
    case CEFINDRATO_CHECKER_MODEL_MISSES_ASSUMPTION:
        return "model does not contain assumption";
    case CEFINDRATO_CHECKER_MODEL_MISSES_CLAUSE:
        return "model does not satisfy clause";
    case CEFINDRATO_CHECKER_NOT_ASSUMED:
        return "failed core contains non-assumed variables";
    case CEFINDRATO_CHECKER_UNKNOWN_VAR:
        return "unknown variable";
    case CEFINDRATO_CHECKER_MODEL_AFTER_UNSAT:
        return "model after unsatisfiability";
    case CEFINDRATO_CHECKER_IDS_EXHAUSTED:
        return "no clause id left";
    case CEFINDRATO_CHECKER_COUNT_EXHAUSTED:
        return "clause count exhausted";
    case CEFINDRATO_CHECKER_STEPS_EXHAUSTED:
        return "no step number left";
    case CEFINDRATO_CHECKER_NONE:
        return "there is no checker";
    case CEFINDRATO_CHECKER_BEGUN:
        return "the checker was begun already";
    case CEFINDRATO_CHECKER_NO_LITERAL:
        return "a number is no literal";
    case CEFINDRATO_CHECKER_NO_STEP:
        return "a number is no kind of step";
    case CEFINDRATO_CHECKER_FAILED:
        return "checker has failed";
    default:
        return "";
    }
}

/* What the library exports. No pointer may be null, even at length 0; no list may overlap the checker. */
cefindrato_checker_answer cefindrato_checker_begin(cefindrato_checker *checker);
void cefindrato_checker_end(cefindrato_checker *checker);
cefindrato_checker_answer cefindrato_checker_add_clause(cefindrato_checker *checker, const int32_t *clause, size_t clause_len);
cefindrato_checker_answer cefindrato_checker_check_step(cefindrato_checker *checker, uint8_t kind, const int32_t *literals,
                                                        size_t literals_len, const uint64_t *hashes, size_t hashes_len);
/* Whether there is a checker that has not failed, and unsatisfiability is recorded: by the empty clause, or two opposite unit clauses.
 * Then no assignment satisfies the clauses. An input clause changes nothing any more, and each later query is unsatisfiable: ask here,
 * since a core need not be accepted any more. */
bool cefindrato_checker_unsat(cefindrato_checker *checker);

/* The calls for callers: a list may be null where its length is 0. If it is null and its length is not 0, the status is
 * CEFINDRATO_NOT_RUN, and the cause 0. If the checker is null, the cause is CEFINDRATO_CHECKER_NONE.
 *
 * A rejected call changes no clause and no assumption. A step is counted all the same; variables of a rejected lemma are known to later
 * models, unless it is a tautology; and a rejected deletion stands between a lemma and the next deletion, unless the cause is
 * CEFINDRATO_CHECKER_TAUTOLOGY, CEFINDRATO_CHECKER_NOT_SATISFIED or CEFINDRATO_CHECKER_NOT_SUBSUMED. If there was no memory within a
 * check, the checker has failed, and a later call is CEFINDRATO_NOT_RUN, or CEFINDRATO_OUT_OF_MEMORY while there is none for its list. */

static inline cefindrato_checker_answer cefindrato_checker_unasked(const cefindrato_checker *checker) {
    cefindrato_checker_answer answer = {CEFINDRATO_NOT_RUN, 0, 0};
    if (!checker)
        answer.cause = CEFINDRATO_CHECKER_NONE;
    return answer;
}

/* Begins a checker without clauses. */
static inline cefindrato_checker_answer cefindrato_begin_checker(cefindrato_checker *checker) {
    if (!checker)
        return cefindrato_checker_unasked(checker);
    return cefindrato_checker_begin(checker);
}

/* Ends a checker, if there is one, and frees its memory. */
static inline void cefindrato_end_checker(cefindrato_checker *checker) {
    if (checker)
        cefindrato_checker_end(checker);
}

/* Whether unsatisfiability is recorded, as cefindrato_checker_unsat tells. */
static inline bool cefindrato_unsat(cefindrato_checker *checker) { return checker && cefindrato_checker_unsat(checker); }

/* Adds an input clause. It is no step. */
static inline cefindrato_checker_answer cefindrato_add_clause(cefindrato_checker *checker, const int32_t *clause, size_t clause_len) {
    if (!checker || (!clause && clause_len))
        return cefindrato_checker_unasked(checker);
    return cefindrato_checker_add_clause(checker, cefindrato_numbers(clause), clause_len);
}

/* Checks a step, of a kind from CEFINDRATO_STEP_ADD_CLAUSE to CEFINDRATO_STEP_END.
 *
 * A lemma is accepted if it has the literal of a unit clause, or if with all its literals false, propagation along the clauses of the
 * hashes, in this order, leads to a conflict. A unit clause is known without a hash, and has none. A clause that is not unit then is
 * passed over. A failed core is accepted as the clause of its negated literals is, or if it has both signs of a variable: then no
 * assignment satisfies the clauses and makes all of the core true. A model is accepted if it has a literal of each clause with two
 * literals or more, and no negation of a unit clause: then some assignment satisfies the clauses, and makes the model true. */
static inline cefindrato_checker_answer cefindrato_check_step(cefindrato_checker *checker, int kind, const int32_t *literals,
                                                              size_t literals_len, const uint64_t *hashes, size_t hashes_len) {
    if (!checker || (!literals && literals_len) || (!hashes && hashes_len))
        return cefindrato_checker_unasked(checker);
    return cefindrato_checker_check_step(checker, kind < 0 || kind > CEFINDRATO_STEP_END ? 0 : (uint8_t)kind,
                                         cefindrato_numbers(literals), literals_len, cefindrato_ids(hashes), hashes_len);
}

/* The hash of a clause without repeated literals: the exclusive or of theirs. */
static inline uint64_t cefindrato_clause_hash(const int32_t *clause, size_t clause_len) {
    uint64_t hash = 0;
    size_t at;
    for (at = 0; at < clause_len; at++) {
        const uint64_t literal = clause[at] < 0 ? -(uint64_t)clause[at] * 2 - 1 : (uint64_t)clause[at] * 2 - 2;
        hash ^= ~(literal + (UINT64_C(1) << 29)) * UINT64_C(0x61c8864680b583eb);
    }
    return hash;
}

#ifdef __cplusplus
}
#endif
#endif
