/* The ported checker: each sequence of up to so many calls, of which each must answer what the rules say, and rows of single answers;
 * exits 0 if all do.
 *
 *   checker [LENGTH]
 */
#include "cefindrato_checker.h"
#include "sequences.h"
#include <limits.h>
#include <stdlib.h>
#include <string.h>

#define LEN(list) (sizeof(list) / sizeof(list)[0])

static void expect(const char *what, cefindrato_checker_answer answer, int status, int cause, uint64_t step) {
    if (answer.status != status || answer.cause != cause || answer.step != step) {
        printf("%s: status %d, cause %d, step %lu in place of %d, %d, %lu\n", what, answer.status, answer.cause,
               (unsigned long)answer.step, status, cause, (unsigned long)step);
        wrong = 1;
    }
}

static void expect_unsat(const char *what, cefindrato_checker *checker, bool wanted) {
    if (cefindrato_checker_unsat(checker) != wanted) {
        printf("%s: unsatisfiability is %srecorded\n", what, wanted ? "not " : "");
        wrong = 1;
    }
}

/* ---- all sequences of these calls. The clauses are `1 2` and `1 -2`, and the lemma `1 3`; no unit clause is there. */

enum { BEGIN, END, ADD_FIRST, ADD_SECOND, ADD_EMPTY, DERIVE, DELETE, ASSUME, FAILS, MODEL, CALLS };

static const int32_t first[] = {1, 2}, second[] = {-2, 1}, lemma[] = {3, 1}, assumed[] = {-1, -3}, model_literals[] = {1, -3};

/* What a checker has by the rules. */
struct model {
    bool begun, unsat, assumes, has_first, has_second;
    uint64_t lemmas;  /* how many copies of the lemma there are */
    uint64_t steps;   /* how many steps were checked */
    int32_t greatest; /* the greatest variable that is known */
};

static void model_knows(struct model *model, int32_t variable) {
    if (model->greatest < variable)
        model->greatest = variable;
}

/* An input clause changes nothing once unsatisfiability is recorded. */
static void model_adds(struct model *model, int call) {
    if (model->unsat)
        return;
    model->has_first |= call == ADD_FIRST;
    model->has_second |= call == ADD_SECOND;
    model->unsat = call == ADD_EMPTY;
    model_knows(model, call == ADD_EMPTY ? 0 : 2);
}

/* The cause of a rejected step, or 0. */
static int model_checks(struct model *model, int call) {
    model->steps++;
    switch (call) {
    case ADD_SECOND:
        model_adds(model, call);
        return 0;
    case DERIVE:
        /* with 1 and 3 false, `1 2` makes 2 true, and then `1 -2` is false */
        model_knows(model, 3);
        if (!model->has_first || !model->has_second)
            return CEFINDRATO_CHECKER_NO_CLAUSE_FOR_HASH;
        model->lemmas++;
        return 0;
    case DELETE:
        if (!model->lemmas)
            return CEFINDRATO_CHECKER_DELETE_UNKNOWN;
        model->lemmas--;
        return 0;
    case ASSUME:
        model_knows(model, 3);
        model->assumes = true;
        return 0;
    case FAILS:
        if (!model->assumes)
            return CEFINDRATO_CHECKER_NOT_ASSUMED;
        return model->lemmas ? 0 : CEFINDRATO_CHECKER_NO_CLAUSE_FOR_HASH;
    default:
        /* 1 is in each clause, and `-1` may be assumed */
        if (model->unsat)
            return CEFINDRATO_CHECKER_MODEL_AFTER_UNSAT;
        if (model->greatest < 3)
            return CEFINDRATO_CHECKER_UNKNOWN_VAR;
        return model->assumes ? CEFINDRATO_CHECKER_MODEL_MISSES_ASSUMPTION : 0;
    }
}

static cefindrato_checker_answer model_answers(struct model *model, int call) {
    cefindrato_checker_answer answer = {CEFINDRATO_VERIFIED, 0, 0};
    if (call == END || (call == BEGIN && !model->begun)) {
        memset(model, 0, sizeof *model);
        model->begun = call == BEGIN;
    } else if (call == BEGIN || !model->begun) {
        answer.status = CEFINDRATO_NOT_RUN;
        answer.cause = call == BEGIN ? CEFINDRATO_CHECKER_BEGUN : CEFINDRATO_CHECKER_NONE;
    } else if (call == ADD_FIRST || call == ADD_EMPTY) {
        model_adds(model, call);
    } else {
        answer.cause = (uint8_t)model_checks(model, call);
        answer.status = answer.cause ? CEFINDRATO_NOT_VERIFIED : CEFINDRATO_VERIFIED;
        answer.step = answer.cause ? model->steps : 0;
    }
    return answer;
}

static cefindrato_checker_answer library_answers(cefindrato_checker *checker, int call) {
    const uint64_t hashes[] = {cefindrato_clause_hash(first, LEN(first)), cefindrato_clause_hash(second, LEN(second))};
    const uint64_t core_hashes[] = {cefindrato_clause_hash(lemma, LEN(lemma))};
    const cefindrato_checker_answer ended = {CEFINDRATO_VERIFIED, 0, 0};
    switch (call) {
    case BEGIN:
        return cefindrato_checker_begin(checker);
    case END:
        cefindrato_checker_end(checker);
        return ended;
    case ADD_FIRST:
        return cefindrato_add_clause(checker, first, LEN(first));
    case ADD_SECOND:
        return cefindrato_check_step(checker, CEFINDRATO_STEP_ADD_CLAUSE, second, LEN(second), NULL, 0);
    case ADD_EMPTY:
        return cefindrato_add_clause(checker, NULL, 0);
    case DERIVE:
        return cefindrato_check_step(checker, CEFINDRATO_STEP_REDUNDANT_AT_CLAUSE, lemma, LEN(lemma), hashes, LEN(hashes));
    case DELETE:
        return cefindrato_check_step(checker, CEFINDRATO_STEP_DELETE_REDUNDANT, lemma, LEN(lemma), NULL, 0);
    case ASSUME:
        return cefindrato_check_step(checker, CEFINDRATO_STEP_ASSUMPTIONS, assumed, LEN(assumed), NULL, 0);
    case FAILS:
        return cefindrato_check_step(checker, CEFINDRATO_STEP_FAILED_ASSUMPTIONS, assumed, LEN(assumed), core_hashes, 1);
    default:
        return cefindrato_check_step(checker, CEFINDRATO_STEP_MODEL, model_literals, LEN(model_literals), NULL, 0);
    }
}

static void play(long sequence, int length) {
    static const char *const names[] = {"begin",  "end",    "add first", "add second", "add empty",
                                        "derive", "delete", "assume",    "fails",      "model"};
    cefindrato_checker checker = {NULL, false};
    struct model model;
    int at;
    memset(&model, 0, sizeof model);
    for (at = 0; at < length; at++, sequence /= CALLS) {
        const int call = (int)(sequence % CALLS);
        const cefindrato_checker_answer told = library_answers(&checker, call), wanted = model_answers(&model, call);
        expect(names[call], told, wanted.status, wanted.cause, wanted.step);
        expect_unsat(names[call], &checker, model.unsat);
        if (checker.held != model.begun)
            wrong = 1;
    }
    cefindrato_checker_end(&checker);
    expect_unsat("ended", &checker, false);
    if (checker.held)
        wrong = 1;
}

/* ---- single answers */

static cefindrato_checker_answer step(cefindrato_checker *checker, int kind, const int32_t *literals, size_t len) {
    return cefindrato_check_step(checker, kind, literals, len, NULL, 0);
}

/* What is no call is no step. */
static void expect_no_calls(cefindrato_checker *checker) {
    static const int32_t zero[] = {1, 0}, large[] = {268435457}, small[] = {INT32_MIN}, largest[] = {268435456, -268435455};
    static const uint64_t no_hash[] = {0};
    static const int kinds[] = {INT_MIN, -1, 0, CEFINDRATO_STEP_END + 1, 256 + CEFINDRATO_STEP_END, INT_MAX};
    size_t at;
    expect("zero is no literal", cefindrato_add_clause(checker, zero, 2), 2, CEFINDRATO_CHECKER_NO_LITERAL, 0);
    expect("too large", step(checker, CEFINDRATO_STEP_ASSUMPTIONS, large, 1), 2, CEFINDRATO_CHECKER_NO_LITERAL, 0);
    expect("too small", step(checker, CEFINDRATO_STEP_MODEL, small, 1), 2, CEFINDRATO_CHECKER_NO_LITERAL, 0);
    expect("no literal at the end", step(checker, CEFINDRATO_STEP_END, zero, 2), 2, CEFINDRATO_CHECKER_NO_LITERAL, 0);
    for (at = 0; at < LEN(kinds); at++)
        expect("no kind", step(checker, kinds[at], NULL, 0), 2, CEFINDRATO_CHECKER_NO_STEP, 0);
    for (at = CEFINDRATO_STEP_END + 1; at < 256; at++)
        expect("no kind", cefindrato_checker_check_step(checker, (uint8_t)at, first, 0, no_hash, 0), 2, CEFINDRATO_CHECKER_NO_STEP, 0);
    expect("null clause", cefindrato_add_clause(checker, NULL, 1), 2, 0, 0);
    expect("null literals", step(checker, CEFINDRATO_STEP_MODEL, NULL, 1), 2, 0, 0);
    expect("null hashes", cefindrato_check_step(checker, CEFINDRATO_STEP_AT_CLAUSE, first, 2, NULL, 1), 2, 0, 0);
    expect("largest", step(checker, CEFINDRATO_STEP_DELETE_REDUNDANT, largest, 2), 3, CEFINDRATO_CHECKER_DELETE_UNKNOWN, 1);
}

/* Over the clauses `1 2 3` and `-1 2 3`. */
static void expect_answers(cefindrato_checker *checker) {
    static const int32_t wide[] = {1, 2, 3}, other[] = {3, 2, -1}, pair[] = {2, 3}, unit[] = {3}, opposite[] = {-3}, two[] = {1, -1};
    static const int32_t both[] = {-2, -3}, model[] = {2, -1}, signs[] = {2, 1, -1}, none[] = {-2, -3, 1}, four[] = {2, 4};
    static const int32_t no_three[] = {2, -3};
    const uint64_t hashes[] = {cefindrato_clause_hash(wide, 3), cefindrato_clause_hash(other, 3)}, no_hash[] = {1};
    const uint64_t pair_hash[] = {cefindrato_clause_hash(pair, 2)};
    expect("step add", step(checker, CEFINDRATO_STEP_ADD_CLAUSE, wide, 3), 0, 0, 0);
    expect("add", cefindrato_add_clause(checker, other, 3), 0, 0, 0);
    expect("tautology", step(checker, CEFINDRATO_STEP_AT_CLAUSE, two, 2), 3, CEFINDRATO_CHECKER_TAUTOLOGY, 2);
    expect("no chain", step(checker, CEFINDRATO_STEP_AT_CLAUSE, pair, 2), 3, CEFINDRATO_CHECKER_AT_CHECK_FAILED, 3);
    expect("no clause", cefindrato_check_step(checker, CEFINDRATO_STEP_AT_CLAUSE, pair, 2, no_hash, 1), 3,
           CEFINDRATO_CHECKER_NO_CLAUSE_FOR_HASH, 4);
    expect("not subsumed", step(checker, CEFINDRATO_STEP_DELETE_SIMPLIFIED, wide, 3), 3, CEFINDRATO_CHECKER_NOT_SUBSUMED, 5);
    expect("not satisfied", step(checker, CEFINDRATO_STEP_DELETE_SATISFIED, wide, 3), 3, CEFINDRATO_CHECKER_NOT_SATISFIED, 6);
    expect("not redundant", step(checker, CEFINDRATO_STEP_DELETE_REDUNDANT, wide, 3), 3,
           CEFINDRATO_CHECKER_DELETE_REDUNDANT_IS_IRREDUNDANT, 7);
    expect("model misses", step(checker, CEFINDRATO_STEP_MODEL, NULL, 0), 3, CEFINDRATO_CHECKER_MODEL_MISSES_CLAUSE, 8);
    expect("both signs", step(checker, CEFINDRATO_STEP_MODEL, signs, 3), 3, CEFINDRATO_CHECKER_MODEL_AGAINST_ITSELF, 9);
    expect("unknown", step(checker, CEFINDRATO_STEP_MODEL, four, 2), 3, CEFINDRATO_CHECKER_UNKNOWN_VAR, 10);
    expect("model", step(checker, CEFINDRATO_STEP_MODEL, model, 2), 0, 0, 0);
    expect("assume", step(checker, CEFINDRATO_STEP_ASSUMPTIONS, both, 2), 0, 0, 0);
    expect("core", cefindrato_check_step(checker, CEFINDRATO_STEP_FAILED_ASSUMPTIONS, both, 2, hashes, 2), 0, 0, 0);
    expect("core too small", cefindrato_check_step(checker, CEFINDRATO_STEP_FAILED_ASSUMPTIONS, both, 1, hashes, 2), 3,
           CEFINDRATO_CHECKER_AT_CHECK_FAILED, 14);
    expect("not assumed", cefindrato_check_step(checker, CEFINDRATO_STEP_FAILED_ASSUMPTIONS, none, 3, hashes, 2), 3,
           CEFINDRATO_CHECKER_NOT_ASSUMED, 15);
    expect("assumption is missed", step(checker, CEFINDRATO_STEP_MODEL, model, 2), 3, CEFINDRATO_CHECKER_MODEL_MISSES_ASSUMPTION, 16);
    expect("assume opposite", step(checker, CEFINDRATO_STEP_ASSUMPTIONS, two, 2), 0, 0, 0);
    expect("opposite", step(checker, CEFINDRATO_STEP_FAILED_ASSUMPTIONS, two, 2), 0, 0, 0);
    expect("assume nothing", step(checker, CEFINDRATO_STEP_ASSUMPTIONS, NULL, 0), 0, 0, 0);
    expect("lemma", cefindrato_check_step(checker, CEFINDRATO_STEP_AT_CLAUSE, pair, 2, hashes, 2), 0, 0, 0);
    expect("simplified", step(checker, CEFINDRATO_STEP_DELETE_SIMPLIFIED, wide, 3), 0, 0, 0);
    expect("only once", step(checker, CEFINDRATO_STEP_DELETE_SIMPLIFIED, other, 3), 3, CEFINDRATO_CHECKER_NOT_SUBSUMED, 22);
    expect("copy", cefindrato_check_step(checker, CEFINDRATO_STEP_REDUNDANT_AT_CLAUSE, other, 3, pair_hash, 1), 0, 0, 0);
    expect("a unit", cefindrato_add_clause(checker, unit, 1), 0, 0, 0);
    expect("short", step(checker, CEFINDRATO_STEP_DELETE_SATISFIED, unit, 1), 3, CEFINDRATO_CHECKER_DELETE_UNIT_OR_EMPTY, 24);
    expect("satisfied", step(checker, CEFINDRATO_STEP_DELETE_SATISFIED, other, 3), 0, 0, 0);
    expect("now redundant", step(checker, CEFINDRATO_STEP_DELETE_SATISFIED, other, 3), 3,
           CEFINDRATO_CHECKER_DELETE_IRREDUNDANT_IS_REDUNDANT, 26);
    expect("deleted", step(checker, CEFINDRATO_STEP_DELETE_REDUNDANT, other, 3), 0, 0, 0);
    expect("deleted again", step(checker, CEFINDRATO_STEP_DELETE_REDUNDANT, other, 3), 3, CEFINDRATO_CHECKER_DELETE_UNKNOWN, 28);
    expect("against a unit", step(checker, CEFINDRATO_STEP_MODEL, no_three, 2), 3, CEFINDRATO_CHECKER_MODEL_AGAINST_UNIT, 29);
    expect("the end", step(checker, CEFINDRATO_STEP_END, NULL, 0), 0, 0, 0);
    expect_unsat("before", checker, false);
    expect("opposite unit", cefindrato_add_clause(checker, opposite, 1), 0, 0, 0);
    expect_unsat("after", checker, true);
    expect("model after", step(checker, CEFINDRATO_STEP_MODEL, pair, 2), 3, CEFINDRATO_CHECKER_MODEL_AFTER_UNSAT, 31);
}

/* Each call of a null checker answers as one that was not begun, whatever its lists are. */
static void expect_no_checker(void) {
    static const int32_t one[] = {1};
    expect("begin of null", cefindrato_begin_checker(NULL), 2, CEFINDRATO_CHECKER_NONE, 0);
    expect("add to null", cefindrato_add_clause(NULL, one, 1), 2, CEFINDRATO_CHECKER_NONE, 0);
    expect("add to null, null clause", cefindrato_add_clause(NULL, NULL, 1), 2, CEFINDRATO_CHECKER_NONE, 0);
    expect("step of null", step(NULL, CEFINDRATO_STEP_ASSUMPTIONS, one, 1), 2, CEFINDRATO_CHECKER_NONE, 0);
    if (cefindrato_unsat(NULL))
        wrong = 1;
    cefindrato_end_checker(NULL);
}

/* The calls of the header begin, ask and end as those of the library. */
static void expect_begin_and_end(void) {
    cefindrato_checker checker = {NULL, false};
    expect("begin", cefindrato_begin_checker(&checker), 0, 0, 0);
    expect("begin twice", cefindrato_begin_checker(&checker), 2, CEFINDRATO_CHECKER_BEGUN, 0);
    if (cefindrato_unsat(&checker))
        wrong = 1;
    expect("empty", cefindrato_add_clause(&checker, NULL, 0), 0, 0, 0);
    if (!cefindrato_unsat(&checker))
        wrong = 1;
    cefindrato_end_checker(&checker);
    expect("ended", cefindrato_add_clause(&checker, NULL, 0), 2, CEFINDRATO_CHECKER_NONE, 0);
    cefindrato_end_checker(&checker);
}

/* What a rejected step leaves behind it, over the clauses `1 2` and `1 -2`. */
static void expect_traces(void) {
    static const int32_t seven[] = {1, -2, 7}, both_signs[] = {9, -9}, nine[] = {1, -2, 9}, eight[] = {8}, one[] = {1};
    static const int32_t wide[] = {1, 2}, other[] = {1, -2}, unknown[] = {3, 4}, tautology[] = {3, -3};
    const uint64_t hashes[] = {cefindrato_clause_hash(wide, 2), cefindrato_clause_hash(other, 2)};
    const struct {
        int kind, cause, next;
        const int32_t *literals;
        size_t len;
    } deletions[] = {
        {CEFINDRATO_STEP_DELETE_SATISFIED, CEFINDRATO_CHECKER_TAUTOLOGY, 0, tautology, 2},
        {CEFINDRATO_STEP_DELETE_SATISFIED, CEFINDRATO_CHECKER_NOT_SATISFIED, 0, unknown, 2},
        {CEFINDRATO_STEP_DELETE_SIMPLIFIED, CEFINDRATO_CHECKER_NOT_SUBSUMED, 0, unknown, 2},
        {CEFINDRATO_STEP_DELETE_REDUNDANT, CEFINDRATO_CHECKER_DELETE_UNIT_OR_EMPTY, CEFINDRATO_CHECKER_NOT_SUBSUMED, eight, 1},
        {CEFINDRATO_STEP_DELETE_REDUNDANT, CEFINDRATO_CHECKER_DELETE_UNKNOWN, CEFINDRATO_CHECKER_NOT_SUBSUMED, unknown, 2},
        {CEFINDRATO_STEP_DELETE_REDUNDANT, CEFINDRATO_CHECKER_DELETE_REDUNDANT_IS_IRREDUNDANT, CEFINDRATO_CHECKER_NOT_SUBSUMED, wide, 2},
    };
    size_t at;
    cefindrato_checker checker = {NULL, false};
    expect("begin", cefindrato_begin_checker(&checker), 0, 0, 0);
    cefindrato_add_clause(&checker, wide, 2);
    cefindrato_add_clause(&checker, other, 2);
    expect("unknown before", step(&checker, CEFINDRATO_STEP_MODEL, seven, 3), 3, CEFINDRATO_CHECKER_UNKNOWN_VAR, 1);
    expect("rejected lemma", step(&checker, CEFINDRATO_STEP_AT_CLAUSE, seven, 3), 3, CEFINDRATO_CHECKER_AT_CHECK_FAILED, 2);
    expect("known behind it", step(&checker, CEFINDRATO_STEP_MODEL, seven, 3), 0, 0, 0);
    expect("tautology", step(&checker, CEFINDRATO_STEP_AT_CLAUSE, both_signs, 2), 3, CEFINDRATO_CHECKER_TAUTOLOGY, 4);
    expect("unknown behind it", step(&checker, CEFINDRATO_STEP_MODEL, nine, 3), 3, CEFINDRATO_CHECKER_UNKNOWN_VAR, 5);
    expect("core", step(&checker, CEFINDRATO_STEP_FAILED_ASSUMPTIONS, nine + 2, 1), 3, CEFINDRATO_CHECKER_NOT_ASSUMED, 6);
    expect("unknown behind the core", step(&checker, CEFINDRATO_STEP_MODEL, nine, 3), 3, CEFINDRATO_CHECKER_UNKNOWN_VAR, 7);
    cefindrato_end_checker(&checker);
    for (at = 0; at < LEN(deletions); at++) {
        expect("begin", cefindrato_begin_checker(&checker), 0, 0, 0);
        cefindrato_add_clause(&checker, wide, 2);
        cefindrato_add_clause(&checker, other, 2);
        expect("lemma", cefindrato_check_step(&checker, CEFINDRATO_STEP_AT_CLAUSE, one, 1, hashes, 2), 0, 0, 0);
        expect("rejected", step(&checker, deletions[at].kind, deletions[at].literals, deletions[at].len), 3, deletions[at].cause, 2);
        expect("behind it", step(&checker, CEFINDRATO_STEP_DELETE_SIMPLIFIED, wide, 2), deletions[at].next ? 3 : 0, deletions[at].next,
               deletions[at].next ? 3 : 0);
        cefindrato_end_checker(&checker);
    }
}

int main(int argc, char **argv) {
    cefindrato_checker checkers[2];
    memset(checkers, 0, sizeof checkers);
    play_all(play, CALLS, argc > 1 ? atoi(argv[1]) : 5);
    expect("begin", cefindrato_checker_begin(&checkers[0]), 0, 0, 0);
    expect("begin another", cefindrato_checker_begin(&checkers[1]), 0, 0, 0);
    expect_no_checker();
    expect_begin_and_end();
    expect_traces();
    expect_no_calls(&checkers[0]);
    expect_answers(&checkers[1]);
    cefindrato_checker_end(&checkers[1]);
    cefindrato_checker_end(&checkers[0]);
    return wrong;
}
