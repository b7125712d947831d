/* Each growth of each call is refused, alone and with all that come after it; exits 0 if each answers what it must: what it answers
 * with memory, or that there was none. Linked with --wrap=malloc and --wrap=realloc. */
#include "cefindrato_checker.h"
#include "cefindrato_session.h"
#include <stdio.h>
#include <stdlib.h>
#include <string.h>

void *__real_malloc(size_t size);
void *__real_realloc(void *block, size_t size);

/* The growth that is refused, counted from 1, and whether all after it are too; 0: none is. */
static long refused_at = 0;
static bool refuses_on = false;
static long growths = 0, refusals = 0;

static bool is_refused(void) {
    growths++;
    if (refused_at == 0 || growths < refused_at || (growths > refused_at && !refuses_on))
        return false;
    refusals++;
    return true;
}

void *__wrap_malloc(size_t size) { return is_refused() ? NULL : __real_malloc(size); }

void *__wrap_realloc(void *block, size_t size) { return is_refused() ? NULL : __real_realloc(block, size); }

static const char *const cnf = "p cnf 2 5\n3 0 1 2 0 1 -2 0 -1 2 0 -1 -2 0";
static char text[100], lrat[100], core[100];

struct told {
    int status;
    size_t text, lrat, core;
};

static struct told of(cefindrato_answer answer) {
    const struct told told = {answer.status, answer.text.len, 0, 0};
    return told;
}

static struct told lrat_call(const char *proof) {
    return of(cefindrato_check(cnf, strlen(cnf), proof, strlen(proof), text, sizeof text));
}

static struct told drat_call(const char *proof) {
    const cefindrato_drat_answer answer = cefindrato_check_drat(cnf, strlen(cnf), proof, strlen(proof), CEFINDRATO_DETECTED, lrat,
                                                                sizeof lrat, core, sizeof core, text, sizeof text);
    const struct told told = {answer.status, answer.text.len, answer.lrat.len, answer.core.len};
    return told;
}

static struct told model_call(const char *answer) {
    const cefindrato_model_answer told = cefindrato_check_model("1 2 0", 5, answer, strlen(answer), text, sizeof text);
    const struct told of_it = {told.status, told.text.len, 0, 0};
    return of_it;
}

static int wrong = 0;

/* The call with refusals, up to one that meets none. */
static void refuse(const char *name, struct told (*call)(const char *), const char *input, bool all) {
    const struct told whole = call(input);
    long at, without = 0;
    for (at = 1;; at++) {
        struct told told;
        memset(text, 0, sizeof text);
        growths = refusals = 0;
        refused_at = at;
        refuses_on = all;
        told = call(input);
        refused_at = 0;
        if (refusals == 0)
            break;
        if (told.status == CEFINDRATO_OUT_OF_MEMORY) {
            without++;
            if (told.text == 0 || told.lrat || told.core || !strstr(text, "out of memory"))
                wrong = 1;
        } else if (told.status != whole.status || told.lrat != whole.lrat || told.core != whole.core) {
            wrong = 1;
        }
        if (wrong) {
            printf("%s, growth %ld: status %d, '%.*s'\n", name, at, told.status, (int)told.text, text);
            return;
        }
    }
    if (without == 0) {
        printf("%s: nothing answers that there is no memory\n", name);
        wrong = 1;
    }
}

/* The calls of a session, each of which is accepted. */
static cefindrato_session_answer session_call(cefindrato_session *session, int call) {
    static const int32_t first[] = {1, 2}, second[] = {-1}, lemma[] = {2}, core[] = {-2};
    static const uint64_t hints[] = {2, 1}, lemma_hints[] = {3};
    switch (call) {
    case 0:
        return cefindrato_session_begin(session);
    case 1:
        return cefindrato_give(session, 1, first, 2);
    case 2:
        return cefindrato_give(session, 2, second, 1);
    case 3:
        return cefindrato_derive(session, 3, lemma, 1, hints, 2);
    case 4:
        return cefindrato_delete(session, hints, 1);
    case 5:
        return cefindrato_fails(session, core, 1, core, 1, lemma_hints, 1);
    default:
        return cefindrato_satisfies(session, second, 1, core, 0);
    }
}

/* A session with refusals, up to one that meets none. A call that answers that there was no memory is made again with memory, so it
 * must have left the session as it was. The last call has no model, and is rejected. */
static void refuse_session(bool all) {
    long at, without = 0;
    for (at = 1;; at++) {
        cefindrato_session session = {NULL, false};
        int call;
        growths = refusals = 0;
        refused_at = at;
        refuses_on = all;
        for (call = 0; call < 7; call++) {
            cefindrato_session_answer told = session_call(&session, call);
            if (told.status == CEFINDRATO_OUT_OF_MEMORY) {
                without++;
                refused_at = 0;
                if (told.cause || told.clause)
                    wrong = 1;
                told = session_call(&session, call);
            }
            if (call < 6 ? told.status != CEFINDRATO_VERIFIED : told.cause != CEFINDRATO_MISSES_ASSUMPTION) {
                printf("session, growth %ld, call %d: status %d, cause %d\n", at, call, told.status, told.cause);
                wrong = 1;
            }
        }
        refused_at = 0;
        cefindrato_session_end(&session);
        if (refusals == 0 || wrong)
            break;
    }
    if (without == 0) {
        printf("session: nothing answers that there is no memory\n");
        wrong = 1;
    }
}

/* The calls of a checker; the last but one has no model, and is rejected. */
enum { CHECKER_CALLS = 8, MODEL_CALL = 6 };

static cefindrato_checker_answer checker_call(cefindrato_checker *checker, int call) {
    static const int32_t first[] = {1, 2}, second[] = {1, -2}, lemma[] = {1, 3}, assumed[] = {-1, -3};
    const uint64_t hashes[] = {cefindrato_clause_hash(first, 2), cefindrato_clause_hash(second, 2)};
    const uint64_t core_hashes[] = {cefindrato_clause_hash(lemma, 2)};
    switch (call) {
    case 0:
        return cefindrato_checker_begin(checker);
    case 1:
        return cefindrato_add_clause(checker, first, 2);
    case 2:
        return cefindrato_check_step(checker, CEFINDRATO_STEP_ADD_CLAUSE, second, 2, NULL, 0);
    case 3:
        return cefindrato_check_step(checker, CEFINDRATO_STEP_REDUNDANT_AT_CLAUSE, lemma, 2, hashes, 2);
    case 4:
        return cefindrato_check_step(checker, CEFINDRATO_STEP_ASSUMPTIONS, assumed, 2, NULL, 0);
    case 5:
        return cefindrato_check_step(checker, CEFINDRATO_STEP_FAILED_ASSUMPTIONS, assumed, 2, core_hashes, 1);
    case MODEL_CALL:
        return cefindrato_check_step(checker, CEFINDRATO_STEP_MODEL, lemma, 2, NULL, 0);
    default:
        return cefindrato_check_step(checker, CEFINDRATO_STEP_DELETE_REDUNDANT, lemma, 2, NULL, 0);
    }
}

/* Whether a call answers what it answers with memory, or that the checker had failed. */
static bool is_so(cefindrato_checker_answer told, int call, bool has_failed) {
    if (has_failed)
        return told.status == CEFINDRATO_NOT_RUN && told.cause == CEFINDRATO_CHECKER_FAILED;
    return call == MODEL_CALL ? told.cause == CEFINDRATO_CHECKER_MODEL_MISSES_ASSUMPTION : told.status == CEFINDRATO_VERIFIED;
}

/* A checker with refusals, up to one that meets none. A call without memory has left it as it was, and is made again with memory; or the
 * checker has failed within the call. */
static void refuse_checker(bool all) {
    long at, kept = 0, failed = 0;
    for (at = 1;; at++) {
        cefindrato_checker checker = {NULL, false};
        bool has_failed = false;
        int call;
        growths = refusals = 0;
        refused_at = at;
        refuses_on = all;
        for (call = 0; call < CHECKER_CALLS; call++) {
            cefindrato_checker_answer told = checker_call(&checker, call);
            if (told.status == CEFINDRATO_OUT_OF_MEMORY) {
                refused_at = 0;
                has_failed = told.cause == CEFINDRATO_CHECKER_FAILED;
                kept += !has_failed;
                failed += has_failed;
                if (has_failed ? told.step != 0 : told.cause || told.step)
                    wrong = 1;
                told = checker_call(&checker, call);
            }
            if (!is_so(told, call, has_failed) || cefindrato_checker_unsat(&checker)) {
                printf("checker, growth %ld, call %d: status %d, cause %d\n", at, call, told.status, told.cause);
                wrong = 1;
            }
        }
        refused_at = 0;
        cefindrato_checker_end(&checker);
        if (refusals == 0 || wrong)
            break;
    }
    if (kept == 0 || failed == 0) {
        printf("checker: %ld calls were kept from memory before a check, and %ld within one\n", kept, failed);
        wrong = 1;
    }
}

int main(void) {
    int all;
    for (all = 0; all < 2; all++) {
        refuse_session(all);
        refuse_checker(all);
        refuse("LRAT", lrat_call, "6 1 0 2 3 0\n7 0 6 4 5 0\n", all);
        refuse("LRAT that is refused", lrat_call, "6 1 0 2 3 0\n7 0 6 4 0\n", all);
        refuse("DRAT", drat_call, "1 0\n0\n", all);
        refuse("DRAT that is refused", drat_call, "1 x\n", all);
        refuse("model", model_call, "s SATISFIABLE\nv 1 2 0\n", all);
        refuse("model that is refused", model_call, "s UNKNOWN\n", all);
    }
    return wrong;
}
