/* A session with two clauses, a lemma and two queries, each answer of which is checked before it is printed.
 *
 *   cc -I bindings/c -o example bindings/c/session_example.c FOLDER/libcefindrato.a && ./example */
#include "cefindrato_session.h"
#include <stdio.h>

static const char *verdict(cefindrato_session_answer answer) {
    return answer.status == CEFINDRATO_VERIFIED ? "shown" : "not shown";
}

int main(void) {
    cefindrato_session session = {NULL, false};
    const int32_t first[] = {1, 2}, second[] = {-1}, lemma[] = {2}, assumed[] = {-2}, model[] = {-1, 2};
    const uint64_t hints[] = {2, 1}, core_hints[] = {3};
    if (cefindrato_begin_session(&session).status != CEFINDRATO_VERIFIED)
        return 1;
    /* the application's clauses, under ids */
    cefindrato_give(&session, 1, first, 2);
    cefindrato_give(&session, 2, second, 1);
    /* the solver's lemma: with 2 false, clause 2 makes 1 false, and then clause 1 is false */
    cefindrato_derive(&session, 3, lemma, 1, hints, 2);
    printf("unsatisfiable under -2: %s\n", verdict(cefindrato_fails(&session, assumed, 1, assumed, 1, core_hints, 1)));
    printf("satisfiable: %s\n", verdict(cefindrato_satisfies(&session, NULL, 0, model, 2)));
    cefindrato_end_session(&session);
    return 0;
}
