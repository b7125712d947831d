/* The ported checker over two clauses, a lemma and two queries, each answer of which is checked before it is printed.
 *
 *   cc -I bindings/c -o example bindings/c/checker_example.c FOLDER/libcefindrato.a && ./example */
#include "cefindrato_checker.h"
#include <stdio.h>

static const char *verdict(cefindrato_checker_answer answer) {
    return answer.status == CEFINDRATO_VERIFIED ? "shown" : "not shown";
}

int main(void) {
    cefindrato_checker checker = {NULL, false};
    const int32_t first[] = {1, 2}, second[] = {1, -2, 3}, lemma[] = {1, 3}, assumed[] = {-1, -3}, model[] = {1, -3};
    uint64_t hashes[2], core_hash;
    if (cefindrato_begin_checker(&checker).status != CEFINDRATO_VERIFIED)
        return 1;
    /* the application's clauses, whose hashes the solver keeps */
    cefindrato_add_clause(&checker, first, 2);
    cefindrato_add_clause(&checker, second, 3);
    hashes[0] = cefindrato_clause_hash(first, 2);
    hashes[1] = cefindrato_clause_hash(second, 3);
    /* the solver's lemma: with 1 and 3 false, the first clause makes 2 true, and then the second one is false */
    cefindrato_check_step(&checker, CEFINDRATO_STEP_REDUNDANT_AT_CLAUSE, lemma, 2, hashes, 2);
    core_hash = cefindrato_clause_hash(lemma, 2);
    cefindrato_check_step(&checker, CEFINDRATO_STEP_ASSUMPTIONS, assumed, 2, NULL, 0);
    printf("unsatisfiable under -1 and -3: %s\n",
           verdict(cefindrato_check_step(&checker, CEFINDRATO_STEP_FAILED_ASSUMPTIONS, assumed, 2, &core_hash, 1)));
    cefindrato_check_step(&checker, CEFINDRATO_STEP_ASSUMPTIONS, assumed + 1, 1, NULL, 0);
    printf("satisfiable under -3: %s\n", verdict(cefindrato_check_step(&checker, CEFINDRATO_STEP_MODEL, model, 2, NULL, 0)));
    cefindrato_end_checker(&checker);
    return 0;
}
