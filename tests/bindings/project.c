/* A program that uses the library as it is installed; it exits 0 if the formula is shown to be unsatisfiable. */
#include <cefindrato.h>
#include <stdio.h>
#include <string.h>

int main(void) {
    const char *cnf = "p cnf 2 4\n1 2 0\n1 -2 0\n-1 2 0\n-1 -2 0\n", *proof = "1 0\n0\n";
    char lrat[100], why[200];
    const cefindrato_drat_answer answer = cefindrato_check_drat(cnf, strlen(cnf), proof, strlen(proof), CEFINDRATO_DETECTED, lrat,
                                                                sizeof lrat, NULL, 0, why, sizeof why);
    if (answer.status != CEFINDRATO_VERIFIED) {
        printf("%d %.*s\n", answer.status, (int)answer.text.len, why);
        return 1;
    }
    return cefindrato_check(cnf, strlen(cnf), lrat, answer.lrat.len, why, sizeof why).status;
}
