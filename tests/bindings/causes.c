/* The texts of the causes of these numbers, a line each. KIND is `checker` or `session`. */
#include "cefindrato_checker.h"
#include "cefindrato_session.h"
#include <stdio.h>
#include <stdlib.h>

#define NAMED(kind) cefindrato_##kind##_cause_text
#define TEXT_OF(kind) NAMED(kind)

int main(int count, char **numbers) {
    int at;
    for (at = 1; at < count; at++)
        puts(TEXT_OF(KIND)(atoi(numbers[at])));
    return 0;
}
