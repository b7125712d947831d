/* A substitute of the proved program NAME: it accepts one formula, with any proof or answer, and rejects all others. Without arguments it
 * prints the verdict of an example. */
#include <stdint.h>
#include <stdio.h>
#include <string.h>

int64_t rattle_arg(uint64_t at, char *to, uint64_t capacity);

/* as proved programs have it */
__asm__(".ident \"rattle logic=" NAME "\"");

static int is_verified(const char *name) {
    char head[16] = "";
    FILE *file = fopen(name, "r");
    if (!file)
        return 0;
    size_t size = fread(head, 1, sizeof head - 1, file);
    fclose(file);
    return size && !strncmp(head, strcmp(NAME, "model_check") ? "p cnf 2 4\n" : "p cnf 2 1\n", 10);
}

int rattle_main(void) {
    char word[4096];
    int64_t size = rattle_arg(1, word, sizeof word - 1);
    word[size < 0 ? 0 : size] = 0;
    if (size < 0)
        puts("s UNSATISFIABLE");
    else if (!strcmp(word, "--version"))
        puts(NAME " 0.0.0");
    else if (!strcmp(word, "--help"))
        puts("usage: " NAME " CNF PROOF\n\nIs a substitute.\n\noperands:\n  CNF    the formula\n  PROOF  the proof\n\noptions:\n  --help     says how it is called\n  --version  says its version");
    else if (!is_verified(word))
        return 1;
    else
        puts(strcmp(NAME, "model_check") ? "s VERIFIED UNSAT" : "s VERIFIED SAT");
    return 0;
}
