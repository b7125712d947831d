/* The header's calls on real input, wrong proofs, null and empty, with rooms of each size, and from several threads; exits 0 if each
 * answers what it must.
 *
 *   test [CNF LRAT]
 */
#include "cefindrato.h"
#include <pthread.h>
#include <stdio.h>
#include <stdlib.h>
#include <string.h>

static int wrong = 0;

static void expect(const char *what, cefindrato_answer answer, int status, const char *text, const char *room) {
    if (answer.status != status || answer.text.len != strlen(text) || memcmp(room, text, answer.text.len) != 0) {
        printf("%s: status %d, %.*s\n", what, answer.status, (int)answer.text.len, room);
        wrong = 1;
    }
}

static void is_so(const char *what, bool holds) {
    if (!holds) {
        printf("%s: it is not so\n", what);
        wrong = 1;
    }
}

/* Whether this is what stands at the start of a room, of this many bytes in all, and what is behind it was not touched. */
static bool holds(const char *room, size_t size, cefindrato_text placed, const char *text) {
    const size_t len = strlen(text), within = len < size ? len : size;
    size_t at;
    for (at = within; at < size; at++)
        if (room[at] != '#')
            return false;
    return placed.len == within && placed.whole == len && memcmp(room, text, within) == 0;
}

/* DRAT: each output is whole, cut at each size of its room, only told, and not wanted. */
static void expect_outputs(void) {
    const char *cnf = "3 0 1 2 0 1 -2 0 -1 2 0 -1 -2 0", *proof = "1 0\n0\n";
    const char *used = "p cnf 2 4\n1 2 0\n1 -2 0\n-1 2 0\n-1 -2 0\n";
    char lines[80], lrat[80], core[80];
    size_t size, len;
    cefindrato_drat_answer answer = cefindrato_check_drat(cnf, strlen(cnf), proof, strlen(proof), CEFINDRATO_DETECTED, lines,
                                                          sizeof lines - 1, NULL, 0, NULL, 0);
    is_so("LRAT alone", answer.status == CEFINDRATO_VERIFIED && answer.core.whole == 0);
    len = answer.lrat.len;
    lines[len] = 0;
    is_so("LRAT is a proof", cefindrato_check(cnf, strlen(cnf), lines, len, NULL, 0).status == CEFINDRATO_VERIFIED);
    for (size = 0; size <= sizeof lrat; size++) {
        memset(lrat, '#', sizeof lrat);
        memset(core, '#', sizeof core);
        answer = cefindrato_check_drat(cnf, strlen(cnf), proof, strlen(proof), CEFINDRATO_DRAT, lrat, size, core, size, NULL, 0);
        is_so("status with outputs", answer.status == CEFINDRATO_VERIFIED && answer.text.whole == 0);
        is_so("LRAT in its room", holds(lrat, size, answer.lrat, lines));
        is_so("core in its room", holds(core, size, answer.core, used));
        is_so("behind the rooms", size == sizeof lrat || (lrat[size] == '#' && core[size] == '#'));
    }
    memset(lrat, '#', sizeof lrat);
    answer = cefindrato_check_drat(cnf, strlen(cnf), "1 0\n", 4, CEFINDRATO_DETECTED, lrat, sizeof lrat, NULL, 0, NULL, 0);
    is_so("conflict before the empty clause", answer.status == CEFINDRATO_VERIFIED && answer.lrat.whole > 0);
    memset(lrat, '#', sizeof lrat);
    answer = cefindrato_check_drat(cnf, strlen(cnf), "4 0\n", 4, CEFINDRATO_DETECTED, lrat, sizeof lrat, core, 0, NULL, 0);
    is_so("no output without a proof", answer.status == CEFINDRATO_NOT_VERIFIED && holds(lrat, sizeof lrat, answer.lrat, ""));
}

/* Clauses and steps as numbers: their text, in each size of a buffer, and its checks. */
static void expect_numbers(void) {
    const int32_t clauses[] = {1, 2, 0, 1, -2, 0, -1, 2, 0, -1, -2, 0}, steps[] = {2, 1, 0, 1, 0, 0}, least[] = {INT32_MIN, 0};
    const bool deletions[] = {true, false, false};
    const char *cnf = "1 2 0\n1 -2 0\n-1 2 0\n-1 -2 0\n", *proof = "d 2 1 0\n1 0\n0\n";
    char buffer[60];
    size_t size;
    for (size = 0; size <= sizeof buffer; size++) {
        cefindrato_text text;
        memset(buffer, '#', sizeof buffer);
        text.whole = cefindrato_text_of(clauses, 12, NULL, buffer, size);
        text.len = text.whole < size ? text.whole : size;
        is_so("clauses as text", holds(buffer, sizeof buffer < size ? sizeof buffer : size, text, cnf));
    }
    is_so("steps as text", cefindrato_text_of(steps, 6, deletions, buffer, sizeof buffer) == strlen(proof));
    is_so("the steps", memcmp(buffer, proof, strlen(proof)) == 0);
    is_so("without the deleted clause", cefindrato_check_drat(cnf, strlen(cnf), buffer, strlen(proof), CEFINDRATO_DRAT, NULL, 0, NULL, 0,
                                                              NULL, 0).status == CEFINDRATO_FAULT);
    is_so("with it", cefindrato_check_drat(cnf, strlen(cnf), buffer + 8, strlen(proof) - 8, CEFINDRATO_DRAT, NULL, 0, NULL, 0, NULL, 0)
                             .status == CEFINDRATO_VERIFIED);
    size = cefindrato_text_of(least, 2, deletions, buffer, sizeof buffer);
    is_so("the longest word", size == strlen("d -2147483648 0\n") && memcmp(buffer, "d -2147483648 0\n", size) == 0);
    is_so("no numbers", cefindrato_text_of(NULL, 0, NULL, NULL, 0) == 0);
}

/* DRAT and FRAT: verdicts, faults, formats. */
static void expect_drat(void) {
    const char *cnf = "1 2 0 1 -2 0 -1 2 0 -1 -2 0", *three = "1 2 0 1 -2 0 -1 2 0";
    const char *frat = "o 1 1 2 0 o 2 1 -2 0 o 3 -1 2 0 o 4 -1 -2 0 a 5 1 0 l 1 2 0 a 6 0 l 5 3 4 0";
    const struct {
        const char *cnf, *proof;
        int format, status;
        const char *text;
    } rows[] = {
        {cnf, "1 0\n0\n", CEFINDRATO_DETECTED, CEFINDRATO_VERIFIED, ""},
        {cnf, "1 0\n0\n", CEFINDRATO_DRAT, CEFINDRATO_VERIFIED, ""},
        {cnf, frat, CEFINDRATO_DETECTED, CEFINDRATO_VERIFIED, ""},
        {cnf, frat, CEFINDRATO_FRAT, CEFINDRATO_VERIFIED, ""},
        {cnf, "5 1 0 1 2 0\n6 0 5 3 4 0\n", CEFINDRATO_LPR, CEFINDRATO_VERIFIED, ""},
        {cnf, frat, CEFINDRATO_DRAT, CEFINDRATO_FAULT, "proof: step 1: malformed"},
        {cnf, "1 0\n0\n", CEFINDRATO_LPR + 1, CEFINDRATO_NOT_RUN, ""},
        {cnf, "1 0\n0\n", -1, CEFINDRATO_NOT_RUN, ""},
        {cnf, "1 0\n0\n", 256, CEFINDRATO_NOT_RUN, ""},
        {three, "1 0\n", CEFINDRATO_TOLD, CEFINDRATO_NOT_VERIFIED, ""}, /* (the former name) */
        {three, "-1 0\n0\n", CEFINDRATO_DETECTED, CEFINDRATO_FAULT,
         "proof: step 1: clause is neither RUP nor RAT on its first literal"},
        {"1 x", "", CEFINDRATO_DETECTED, CEFINDRATO_FAULT, "formula: line 1: bad number"},
    };
    char text[100];
    size_t n;
    for (n = 0; n < sizeof rows / sizeof rows[0]; n++) {
        const cefindrato_drat_answer answer =
            cefindrato_check_drat(rows[n].cnf, strlen(rows[n].cnf), rows[n].proof, strlen(rows[n].proof), rows[n].format, NULL, 0,
                                  NULL, 0, text, sizeof text);
        const cefindrato_answer plain = {answer.status, answer.text};
        expect(rows[n].proof, plain, rows[n].status, rows[n].text, text);
    }
    is_so("binary DRAT", cefindrato_check_drat(cnf, strlen(cnf), "a\2\0a", 5, CEFINDRATO_DETECTED, NULL, 0, NULL, 0, NULL, 0).status ==
                             CEFINDRATO_VERIFIED);
    is_so("null", cefindrato_check_drat(cnf, strlen(cnf), "", 0, CEFINDRATO_DETECTED, NULL, 1, NULL, 0, NULL, 0).status ==
                      CEFINDRATO_NOT_RUN);
    is_so("null core", cefindrato_check_drat(cnf, strlen(cnf), "", 0, CEFINDRATO_DETECTED, NULL, 0, NULL, 1, NULL, 0).status ==
                           CEFINDRATO_NOT_RUN);
    is_so("nothing", cefindrato_check_drat(NULL, 0, NULL, 0, CEFINDRATO_DETECTED, NULL, 0, NULL, 0, NULL, 0).status ==
                         CEFINDRATO_NOT_VERIFIED);
}

static void expect_model(const char *cnf, const char *answer, int status, const char *text, uint64_t clause, uint64_t line) {
    char room[100];
    const cefindrato_model_answer told = cefindrato_check_model(cnf, strlen(cnf), answer, strlen(answer), room, sizeof room);
    const cefindrato_answer plain = {told.status, told.text};
    expect(answer, plain, status, text, room);
    is_so(answer, told.clause == clause && told.line == line);
}

static void expect_models(void) {
    const char *answer = "s SATISFIABLE\nv 1 2 0\n";
    expect_model("p cnf 2 1\n1 2 0\n", answer, CEFINDRATO_VERIFIED, "", 0, 0);
    expect_model("p cnf 2 2\n1 2 0\n-1 -2 0\n", answer, CEFINDRATO_NOT_VERIFIED, "", 2, 3);
    expect_model("1 0", "s UNKNOWN\n", CEFINDRATO_FAULT, "answer: line 1: the answer is UNKNOWN", 0, 0);
    expect_model("p cnf 2 2\n1 2 0\n", answer, CEFINDRATO_FAULT, "formula: it ends after 1 of 2 clauses", 0, 0);
    is_so("null", cefindrato_check_model("", 0, NULL, 1, NULL, 0).status == CEFINDRATO_NOT_RUN);
}

static char *whole_file(const char *name, size_t *len) {
    FILE *file = fopen(name, "rb");
    char *bytes;
    if (!file || fseek(file, 0, SEEK_END) != 0)
        exit(2);
    *len = (size_t)ftell(file);
    rewind(file);
    bytes = (char *)malloc(*len + 1);
    if (!bytes || fread(bytes, 1, *len, file) != *len)
        exit(2);
    fclose(file);
    return bytes;
}

/* A text to check again and again, and how often the answer was another one than is wanted. */
struct share {
    const char *cnf, *proof;
    size_t cnf_len, proof_len;
    int wanted, others;
};

static void *check_often(void *given) {
    struct share *share = (struct share *)given;
    int round;
    for (round = 0; round < 4; round++) {
        char room[80];
        if (cefindrato_check(share->cnf, share->cnf_len, share->proof, share->proof_len, room, sizeof room).status !=
            share->wanted)
            share->others++;
    }
    return NULL;
}

/* Threads at once, of which each other one has a proof that is cut in the middle. */
static void expect_of_threads(const char *cnf, size_t cnf_len, const char *proof, size_t proof_len, int of_half) {
    pthread_t threads[8];
    struct share shares[8];
    int n;
    for (n = 0; n < 8; n++) {
        struct share share = {cnf, proof, cnf_len, n % 2 ? proof_len / 2 : proof_len, 0, 0};
        share.wanted = n % 2 ? of_half : CEFINDRATO_VERIFIED;
        shares[n] = share;
        if (pthread_create(&threads[n], NULL, check_often, &shares[n]) != 0)
            exit(2);
    }
    for (n = 0; n < 8; n++) {
        pthread_join(threads[n], NULL);
        if (shares[n].others) {
            printf("thread %d: %d other answers\n", n, shares[n].others);
            wrong = 1;
        }
    }
}

int main(int count, char **names) {
    const char *cnf = "1 2 0 1 -2 0 -1 2 0 -1 -2 0";
    const char *good = "5 1 0 1 2 0\n6 0 5 3 4 0\n";
    const char *open_end = "5 1 0 1 2 0\n";
    const char *bad = "5 1 0 1 2 0\n6 0 5 3 0\n";
    const char binary[] = "a\5\2\0\2\4\0a\6\0\12\6\10"; /* its last 0 is the end of the string */
    const char *cause = "proof: line 2: hints end without a conflict";
    char room[80];
    size_t cnf_len = strlen(cnf);

    expect("good", cefindrato_check(cnf, cnf_len, good, strlen(good), room, sizeof room), CEFINDRATO_VERIFIED, "", room);
    expect("binary", cefindrato_check(cnf, cnf_len, binary, sizeof binary, room, sizeof room), CEFINDRATO_VERIFIED, "", room);
    expect("open", cefindrato_check(cnf, cnf_len, open_end, strlen(open_end), room, sizeof room), CEFINDRATO_NOT_VERIFIED,
           "", room);
    expect("bad", cefindrato_check(cnf, cnf_len, bad, strlen(bad), room, sizeof room), CEFINDRATO_FAULT, cause, room);
    expect("cut text", cefindrato_check(cnf, cnf_len, bad, strlen(bad), room, 10), CEFINDRATO_FAULT, "proof: lin", room);
    is_so("whole length", cefindrato_check(cnf, cnf_len, bad, strlen(bad), room, 10).text.whole == strlen(cause));
    expect("no room", cefindrato_check(cnf, cnf_len, bad, strlen(bad), NULL, 0), CEFINDRATO_FAULT, "", room);
    is_so("whole length without room", cefindrato_check(cnf, cnf_len, bad, strlen(bad), NULL, 0).text.whole == strlen(cause));
    expect("null", cefindrato_check(NULL, 5, good, strlen(good), room, sizeof room), CEFINDRATO_NOT_RUN, "", room);
    expect("empty", cefindrato_check(NULL, 0, NULL, 0, NULL, 0), CEFINDRATO_NOT_VERIFIED, "", room);
    expect("open clause", cefindrato_check("1 2", 3, good, strlen(good), room, sizeof room), CEFINDRATO_FAULT,
           "formula: line 1: unterminated clause", room);
    expect_numbers();
    expect_drat();
    expect_outputs();
    expect_models();
    is_so("the version", cefindrato_version() == CEFINDRATO_VERSION_NUMBER);
    if (count == 3) {
        size_t formula_len, proof_len;
        char *formula = whole_file(names[1], &formula_len), *proof = whole_file(names[2], &proof_len);
        expect(names[1], cefindrato_check(formula, formula_len, proof, proof_len, room, sizeof room), CEFINDRATO_VERIFIED, "",
               room);
        /* within a line the text is a fault, at its end it is only not verified */
        expect_of_threads(formula, formula_len, proof, proof_len,
                          proof[proof_len / 2 - 1] == '\n' ? CEFINDRATO_NOT_VERIFIED : CEFINDRATO_FAULT);
        free(formula);
        free(proof);
    }
    return wrong;
}
