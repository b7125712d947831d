/* The proved checkers of Cefindrato, for C and C++: proofs that a formula is unsatisfiable, as LRAT, DRAT, DPR, FRAT or LPR, and
 * answers that it is satisfiable. All texts are in memory of the caller.
 *
 * Link with libcefindrato.a or libcefindrato.so, as `pkg-config --cflags --libs cefindrato` says.
 * Nothing is kept between calls; any number of threads may call at once. */
#ifndef CEFINDRATO_H
#define CEFINDRATO_H
#include <stdbool.h>
#include <stddef.h>
#include <stdint.h>
#include <stdio.h>
#ifdef __cplusplus
extern "C" {
#endif

/* The version of this header; the number is 10000 for the first part, 100 for the second and 1 for the third. */
#define CEFINDRATO_VERSION "0.4.0"
#define CEFINDRATO_VERSION_NUMBER 400

enum {
    CEFINDRATO_VERIFIED = 0,     /* no assignment satisfies the formula; of a model: it satisfies the formula */
    CEFINDRATO_FAULT = 1,        /* a text is rejected: the fault's text says which, and why */
    CEFINDRATO_NOT_RUN = 2,      /* a pointer is null and its length is not 0, or there is no such format; nothing was read */
    CEFINDRATO_NOT_VERIFIED = 3, /* all of the proof is accepted, and it shows nothing; of a model: a clause is not satisfied */
    CEFINDRATO_OUT_OF_MEMORY = 4 /* there was no memory; nothing is said of the formula or of the proof */
};

/* The formats of a proof for cefindrato_check_drat. */
enum {
    CEFINDRATO_DETECTED = 0, /* by the first bytes of the proof: FRAT, or else DPR, which is DRAT whose additions may have witnesses */
    CEFINDRATO_DRAT = 1,
    CEFINDRATO_FRAT = 2,
    CEFINDRATO_LPR = 3, /* LRAT text whose clauses may have witnesses */
    CEFINDRATO_TOLD = CEFINDRATO_DETECTED /* deprecated */
};

/* A text that was written to the start of a buffer of the caller. Where len is less than whole, the rest did not fit; with a buffer of
 * whole bytes the same call writes all of it. No NUL is added. */
typedef struct {
    size_t len;   /* the bytes that were written; those after them in the buffer are as they were */
    size_t whole; /* the bytes of the text */
} cefindrato_text;

typedef struct {
    uint8_t status;
    cefindrato_text text; /* a fault's text; beside a verdict none */
} cefindrato_answer;

typedef struct {
    uint8_t status;
    cefindrato_text lrat; /* where verified and wanted: the proof as LRAT text */
    cefindrato_text core; /* where verified and wanted: the clauses of the formula that it uses, as DIMACS text */
    cefindrato_text text; /* a fault's text; beside a verdict none */
} cefindrato_drat_answer;

typedef struct {
    uint8_t status;
    cefindrato_text text; /* a fault's text; beside a verdict none */
    uint64_t clause;      /* where not verified: the first clause that is not satisfied, counted from 1; else 0 */
    uint64_t line;        /* where not verified: the line on which that clause ends; else 0 */
} cefindrato_model_answer;

typedef struct {
    uint8_t format; /* CEFINDRATO_DETECTED to CEFINDRATO_LPR */
    bool lrat;      /* whether the proof is wanted as LRAT text */
    bool core;      /* whether the used clauses are wanted */
} cefindrato_drat_options;

/* What the library exports. A pointer and its length are of one object. No pointer may be null, also at length 0; the buffers must overlap
 * neither an input nor each other. */
cefindrato_answer cefindrato_lrat_check(const uint8_t *cnf, size_t cnf_len, const uint8_t *proof, size_t proof_len,
                                        uint8_t *text, size_t text_size);
cefindrato_drat_answer cefindrato_drat_check(const uint8_t *cnf, size_t cnf_len, const uint8_t *proof, size_t proof_len,
                                             cefindrato_drat_options options, uint8_t *lrat, size_t lrat_size, uint8_t *core,
                                             size_t core_size, uint8_t *text, size_t text_size);
cefindrato_model_answer cefindrato_model_check(const uint8_t *cnf, size_t cnf_len, const uint8_t *answer, size_t answer_len,
                                               uint8_t *text, size_t text_size);
/* The version of the library, as CEFINDRATO_VERSION_NUMBER. */
uint32_t cefindrato_version(void);

/* The calls for callers: a pointer may be null where its length is 0. */

static inline const uint8_t *cefindrato_bytes(const void *given) {
    static const uint8_t nothing[1] = {0};
    return given ? (const uint8_t *)given : nothing;
}

static inline const int32_t *cefindrato_numbers(const int32_t *given) {
    static const int32_t none[1] = {0};
    return given ? given : none;
}

static inline const uint64_t *cefindrato_ids(const uint64_t *given) {
    static const uint64_t none[1] = {0};
    return given ? given : none;
}

/* Checks an LRAT proof, text or binary, against a DIMACS text. `text` gets a fault's text, as much of it as text_size bytes hold. */
static inline cefindrato_answer cefindrato_check(const void *cnf, size_t cnf_len, const void *proof, size_t proof_len,
                                                 char *text, size_t text_size) {
    uint8_t no_buffer[1];
    const cefindrato_answer not_run = {CEFINDRATO_NOT_RUN, {0, 0}};
    if ((!cnf && cnf_len) || (!proof && proof_len) || (!text && text_size))
        return not_run;
    return cefindrato_lrat_check(cefindrato_bytes(cnf), cnf_len, cefindrato_bytes(proof), proof_len,
                                 text ? (uint8_t *)text : no_buffer, text_size);
}

/* Checks a DRAT, DPR or FRAT proof, text or binary, or LPR text, against a DIMACS text.
 *
 * `lrat` gets the proof as LRAT text and `core` the used clauses, where the answer is verified; a null pointer: not wanted. With a
 * size of 0 only the length is returned. The core never has more than cnf_len + 64 bytes. The LRAT text has often two to ten times the
 * length of the proof; where it did not fit, a second call with a larger buffer checks again. */
static inline cefindrato_drat_answer cefindrato_check_drat(const void *cnf, size_t cnf_len, const void *proof, size_t proof_len,
                                                           int format, char *lrat, size_t lrat_size, char *core,
                                                           size_t core_size, char *text, size_t text_size) {
    uint8_t no_buffer[1];
    const cefindrato_drat_answer not_run = {CEFINDRATO_NOT_RUN, {0, 0}, {0, 0}, {0, 0}};
    cefindrato_drat_options options;
    if ((!cnf && cnf_len) || (!proof && proof_len) || (!lrat && lrat_size) || (!core && core_size) || (!text && text_size) ||
        format < CEFINDRATO_DETECTED || format > CEFINDRATO_LPR)
        return not_run;
    options.format = (uint8_t)format;
    options.lrat = lrat != NULL;
    options.core = core != NULL;
    return cefindrato_drat_check(cefindrato_bytes(cnf), cnf_len, cefindrato_bytes(proof), proof_len, options,
                                 lrat ? (uint8_t *)lrat : no_buffer, lrat_size, core ? (uint8_t *)core : no_buffer, core_size,
                                 text ? (uint8_t *)text : no_buffer, text_size);
}

/* Checks a solver's answer that a formula is satisfiable, its line `s SATISFIABLE` and its `v` lines, or literals alone, against a DIMACS
 * text. */
static inline cefindrato_model_answer cefindrato_check_model(const void *cnf, size_t cnf_len, const void *answer,
                                                             size_t answer_len, char *text, size_t text_size) {
    uint8_t no_buffer[1];
    const cefindrato_model_answer not_run = {CEFINDRATO_NOT_RUN, {0, 0}, 0, 0};
    if ((!cnf && cnf_len) || (!answer && answer_len) || (!text && text_size))
        return not_run;
    return cefindrato_model_check(cefindrato_bytes(cnf), cnf_len, cefindrato_bytes(answer), answer_len,
                                  text ? (uint8_t *)text : no_buffer, text_size);
}

/* Writes clauses, or steps of a DRAT proof, as the text that the checks take. Each is its literals and then a 0 in `numbers`; the one of
 * number N, from 0 on, is a deletion if deletions[N] is true and `deletions` is not null. Returns the bytes of the whole text, of which the
 * first `size` are written to `buffer`. What is no literal, or a last clause without its 0, is left to the checks, which reject it. */
static inline size_t cefindrato_text_of(const int32_t *numbers, size_t count, const bool *deletions, char *buffer, size_t size) {
    size_t len = 0, step = 0, at;
    bool begins = true;
    for (at = 0; at < count; at++) {
        char word[16];
        const bool ends = numbers[at] == 0, deletes = begins && deletions && deletions[step];
        const int word_len = snprintf(word, sizeof word, "%s%ld%c", deletes ? "d " : "", (long)numbers[at], ends ? '\n' : ' ');
        int put;
        for (put = 0; put < word_len; put++, len++)
            if (len < size)
                buffer[len] = word[put];
        begins = ends;
        step += ends;
    }
    return len;
}

#ifdef __cplusplus
}
#endif
#endif
