/* Sessions: each sequence of up to so many calls, of which each must answer what the rules say, and rows of single answers; exits 0 if all
 * do.
 *
 *   session [LENGTH]
 */
#include "cefindrato_session.h"
#include "sequences.h"
#include <stdlib.h>
#include <string.h>

#define LEN(list) (sizeof(list) / sizeof(list)[0])

static void expect(const char *what, cefindrato_session_answer answer, int status, int cause, uint64_t clause) {
    if (answer.status != status || answer.cause != cause || answer.clause != clause) {
        printf("%s: status %d, cause %d, clause %lu in place of %d, %d, %lu\n", what, answer.status, answer.cause,
               (unsigned long)answer.clause, status, cause, (unsigned long)clause);
        wrong = 1;
    }
}

/* ---- all sequences of these calls. Id 1 names the clause `1 2`, id 2 the clause `-1`, and id 3 the lemma `2`. */

enum { BEGIN, END, GIVE_FIRST, GIVE_SECOND, DERIVE, DELETE, FAILS, SATISFIES, CALLS };

/* What a session has by the rules: whether it is there, which ids name a clause, how many clauses were given, and which of them, from 1,
 * is the first one that is `-1`, or 0. */
struct model {
    bool begun, named[4];
    uint64_t given, second;
};

/* The answer to a clause under an id that the rules give, and what it changes. */
static cefindrato_session_answer model_gives(struct model *model, int id) {
    const cefindrato_session_answer taken = {CEFINDRATO_NOT_VERIFIED, CEFINDRATO_ID_TAKEN, 0}, accepted = {0, 0, 0};
    if (model->named[id])
        return taken;
    model->named[id] = true;
    model->given++;
    if (id == 2 && !model->second)
        model->second = model->given;
    return accepted;
}

static cefindrato_session_answer model_answers(struct model *model, int call) {
    const cefindrato_session_answer accepted = {CEFINDRATO_VERIFIED, 0, 0};
    const cefindrato_session_answer none = {CEFINDRATO_NOT_RUN, CEFINDRATO_NO_SESSION, 0};
    const cefindrato_session_answer begun = {CEFINDRATO_NOT_RUN, CEFINDRATO_BEGUN, 0};
    const cefindrato_session_answer taken = {CEFINDRATO_NOT_VERIFIED, CEFINDRATO_ID_TAKEN, 0};
    const cefindrato_session_answer unknown = {CEFINDRATO_NOT_VERIFIED, CEFINDRATO_UNKNOWN_ID, 0};
    cefindrato_session_answer missed = {CEFINDRATO_NOT_VERIFIED, CEFINDRATO_MISSES_CLAUSE, 0};
    if (call == BEGIN && model->begun)
        return begun;
    if (call == BEGIN || call == END) {
        memset(model, 0, sizeof *model);
        model->begun = call == BEGIN;
        return accepted;
    }
    if (!model->begun)
        return none;
    switch (call) {
    case GIVE_FIRST:
        return model_gives(model, 1);
    case GIVE_SECOND:
        return model_gives(model, 2);
    case DERIVE:
        /* with 2 false, `-1` is unit, and then `1 2` is false */
        if (model->named[3])
            return taken;
        if (!model->named[2] || !model->named[1])
            return unknown;
        model->named[3] = true;
        return accepted;
    case DELETE:
        model->named[1] = model->named[3] = false;
        return accepted;
    case FAILS:
        return model->named[3] ? accepted : unknown;
    default:
        /* 2 is a literal of `1 2`, and of `-1` it is none */
        missed.clause = model->second;
        return model->second ? missed : accepted;
    }
}

static cefindrato_session_answer library_answers(cefindrato_session *session, int call) {
    static const int32_t first[] = {1, 2}, second[] = {-1}, lemma[] = {2}, assumed[] = {-2, 3}, core[] = {-2};
    static const uint64_t hints[] = {2, 1}, deleted[] = {3, 9, 1}, core_hints[] = {3};
    const cefindrato_session_answer ended = {CEFINDRATO_VERIFIED, 0, 0};
    switch (call) {
    case BEGIN:
        return cefindrato_session_begin(session);
    case END:
        cefindrato_session_end(session);
        return ended;
    case GIVE_FIRST:
        return cefindrato_give(session, 1, first, LEN(first));
    case GIVE_SECOND:
        return cefindrato_give(session, 2, second, LEN(second));
    case DERIVE:
        return cefindrato_derive(session, 3, lemma, LEN(lemma), hints, LEN(hints));
    case DELETE:
        return cefindrato_delete(session, deleted, LEN(deleted));
    case FAILS:
        return cefindrato_fails(session, assumed, LEN(assumed), core, LEN(core), core_hints, LEN(core_hints));
    default:
        return cefindrato_satisfies(session, lemma, LEN(lemma), lemma, LEN(lemma));
    }
}

static void play(long sequence, int length) {
    static const char *const names[] = {"begin", "end", "give first", "give second", "derive", "delete", "fails", "satisfies"};
    cefindrato_session session = {NULL, false};
    struct model model;
    int at;
    memset(&model, 0, sizeof model);
    for (at = 0; at < length; at++, sequence /= CALLS) {
        const int call = (int)(sequence % CALLS);
        const cefindrato_session_answer told = library_answers(&session, call), wanted = model_answers(&model, call);
        expect(names[call], told, wanted.status, wanted.cause, wanted.clause);
        if (session.held != model.begun)
            wrong = 1;
    }
    cefindrato_session_end(&session);
    if (session.held)
        wrong = 1;
}

/* ---- single answers, over the clauses `-1 -2` (id 1) and `1` (id 2) */

static void expect_answers(cefindrato_session *session) {
    static const int32_t both[] = {-1, -2}, one[] = {1}, two[] = {2}, no_two[] = {-2}, three[] = {3}, no_three[] = {-3};
    static const int32_t pair[] = {3, -3}, model[] = {1, -2}, signs[] = {1, -2, -1}, zero[] = {1, 0}, large[] = {268435457};
    static const int32_t small[] = {INT32_MIN}, largest[] = {268435456, -268435456};
    static const uint64_t hints[] = {2, 1}, first[] = {1}, other[] = {9, 2}, late[] = {2, 1, 9};
    expect("give", cefindrato_give(session, 1, both, 2), 0, 0, 0);
    expect("give a unit", cefindrato_give(session, 2, one, 1), 0, 0, 0);
    expect("taken", cefindrato_give(session, 2, one, 1), 3, CEFINDRATO_ID_TAKEN, 0);
    expect("zero is no literal", cefindrato_give(session, 3, zero, 2), 2, CEFINDRATO_NO_LITERAL, 0);
    expect("too large", cefindrato_give(session, 3, large, 1), 2, CEFINDRATO_NO_LITERAL, 0);
    expect("too small", cefindrato_give(session, 3, small, 1), 2, CEFINDRATO_NO_LITERAL, 0);
    expect("largest", cefindrato_give(session, 3, largest, 2), 0, 0, 0);
    expect("unknown hint", cefindrato_derive(session, 4, no_two, 1, other, 2), 3, CEFINDRATO_UNKNOWN_ID, 0);
    expect("not unit", cefindrato_derive(session, 4, three, 1, first, 1), 3, CEFINDRATO_NOT_UNIT, 0);
    /* it is redundant, and a clause with 3 alone may be given next */
    expect("redundant", cefindrato_derive(session, 4, no_three, 1, NULL, 0), 3, CEFINDRATO_NO_CONFLICT, 0);
    expect("hint after a conflict", cefindrato_derive(session, 4, no_two, 1, late, 3), 0, 0, 0);
    expect("core", cefindrato_fails(session, two, 1, two, 1, hints, 2), 0, 0, 0);
    expect("core too small", cefindrato_fails(session, two, 1, NULL, 0, hints, 2), 3, CEFINDRATO_NO_CONFLICT, 0);
    expect("not assumed", cefindrato_fails(session, one, 1, two, 1, hints, 2), 3, CEFINDRATO_NOT_ASSUMED, 0);
    expect("opposite", cefindrato_fails(session, pair, 2, pair, 2, NULL, 0), 0, 0, 0);
    expect("no literal is assumed", cefindrato_fails(session, zero, 2, two, 1, hints, 2), 2, CEFINDRATO_NO_LITERAL, 0);
    expect("no literal in the core", cefindrato_fails(session, two, 1, zero, 2, hints, 2), 2, CEFINDRATO_NO_LITERAL, 0);
    expect("model misses the third", cefindrato_satisfies(session, no_two, 1, model, 2), 3, CEFINDRATO_MISSES_CLAUSE, 3);
    expect("model misses the first", cefindrato_satisfies(session, NULL, 0, NULL, 0), 3, CEFINDRATO_MISSES_CLAUSE, 1);
    expect("both signs", cefindrato_satisfies(session, NULL, 0, signs, 3), 3, CEFINDRATO_BOTH_SIGNS, 0);
    expect("assumption is missed", cefindrato_satisfies(session, two, 1, model, 2), 3, CEFINDRATO_MISSES_ASSUMPTION, 0);
    expect("no literal in the model", cefindrato_satisfies(session, NULL, 0, zero, 2), 2, CEFINDRATO_NO_LITERAL, 0);
    expect("null", cefindrato_give(session, 5, NULL, 1), 2, 0, 0);
    expect("null hints", cefindrato_fails(session, NULL, 0, NULL, 0, NULL, 1), 2, 0, 0);
    expect("null ids", cefindrato_delete(session, NULL, 1), 2, 0, 0);
    expect("null model", cefindrato_satisfies(session, NULL, 0, NULL, 1), 2, 0, 0);
    expect("no id", cefindrato_delete(session, NULL, 0), 0, 0, 0);
    expect("empty clause", cefindrato_give(session, 0, NULL, 0), 0, 0, 0);
    expect("no model", cefindrato_satisfies(session, NULL, 0, largest, 1), 3, CEFINDRATO_MISSES_CLAUSE, 1);
}

/* Each call of a null session answers as one that was not begun, whatever its lists are. */
static void expect_no_session(void) {
    static const int32_t one[] = {1};
    static const uint64_t id[] = {1};
    expect("begin of null", cefindrato_begin_session(NULL), 2, CEFINDRATO_NO_SESSION, 0);
    expect("give to null", cefindrato_give(NULL, 1, one, 1), 2, CEFINDRATO_NO_SESSION, 0);
    expect("give to null, null clause", cefindrato_give(NULL, 1, NULL, 1), 2, CEFINDRATO_NO_SESSION, 0);
    expect("derive of null", cefindrato_derive(NULL, 1, one, 1, id, 1), 2, CEFINDRATO_NO_SESSION, 0);
    expect("delete of null", cefindrato_delete(NULL, id, 1), 2, CEFINDRATO_NO_SESSION, 0);
    expect("fails of null", cefindrato_fails(NULL, one, 1, one, 1, id, 1), 2, CEFINDRATO_NO_SESSION, 0);
    expect("satisfies of null", cefindrato_satisfies(NULL, one, 1, one, 1), 2, CEFINDRATO_NO_SESSION, 0);
    cefindrato_end_session(NULL);
}

/* The calls of the header begin and end as those of the library. */
static void expect_begin_and_end(void) {
    cefindrato_session session = {NULL, false};
    expect("begin", cefindrato_begin_session(&session), 0, 0, 0);
    expect("begin twice", cefindrato_begin_session(&session), 2, CEFINDRATO_BEGUN, 0);
    cefindrato_end_session(&session);
    expect("ended", cefindrato_give(&session, 1, NULL, 0), 2, CEFINDRATO_NO_SESSION, 0);
    cefindrato_end_session(&session);
}

int main(int argc, char **argv) {
    cefindrato_session sessions[2];
    memset(sessions, 0, sizeof sessions);
    play_all(play, CALLS, argc > 1 ? atoi(argv[1]) : 6);
    expect("begin", cefindrato_session_begin(&sessions[0]), 0, 0, 0);
    expect("begin another", cefindrato_session_begin(&sessions[1]), 0, 0, 0);
    expect_no_session();
    expect_begin_and_end();
    expect_answers(&sessions[0]);
    expect_answers(&sessions[1]);
    cefindrato_session_end(&sessions[1]);
    cefindrato_session_end(&sessions[0]);
    return wrong;
}
