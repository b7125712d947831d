// A record of each session of a program that calls libpicosat.so.1, which stays as it is: see record.hpp.
//
//   c++ -std=c++17 -O2 -shared -fPIC -o picosat_preload.so picosat_preload.cpp -ldl
//   SESSION_RECORD=session LD_PRELOAD=./picosat_preload.so program ..
//
// A solver whose program pushes or pops a context gets no record: its files keep their `.part`.
#include "record.hpp"
#include <dlfcn.h>
#include <map>
#include <mutex>

struct PicoSAT;

namespace {

using sessions::Literals;

// The function of the library itself.
template <class Function> Function real(const char *name) {
    static void *library = dlopen("libpicosat.so.1", RTLD_NOW | RTLD_LOCAL);
    void *found = library ? dlsym(library, name) : nullptr;
    if (!found) {
        std::fprintf(stderr, "libpicosat.so.1 has no %s\n", name);
        std::abort();
    }
    return reinterpret_cast<Function>(found);
}

#define REAL(name, result, ...) real<result (*)(__VA_ARGS__)>(#name)

// Without a record what the solver writes is thrown away when it is given up.
struct Session {
    std::unique_ptr<sessions::Record> record;
    sessions::Steps steps;

    void drain() {
        steps.drain([this](const Literals &literals, bool is_deletion) {
            is_deletion ? record->deletion(literals) : record->lemma(literals);
        });
    }
};

// Never destroyed, since solvers may be given up while the process exits.
auto &recorded = *new std::map<PicoSAT *, std::unique_ptr<Session>>;
auto &guard = *new std::mutex;
[[maybe_unused]] const int is_held_over_forks =
    pthread_atfork([] { guard.lock(); }, [] { guard.unlock(); }, [] { guard.unlock(); });

// The session of a solver, where it has a record.
Session *of(PicoSAT *solver) {
    std::lock_guard<std::mutex> held(guard);
    auto found = recorded.find(solver);
    return found == recorded.end() || !found->second->record ? nullptr : found->second.get();
}

PicoSAT *begun(PicoSAT *solver) {
    auto record = sessions::Record::wanted();
    if (record) {
        auto session = std::make_unique<Session>();
        session->record = std::move(record);
        // The two counts are room for variables and clauses: beyond them the solver gives up.
        REAL(picosat_set_incremental_rup_file, void, PicoSAT *, std::FILE *, int, int)
        (solver, session->steps.file(), 1 << 27, 1 << 27);
        std::lock_guard<std::mutex> held(guard);
        recorded[solver] = std::move(session);
    }
    return solver;
}

int value(PicoSAT *solver, int literal) { return REAL(picosat_deref, int, PicoSAT *, int)(solver, literal); }
int failed(PicoSAT *solver, int literal) { return REAL(picosat_failed_assumption, int, PicoSAT *, int)(solver, literal); }

void answered(PicoSAT *solver, Session &session, int status) {
    session.drain();
    sessions::Record &record = *session.record;
    record.answered(status);
    if (status == 20) {
        std::set<int> core;
        for (int literal : record.assumed()) {
            if (failed(solver, literal)) {
                core.insert(literal);
            }
        }
        record.core(core);
    } else if (status == 10) {
        Literals model;
        for (int variable = 1; variable <= record.top(); variable++) {
            model.push_back(value(solver, variable) > 0 ? variable : -variable);
        }
        record.model(model);
    }
}

// What it is then told is of another session than the one that is recorded.
void spoil(PicoSAT *solver) {
    if (Session *session = of(solver)) {
        std::fputs("a session with contexts is not recorded\n", stderr);
        session->record->is_written();
        session->record = nullptr;
    }
}

} // namespace

extern "C" {

PicoSAT *picosat_init(void) { return begun(REAL(picosat_init, PicoSAT *)()); }

PicoSAT *picosat_minit(void *state, void *(*get)(void *, size_t), void *(*resize)(void *, void *, size_t, size_t),
                       void (*give_back)(void *, void *, size_t)) {
    return begun(REAL(picosat_minit, PicoSAT *, void *, decltype(get), decltype(resize), decltype(give_back))(state, get, resize,
                                                                                                            give_back));
}

void picosat_reset(PicoSAT *solver) {
    Session *session = of(solver);
    if (session && session->record->is_own()) {
        session->drain();
        session->record->end();
    }
    REAL(picosat_reset, void, PicoSAT *)(solver);
    std::unique_lock<std::mutex> held(guard);
    auto ended = recorded.extract(solver);
    held.unlock();
}

int picosat_add(PicoSAT *solver, int literal) {
    Session *session = of(solver);
    if (session && session->record->add(literal)) {
        session->drain();
        session->record->given();
    }
    return REAL(picosat_add, int, PicoSAT *, int)(solver, literal);
}

void picosat_assume(PicoSAT *solver, int literal) {
    if (Session *session = of(solver)) {
        session->record->assume(literal);
    }
    REAL(picosat_assume, void, PicoSAT *, int)(solver, literal);
}

int picosat_sat(PicoSAT *solver, int limit) {
    Session *session = of(solver);
    if (session) {
        session->drain();
        session->record->asked();
    }
    int status = REAL(picosat_sat, int, PicoSAT *, int)(solver, limit);
    if (session) {
        answered(solver, *session, status);
    }
    return status;
}

int picosat_deref(PicoSAT *solver, int literal) {
    int told = value(solver, literal);
    Session *session = of(solver);
    if (session && told) {
        session->record->told(told > 0 ? literal : -literal);
    }
    return told;
}

int picosat_failed_assumption(PicoSAT *solver, int literal) {
    if (Session *session = of(solver)) {
        session->record->told_core();
    }
    return failed(solver, literal);
}

const int *picosat_failed_assumptions(PicoSAT *solver) {
    if (Session *session = of(solver)) {
        session->record->told_core();
    }
    return REAL(picosat_failed_assumptions, const int *, PicoSAT *)(solver);
}

int picosat_push(PicoSAT *solver) {
    spoil(solver);
    return REAL(picosat_push, int, PicoSAT *)(solver);
}

int picosat_pop(PicoSAT *solver) {
    spoil(solver);
    return REAL(picosat_pop, int, PicoSAT *)(solver);
}
}
