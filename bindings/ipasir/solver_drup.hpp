// CaDiCaL as Debian has it (1.5.3): its lemmas come as DRUP in memory, without hints, which a finder looks for.
#pragma once
#include "finder.hpp"
#include "session.hpp"
#include <cadical.hpp>
#include <cstdio>
#include <limits>

namespace cefindrato_ipasir {

// Reads binary DRUP, as it is written.
class Proof {
  public:
    explicit Proof(Finder &finder) : finder_(finder) {
        cookie_io_functions_t calls = {nullptr, write, nullptr, nullptr};
        file_ = fopencookie(this, "w", calls);
        if (!file_) {
            std::perror("cefindrato: a proof in memory");
            std::_Exit(1);
        }
        std::setvbuf(file_, nullptr, _IOFBF, 1 << 16);
    }
    ~Proof() { std::fclose(file_); }
    Proof(const Proof &) = delete;
    Proof &operator=(const Proof &) = delete;

    std::FILE *file() { return file_; }

  private:
    static ssize_t write(void *proof, const char *bytes, size_t length) {
        static_cast<Proof *>(proof)->read(bytes, bytes + length);
        return static_cast<ssize_t>(length);
    }

    // Takes up the next bytes. A step may begin in one call and end in another, and so may a number.
    void read(const char *it, const char *end) {
        uint64_t number = number_;
        unsigned shift = shift_;
        for (; it != end; it++) {
            auto byte = static_cast<unsigned char>(*it);
            if (!kind_) {
                kind_ = byte;
                continue;
            }
            if (shift < 64) {
                number |= static_cast<uint64_t>(byte & 127) << shift;
                shift += 7;
            }
            if (!(byte & 128)) {
                add(static_cast<Code>(number));
                number = shift = 0;
            }
        }
        number_ = number;
        shift_ = shift;
    }

    // A literal, or the 0 that ends a step.
    void add(Code code) {
        if (code) {
            step_.push_back(code);
            return;
        }
        kind_ == 'd' ? finder_.deletion(step_) : finder_.lemma(step_);
        step_.clear();
        kind_ = 0;
    }

    Finder &finder_;
    std::FILE *file_;
    unsigned char kind_ = 0;
    uint64_t number_ = 0;
    unsigned shift_ = 0;
    Codes step_;
};

class Solver : CaDiCaL::WitnessIterator {
  public:
    CaDiCaL::Solver cadical;

    explicit Solver(Session &session)
        : session_(session), finder_([this](const Literals &lemma, const Ids &hints) { return derive(lemma, hints); }), proof_(finder_) {
        cadical.set("quiet", 1);
        cadical.trace_proof(proof_.file(), "memory");
    }
    ~Solver() { cadical.close_proof_trace(); }

    // Ends a clause of the application, whose literals the solver has.
    void give(const Literals &clause) {
        Id id = next_id();
        session_.give(id, clause);
        finder_.given(id, clause);
        cadical.add(0);
    }

    int solve() { return cadical.solve(); }

    // The literal of each variable, in their order.
    void read_model(int top, Literals &model) {
        model.clear();
        for (int variable = 1; variable <= top; variable++) {
            model.push_back(cadical.val(variable));
        }
    }

    // Whether a core was shown; if not, why.
    bool show_core(const Literals &assumed, const Literals &core, std::string &cause) {
        cadical.flush_proof_trace();
        Ids hints;
        refused_.clear();
        if (!finder_.core(core, hints)) {
            cause = finder_.fault() + (refused_.empty() ? "" : ": " + refused_);
            return false;
        }
        bool is_shown = session_.fails(assumed, core, hints);
        cause = session_.cause();
        return is_shown;
    }

    // After an answer: forgets what is needed no longer.
    void rest() {
        if (finder_.is_full()) {
            cadical.flush_proof_trace();
            cadical.traverse_witnesses_backward(*this);
            session_.remove(finder_.forget());
        }
    }

  private:
    // (of these calls each version of CaDiCaL has one)
    virtual bool witness(const Literals &clause, const Literals &) { return keep(clause); }
    virtual bool witness(const Literals &clause, const Literals &, uint64_t) { return keep(clause); }
    virtual bool witness(const Literals &clause, const Literals &, int64_t) { return keep(clause); }

    bool keep(const Literals &clause) {
        finder_.keep(clause);
        return true;
    }

    Id derive(const Literals &lemma, const Ids &hints) {
        Id id = next_id();
        if (session_.derive(id, lemma, hints)) {
            return id;
        }
        refused_ = session_.cause();
        return 0;
    }

    Id next_id() {
        if (last_ == std::numeric_limits<Id>::max()) {
            throw std::bad_alloc();
        }
        return ++last_;
    }

    Session &session_;
    Finder finder_;
    Proof proof_;
    Id last_ = 0;
    std::string refused_;
};

} // namespace cefindrato_ipasir
