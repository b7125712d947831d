// CaDiCaL with a fault, which LIE names: a core that misses a literal, a model with a bit that was flipped, a lemma that has lost a literal,
// a chain that has lost an antecedent, or the other answer.
#pragma once
#include_next <cadical.hpp>
#if __has_include(<cadical/tracer.hpp>)
#include <cadical/tracer.hpp>
#endif
#include <cstdio>
#include <cstdlib>
#include <set>
#include <string>

namespace CaDiCaL {

inline bool lies(const char *of) { return std::getenv("LIE") && std::string(std::getenv("LIE")) == of; }

#if __has_include(<cadical/tracer.hpp>)
// What CaDiCaL 2 tells, but each third lemma or chain of two or more has lost its last one, or the first variable is turned.
class LyingTracer : public Tracer {
  public:
    using Ids = std::vector<uint64_t>;
    using Literals = std::vector<int>;
    Tracer *told = nullptr;

    void add_original_clause(uint64_t id, bool is_redundant, const Literals &clause, bool is_restored) override {
        told->add_original_clause(id, is_redundant, clause, is_restored);
    }
    void add_derived_clause(uint64_t id, bool is_redundant, const Literals &clause, const Ids &chain) override {
        told->add_derived_clause(id, is_redundant, damaged("lemma", clause), damaged("chain", chain));
    }
    void delete_clause(uint64_t id, bool is_redundant, const Literals &clause) override { told->delete_clause(id, is_redundant, clause); }
    void weaken_minus(uint64_t id, const Literals &clause) override { told->weaken_minus(id, clause); }
    void add_assumption_clause(uint64_t id, const Literals &clause, const Ids &chain) override {
        told->add_assumption_clause(id, clause, chain);
    }
    void conclude_unsat(ConclusionType type, const Ids &ids) override { told->conclude_unsat(type, ids); }
    void conclude_sat(const Literals &model) override {
        Literals other = model;
        for (int &literal : other) {
            literal = lies("model") && std::abs(literal) == 1 ? -literal : literal;
        }
        told->conclude_sat(other);
    }

  private:
    template <class List> List damaged(const char *what, List list) {
        if (lies(what) && list.size() > 1 && ++count_ % 3 == 0) {
            list.pop_back();
        }
        return list;
    }

    long count_ = 0;
};
#endif

class LyingSolver : public Solver {
  public:
    void assume(int literal) {
        assumed_.insert(literal);
        Solver::assume(literal);
    }

    int solve() {
        missed_ = 0;
        told_.swap(assumed_);
        assumed_.clear();
        int status = Solver::solve();
        if (lies("status") && ++count_ % 5 == 0 && status) {
            is_turned_ = true;
            return 30 - status;
        }
        is_turned_ = false;
        return status;
    }

    int val(int literal) {
        if (is_turned_) {
            return literal;
        }
        int value = Solver::val(literal);
        return lies("model") && literal == 1 ? -value : value;
    }

    bool failed(int literal) {
        if (is_turned_) {
            return told_.count(literal);
        }
        bool is_failed = Solver::failed(literal);
        if (lies("core") && is_failed && (!missed_ || missed_ == literal)) {
            missed_ = literal;
            return false;
        }
        return is_failed;
    }

    bool trace_proof(FILE *file, const char *name) {
        if (!lies("lemma")) {
            return Solver::trace_proof(file, name);
        }
        real_ = file;
        cookie_io_functions_t calls = {nullptr, write, nullptr, nullptr};
        own_ = fopencookie(this, "w", calls);
        return Solver::trace_proof(own_, name);
    }

    void close_proof_trace() {
        Solver::close_proof_trace();
        if (own_) {
            std::fclose(own_);
        }
    }

    void flush_proof_trace() {
        Solver::flush_proof_trace();
        if (real_) {
            std::fflush(real_);
        }
    }

#if __has_include(<cadical/tracer.hpp>)
    void connect_proof_tracer(Tracer *tracer, bool has_chains) {
        tracer_.told = tracer;
        Solver::connect_proof_tracer(static_cast<Tracer *>(&tracer_), has_chains);
    }

    bool disconnect_proof_tracer(Tracer *) { return Solver::disconnect_proof_tracer(static_cast<Tracer *>(&tracer_)); }
#endif

  private:
    // Each third lemma of two literals or more loses its last one. (No number has a byte 0, which ends a step.)
    static ssize_t write(void *solver, const char *bytes, size_t length) {
        auto &own = *static_cast<LyingSolver *>(solver);
        for (size_t at = 0; at < length; at++) {
            own.step_ += bytes[at];
            if (!bytes[at]) {
                own.give();
            }
        }
        return static_cast<ssize_t>(length);
    }

    void give() {
        size_t last = step_.size() - 2;
        while (last > 1 && static_cast<unsigned char>(step_[last - 1]) & 128) {
            last--;
        }
        if (step_[0] == 'a' && last > 1 && ++count_ % 3 == 0) {
            step_.erase(last, step_.size() - 1 - last);
        }
        std::fwrite(step_.data(), 1, step_.size(), real_);
        step_.clear();
    }

    std::set<int> assumed_, told_;
    std::string step_;
    FILE *real_ = nullptr, *own_ = nullptr;
    long count_ = 0;
    int missed_ = 0;
    bool is_turned_ = false;
#if __has_include(<cadical/tracer.hpp>)
    LyingTracer tracer_;
#endif
};

} // namespace CaDiCaL

// (whoever names a solver from here on gets this one)
#define Solver LyingSolver
