// CaDiCaL 2 and later: its tracer tells ids and hints, and nothing has to be looked for.
//
// Its versions have different types of ids, and some add a witness: of the calls below those that a version has override its own.
#pragma once
#include "session.hpp"
#include <cadical.hpp>
#if __has_include(<tracer.hpp>)
#include <tracer.hpp>
#else
#include <cadical/tracer.hpp>
#endif

namespace cefindrato_ipasir {

class Solver : CaDiCaL::Tracer {
  public:
    CaDiCaL::Solver cadical;

    explicit Solver(Session &session) : session_(session) {
        cadical.set("quiet", 1);
        // (a definition of a new variable does not follow; versions without the option ignore it)
        cadical.set("factor", 0);
        // (with it the solver looks through the reason of each assignment, for the hints alone)
        cadical.set("chrono", 0);
        cadical.connect_proof_tracer(static_cast<CaDiCaL::Tracer *>(this), true);
    }
    ~Solver() { cadical.disconnect_proof_tracer(static_cast<CaDiCaL::Tracer *>(this)); }
    Solver(const Solver &) = delete;
    Solver &operator=(const Solver &) = delete;

    // Ends a clause of the application, whose literals the solver has. It tells the id alone.
    void give(const Literals &clause) {
        given_ = &clause;
        cadical.add(0);
        if (given_) {
            session_.give(++own_, clause);
            given_ = nullptr;
        }
    }

    int solve() {
        conclusion_.clear();
        model_.clear();
        return cadical.solve();
    }

    // The literal of each variable, in their order: as it told of all at once while it solved, if it left none out, or as it tells of each.
    void read_model(int top, Literals &model) {
        model.swap(model_);
        int count = static_cast<int>(model.size());
        if (count < top || (count && std::abs(model.back()) != count)) {
            model.clear();
            for (int variable = 1; variable <= top; variable++) {
                model.push_back(cadical.val(variable));
            }
        }
    }

    // Whether a core was shown; if not, why.
    bool show_core(const Literals &assumed, const Literals &core, std::string &cause) {
        cadical.conclude();
        bool is_shown = session_.fails(assumed, core, conclusion_);
        cause = session_.cause() + (fault_.empty() ? "" : ", after " + fault_);
        return is_shown;
    }

    void rest() {}

    virtual void add_original_clause(uint64_t id, bool, const Literals &, bool is_restored = false) { give(id, is_restored); }
    virtual void add_original_clause(int64_t id, bool, const Literals &, bool is_restored = false) { give(id, is_restored); }

    virtual void add_derived_clause(uint64_t id, bool, const Literals &clause, const std::vector<uint64_t> &chain) {
        derive(id, clause, chain);
    }
    virtual void add_derived_clause(int64_t id, bool, const Literals &clause, const std::vector<int64_t> &chain) {
        derive(id, clause, chain);
    }
    virtual void add_derived_clause(int64_t id, bool, int, const Literals &clause, const std::vector<int64_t> &chain) {
        derive(id, clause, chain);
    }

    virtual void add_assumption_clause(uint64_t id, const Literals &clause, const std::vector<uint64_t> &chain) {
        derive(id, clause, chain);
    }
    virtual void add_assumption_clause(int64_t id, const Literals &clause, const std::vector<int64_t> &chain) {
        derive(id, clause, chain);
    }

    virtual void delete_clause(uint64_t id, bool, const Literals &) { remove(id); }
    virtual void delete_clause(int64_t id, bool, const Literals &) { remove(id); }

    // It may come again, by the same id.
    virtual void weaken_minus(uint64_t id, const Literals &) { weaken(id); }
    virtual void weaken_minus(int64_t id, const Literals &) { weaken(static_cast<uint64_t>(id)); }

    virtual void conclude_sat(const Literals &model) { model_ = model; }

    virtual void conclude_unsat(CaDiCaL::ConclusionType, const std::vector<uint64_t> &ids) { conclude(ids); }
    virtual void conclude_unsat(CaDiCaL::ConclusionType, const std::vector<int64_t> &ids) { conclude(ids); }

  private:
    template <class Id> void give(Id id, bool is_restored) {
        if (is_restored) {
            if (is_weakened(static_cast<uint64_t>(id))) {
                weakened_[static_cast<uint64_t>(id)] = false;
            }
        } else if (given_) {
            session_.give(static_cast<uint64_t>(id), *given_);
            given_ = nullptr;
        }
    }

    template <class Id> void derive(Id id, const Literals &clause, const std::vector<Id> &chain) {
        hints_.assign(chain.begin(), chain.end());
        if (!session_.derive(static_cast<uint64_t>(id), clause, hints_) && fault_.empty()) {
            fault_ = session_.cause() + " (lemma " + std::to_string(id) + ")";
        }
    }

    void weaken(uint64_t id) {
        if (weakened_.size() <= id) {
            lengthen(weakened_, id + 1);
        }
        weakened_[id] = true;
    }

    bool is_weakened(uint64_t id) const { return id < weakened_.size() && weakened_[id]; }

    template <class Id> void remove(Id id) {
        if (!is_weakened(static_cast<uint64_t>(id))) {
            session_.remove(static_cast<uint64_t>(id));
        }
    }

    template <class Id> void conclude(const std::vector<Id> &ids) { conclusion_.assign(ids.begin(), ids.end()); }

    Session &session_;
    const Literals *given_ = nullptr;
    Literals model_;
    std::vector<bool> weakened_; // by id, since these rise by one
    Ids hints_, conclusion_;
    // ids of clauses that the solver tells none of
    uint64_t own_ = uint64_t{1} << 62;
    std::string fault_;
};

} // namespace cefindrato_ipasir
