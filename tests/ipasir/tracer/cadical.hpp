// A solver for a few variables in the place of CaDiCaL 2, by the calls that the layer makes: it branches, and resolves on the way back.
// LIE names a fault: each third lemma has lost a literal or an antecedent, a core misses a literal, or a model has a bit that was flipped.
#pragma once
#include "tracer.hpp"
#include <algorithm>
#include <cstdlib>
#include <map>
#include <string>

namespace CaDiCaL {

struct Terminator {
    virtual ~Terminator() {}
    virtual bool terminate() = 0;
};

struct Learner {
    virtual ~Learner() {}
    virtual bool learning(int) = 0;
    virtual void learn(int) = 0;
};

class Solver {
  public:
    static const char *signature() { return "stand-in"; }
    bool set(const char *, int) { return true; }
    void connect_proof_tracer(Tracer *tracer, bool) { tracer_ = tracer; }
    bool disconnect_proof_tracer(Tracer *) { return true; }
    void connect_terminator(Terminator *) {}
    void disconnect_terminator() {}
    void connect_learner(Learner *) {}
    void disconnect_learner() {}

    void add(int literal) {
        if (literal) {
            see(literal);
            clause_.push_back(literal);
            return;
        }
        clauses_[++last_] = clause_;
        tracer_->add_original_clause(last_, false, clause_);
        clause_.clear();
        // (each third one goes, and comes again before the next query)
        if (last_ % 3 == 0) {
            tracer_->weaken_minus(last_, clauses_[last_]);
            tracer_->delete_clause(last_, false, clauses_[last_]);
            weakened_.push_back(last_);
        }
    }

    void assume(int literal) {
        see(literal);
        assumed_.push_back(literal);
    }

    int solve() {
        for (Tracer::Id id : weakened_) {
            tracer_->add_original_clause(id, false, clauses_[id], true);
        }
        weakened_.clear();
        path_.clear();
        core_.clear();
        last_assumed_.swap(assumed_);
        assumed_.clear();
        refuted_ = search();
        if (!refuted_) {
            tell_model();
        }
        return refuted_ ? 20 : 10;
    }

    int val(int literal) const {
        bool is_true = std::count(path_.begin(), path_.end(), literal);
        return is_true != (lies("model") && literal == 1) ? literal : -literal;
    }

    bool failed(int literal) const {
        return std::count(core_.begin(), core_.end(), literal) && !(lies("core") && literal == core_[0]);
    }

    void conclude() {
        if (core_.empty()) {
            tracer_->conclude_unsat(CONFLICT, {refuted_});
            return;
        }
        std::vector<int> clause;
        for (int literal : core_) {
            clause.push_back(-literal);
        }
        tracer_->add_assumption_clause(++last_, clause, opposite_ ? std::vector<Tracer::Id>{} : std::vector<Tracer::Id>{refuted_});
        tracer_->conclude_unsat(ASSUMPTIONS, {last_});
    }

  private:
    void tell_model() {
        std::vector<int> model;
        for (int variable = 1; variable <= top_; variable++) {
            model.push_back(val(variable));
        }
#ifdef LATER
        // (a variable is left out, and one of the solver's own is not)
        if (!model.empty()) {
            model.erase(model.begin() + static_cast<int>(last_ % model.size()));
            model.push_back(top_ + 1);
        }
#endif
        tracer_->conclude_sat(model);
    }

    void see(int literal) { top_ = std::max(top_, std::abs(literal)); }

    // A clause that no assignment satisfies with the assumptions, whose literals among them are the core; or 0, and `path_` is a model.
    Tracer::Id search() {
        opposite_ = false;
        for (int literal : last_assumed_) {
            if (std::count(path_.begin(), path_.end(), -literal)) {
                opposite_ = true;
                core_ = {literal, -literal};
                return NONE;
            }
            path_.push_back(literal);
        }
        Tracer::Id found = branch(1);
        if (found) {
            for (int literal : clauses_[found]) {
                core_.push_back(-literal);
            }
        }
        return found;
    }

    Tracer::Id branch(int variable) {
        for (const auto &[id, clause] : clauses_) {
            if (std::all_of(clause.begin(), clause.end(), [this](int it) { return std::count(path_.begin(), path_.end(), -it); })) {
                return id;
            }
        }
        while (variable <= top_ && (std::count(path_.begin(), path_.end(), variable) || std::count(path_.begin(), path_.end(), -variable))) {
            variable++;
        }
        if (variable > top_) {
            return 0;
        }
        Tracer::Id found[2];
        for (int side : {0, 1}) {
            int literal = side ? -variable : variable;
            path_.push_back(literal);
            found[side] = branch(variable + 1);
            if (!found[side]) {
                return 0;
            }
            path_.pop_back();
            if (!std::count(clauses_[found[side]].begin(), clauses_[found[side]].end(), -literal)) {
                return found[side];
            }
        }
        std::vector<int> resolvent;
        for (Tracer::Id id : found) {
            for (int literal : clauses_[id]) {
                if (std::abs(literal) != variable && !std::count(resolvent.begin(), resolvent.end(), literal)) {
                    resolvent.push_back(literal);
                }
            }
        }
        clauses_[++last_] = resolvent;
        derive(resolvent, {found[0], found[1]});
        return last_;
    }

    void derive(std::vector<int> lemma, std::vector<Tracer::Id> chain) {
        if (lies("lemma") && last_ % 3 == 0 && !lemma.empty()) {
            lemma.pop_back();
        }
        if (lies("chain") && last_ % 3 == 0) {
            chain.pop_back();
        }
#ifdef LATER
        tracer_->add_derived_clause(last_, true, 0, lemma, chain);
#else
        tracer_->add_derived_clause(last_, true, lemma, chain);
#endif
    }

    static bool lies(const char *of) { return std::getenv("LIE") && std::string(std::getenv("LIE")) == of; }

    static constexpr Tracer::Id NONE = 1 << 30;
    Tracer *tracer_ = nullptr;
    std::map<Tracer::Id, std::vector<int>> clauses_;
    std::vector<Tracer::Id> weakened_;
    std::vector<int> clause_, assumed_, last_assumed_, path_, core_;
    int top_ = 0;
    Tracer::Id last_ = 0, refuted_ = 0;
    bool opposite_ = false;
};

} // namespace CaDiCaL
