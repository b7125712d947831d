// Hints for the lemmas that the answers of a solver rest on, where the solver gives none.
//
// The solver tells of its lemmas and of what it deletes. Nothing is done for a lemma until a core needs it: then it is refuted by
// propagation over what stands before it, what was deleted since with it, and so on backward; and the checker derives those that were
// needed, and no others, in their order. A literal that is true by propagation alone is derived as a lemma of its own. Nothing here
// has to be right for an answer to be: hints that are wrong are refused.
//
// A deletion is advice. Where a refutation fails, it is tried again with all that is kept of what was deleted, since a solver may
// restore a clause without telling. Once much is dead, all that lives is derived, and the dead are forgotten.
#pragma once
#include "refutation.hpp"
#include <functional>
#include <queue>
#include <string>

// How many literals of deleted clauses are kept at least.
#ifndef DEAD_LITERALS
#define DEAD_LITERALS (std::size_t{1} << 22)
#endif

namespace cefindrato_ipasir {

class Finder {
  public:
    // Derives a lemma in the checker, and says by which id; 0 if it is refused.
    using Derive = std::function<Id(const Literals &, const Ids &)>;

    explicit Finder(Derive derive) : derive_(std::move(derive)) {}
    Finder(const Finder &) = delete;
    Finder &operator=(const Finder &) = delete;

    void given(Id id, const Literals &clause) { add(codes(clause), id, true); }
    void lemma(const Codes &clause) { add(clause, 0, false); }

    void deletion(const Codes &clause) {
        if (clause.size() > 1) {
            Place found = clauses_.find(clause, [](const Clause &it) { return it.died == NEVER; });
            if (found != NEVER) {
                refutation_.die(found);
            }
        }
    }

    // Finds hints for a core, and derives what they name. If it can't, `fault()` says why.
    bool core(const Literals &core, Ids &hints) {
        hints.clear();
        refutation_.see(codes(core));
        refutation_.settle();
        if (contradiction_) {
            hints.push_back(contradiction_);
            return true;
        }
        Refs top;
        if (refutation_.is_contradictory()) {
            refutation_.explain(refutation_.conflict(), top);
        } else if (!refutation_.refute(codes_, NEVER, top)) {
            fault_ = "propagation finds no conflict for the core";
            refutation_.finish();
            return false;
        }
        if (!derive_all(top)) {
            return false;
        }
        for (Ref ref : top) {
            hints.push_back(id(ref));
        }
        if (refutation_.is_contradictory()) {
            contradiction_ = derive_({}, hints);
            hints = {contradiction_};
        }
        return true;
    }

    const std::string &fault() const { return fault_; }

    // Whether so much is dead that it should be forgotten.
    bool is_full() const { return !contradiction_ && clauses_.dead_literals() > std::max(limit_, 2 * clauses_.live_literals()); }

    // A dead lemma with these literals may live again: it is kept when the dead are forgotten next.
    void keep(const Literals &clause) {
        if (!distinct_.is_tautology(codes(clause))) {
            Place found = clauses_.find(distinct_.codes(), [](const Clause &it) { return it.died != NEVER && !it.is_kept; });
            if (found != NEVER) {
                clauses_[found].is_kept = true;
            }
        }
    }

    // Derives all that lives or is kept, and forgets the rest. Returns the ids that are needed no longer.
    Ids forget() {
        refutation_.settle();
        Refs left;
        for (Place place = 0; place < clauses_.end(); place = clauses_.after(place)) {
            if (is_left(clauses_[place]) && !clauses_[place].id) {
                left.push_back({place, 0});
            }
        }
        Ids gone;
        if (refutation_.is_contradictory() || !derive_all(left)) {
            limit_ *= 2;
            return gone;
        }
        std::vector<bool> is_kept;
        for (Place place = 0; place < clauses_.end(); place = clauses_.after(place)) {
            const Clause &clause = clauses_[place];
            if (!is_left(clause)) {
                if (clause.id) {
                    gone.push_back(clause.id);
                }
                continue;
            }
            if (is_kept.size() <= clause.id) {
                is_kept.resize(2 * std::size_t{clause.id} + 1);
            }
            is_kept[clause.id] = true;
        }
        clauses_.keep(is_left);
        refutation_.begin_again();
        // (these were long, as seldom else)
        Refs().swap(hints_);
        std::vector<Step>().swap(steps_);
        gone.erase(std::remove_if(gone.begin(), gone.end(), [&](uint64_t id) { return id < is_kept.size() && is_kept[id]; }), gone.end());
        return gone;
    }

  private:
    // A lemma, and where its hints stand in `hints_`.
    struct Step {
        Ref ref;
        std::size_t begin, end;
    };

    // These literals, in `codes_`.
    const Codes &codes(const Literals &literals) {
        codes_.clear();
        for (int literal : literals) {
            codes_.push_back(code(literal));
        }
        return codes_;
    }

    void add(const Codes &clause, Id id, bool is_given) {
        if (!contradiction_ && !distinct_.is_tautology(clause)) {
            refutation_.see(distinct_.codes());
            clauses_.add(distinct_.codes(), id, is_given);
        }
    }

    static bool is_left(const Clause &clause) { return clause.died == NEVER || clause.is_kept; }

    // Derives what is named, and all that it needs.
    bool derive_all(const Refs &top) {
        steps_.clear();
        hints_.clear();
        for (Ref ref : top) {
            require(ref);
        }
        bool is_found = true;
        while (is_found && !needed_.empty()) {
            Step step{needed_.top().ref, hints_.size(), 0};
            needed_.pop();
            is_found = find(step.ref);
            step.end = hints_.size();
            steps_.push_back(step);
            for (std::size_t at = step.begin; at < step.end; at++) {
                require(hints_[at]);
            }
        }
        for (; !needed_.empty(); needed_.pop()) {
            set_needed(needed_.top().ref, false);
        }
        for (const Step &step : steps_) {
            set_needed(step.ref, false);
        }
        refutation_.finish();
        for (; is_found && !steps_.empty(); steps_.pop_back()) {
            is_found = derive(steps_.back());
        }
        refutation_.restore(is_found);
        return is_found;
    }

    void require(Ref ref) {
        if (!id(ref) && !is_needed(ref)) {
            set_needed(ref, true);
            needed_.push({ref, refutation_.at(ref)});
        }
    }

    bool is_needed(Ref ref) { return ref.unit ? units_[variable(ref)].is_needed : clauses_[ref.place].is_needed; }

    void set_needed(Ref ref, bool is_needed) {
        if (ref.unit) {
            units_[variable(ref)].is_needed = is_needed;
        } else {
            clauses_[ref.place].is_needed = is_needed;
        }
    }

    // Adds the hints of a lemma.
    bool find(Ref ref) {
        if (ref.unit) {
            refutation_.reasons(ref, hints_);
            return true;
        }
        codes_.clear();
        for (Code code : clauses_[ref.place]) {
            codes_.push_back(opposite(code));
        }
        if (refutation_.refute(codes_, ref.place, hints_)) {
            return true;
        }
        fault_ = "propagation finds no conflict for a lemma of the solver";
        return false;
    }

    bool derive(const Step &step) {
        ids_.clear();
        for (std::size_t at = step.begin; at < step.end; at++) {
            ids_.push_back(id(hints_[at]));
        }
        lemma_.clear();
        if (step.ref.unit) {
            lemma_.push_back(literal(step.ref.unit));
        } else {
            for (Code code : clauses_[step.ref.place]) {
                lemma_.push_back(literal(code));
            }
        }
        Id id = derive_(lemma_, ids_);
        (step.ref.unit ? units_[variable(step.ref)].id : clauses_[step.ref.place].id) = id;
        if (!id) {
            fault_ = "the checker refuses a lemma of the solver";
        }
        return id;
    }

    static std::size_t variable(Ref ref) { return ref.unit >> 1; }

    // The id by which the checker knows it, or 0.
    Id id(Ref ref) {
        if (!ref.unit) {
            return clauses_[ref.place].id;
        }
        if (units_.size() <= variable(ref)) {
            lengthen(units_, variable(ref) + 1);
        }
        return units_[variable(ref)].id;
    }

    // The last in the order of the session is first.
    struct Needed {
        Ref ref;
        uint32_t at;
        bool operator<(const Needed &other) const { return ref.place != other.ref.place ? ref.place < other.ref.place : at < other.at; }
    };

    // A literal that is true by propagation alone: the id of the lemma that says so.
    struct Unit {
        Id id;
        bool is_needed;
    };

    Derive derive_;
    Clauses clauses_;
    Refutation refutation_{clauses_};
    std::priority_queue<Needed> needed_;
    std::vector<Step> steps_;
    Refs hints_;
    std::vector<Unit> units_;
    Distinct distinct_;
    Codes codes_;
    Literals lemma_;
    Ids ids_;
    std::size_t limit_ = DEAD_LITERALS;
    Id contradiction_ = 0;
    std::string fault_;
};

} // namespace cefindrato_ipasir
