// Refutes clauses of a session by propagation over what stood before them: see finder.hpp.
#pragma once
#include "propagation.hpp"

namespace cefindrato_ipasir {

// What a hint names: a clause, or a literal that is true by propagation alone from a place on.
struct Ref {
    Place place;
    Code unit; // or 0
};
using Refs = std::vector<Ref>;

class Refutation {
  public:
    explicit Refutation(Clauses &clauses) : clauses_(clauses) {}

    // Whether the clauses lead to a conflict by propagation alone, and which of them is in conflict.
    bool is_contradictory() const { return is_contradictory_; }
    Place conflict() const { return conflict_; }

    void see(const Codes &codes) {
        trail_.see(codes);
        for (Code code : codes) {
            if (seen_.size() <= code >> 1) {
                lengthen(seen_, (code >> 1) + std::size_t{1});
            }
        }
    }
    uint32_t at(Ref ref) const { return ref.unit ? trail_.at(ref.unit) + 1 : 0; }

    // A deletion by the solver.
    void die(Place place) {
        clauses_.die(place);
        dead_.push_back(place);
    }

    // Takes up what came since the last time: clauses, and then deletions.
    void settle() {
        for (; settled_ < clauses_.end(); settled_ = clauses_.after(settled_)) {
            if (clauses_[settled_].died == NEVER && !is_contradictory_ && trail_.add(settled_)) {
                is_contradictory_ = true;
                conflict_ = trail_.conflict();
            }
        }
        for (; buried_ < dead_.size(); buried_++) {
            Clause &clause = clauses_[dead_[buried_]];
            if (clause.is_held) {
                clauses_.rise(dead_[buried_]);
            } else if (clause.is_watched) {
                trail_.unwatch(dead_[buried_]);
            }
        }
        exhumed_ = dead_.size();
    }

    // Takes up all clauses again.
    void begin_again() {
        trail_.clear();
        dead_.cut(0);
        for (Place place = 0; place < clauses_.end(); place = clauses_.after(place)) {
            if (clauses_[place].died != NEVER) {
                dead_.push_back(place);
            }
        }
        buried_ = dead_.size();
        settled_ = 0;
        settle();
    }

    // Whether these literals together lead to a conflict by what stands before a place; and by what. Until `finish` the places only
    // become less.
    bool refute(const Codes &codes, Place before, Refs &refs) {
        trail_.cut(before);
        exhume(before);
        if (attempt(codes, before, refs)) {
            return true;
        }
        exhume(0);
        return attempt(codes, before, refs);
    }

    // What makes a unit true.
    void reasons(Ref ref, Refs &refs) const {
        Place reason = trail_.reason(ref.unit);
        for (Code code : clauses_[reason]) {
            if (code != ref.unit) {
                refs.push_back(root(opposite(code)));
            }
        }
        refs.push_back({reason, 0});
    }

    // What a conflict rests on, as hints.
    void explain(Place conflict, Refs &refs) {
        std::size_t begin = refs.size();
        refs.push_back({conflict, 0});
        mark(conflict);
        const Codes &trail = trail_.trail();
        for (std::size_t at = trail.size(); at > trail_.roots(); at--) {
            Code code = trail[at - 1];
            if (seen_[code >> 1]) {
                seen_[code >> 1] = 0;
                if (trail_.reason(code) != NEVER) {
                    refs.push_back({trail_.reason(code), 0});
                    mark(trail_.reason(code));
                }
            }
        }
        for (Code code : seen_roots_) {
            seen_[code >> 1] = 0;
            refs.push_back(root(code));
        }
        seen_roots_.clear();
        std::reverse(refs.begin() + static_cast<std::ptrdiff_t>(begin), refs.end());
    }

    // The dead are dead again, and the trail is whole.
    void finish() {
        for (Place place : up_) {
            trail_.unwatch(place);
        }
        up_.clear();
        loose_.clear();
        exhumed_ = dead_.size();
        trail_.restore();
        trail_.sweep();
    }

    // Clauses that refutations rested on although they were deleted before: the solver has restored them. They come now.
    void restore(bool is_right) {
        std::sort(restored_.begin(), restored_.end());
        restored_.erase(std::unique(restored_.begin(), restored_.end()), restored_.end());
        for (Place place : restored_) {
            if (is_right && clauses_[place].died != NEVER) {
                const Clause &clause = clauses_[place];
                clauses_.add(Codes(clause.begin(), clause.end()), clause.id, false);
            }
        }
        restored_.clear();
        settle();
    }

  private:
    // What makes a root true.
    Ref root(Code code) const {
        Place reason = trail_.reason(code);
        return clauses_[reason].size == 1 ? Ref{reason, 0} : Ref{trail_.place(code), code};
    }

    bool attempt(const Codes &codes, Place before, Refs &refs) {
        bool is_refuted = false;
        for (std::size_t at = 0; at < codes.size() && !is_refuted; at++) {
            int value = trail_.value(codes[at]);
            if (value == 0) {
                trail_.assign(codes[at], NEVER);
            } else if (value < 0) {
                // (else the literal is opposite to one before, and needs no hint)
                is_refuted = true;
                if (trail_.is_root(codes[at])) {
                    refs.push_back(root(opposite(codes[at])));
                }
            }
        }
        if (!is_refuted) {
            Place conflict = by_loose(before);
            if (conflict == NEVER && trail_.propagate(before)) {
                conflict = trail_.conflict();
            }
            if (conflict != NEVER) {
                is_refuted = true;
                std::size_t begin = refs.size();
                explain(conflict, refs);
                note_restored(before, refs, begin);
            }
        }
        trail_.undo();
        return is_refuted;
    }

    void note_restored(Place before, const Refs &refs, std::size_t begin) {
        for (std::size_t at = begin; at < refs.size(); at++) {
            Ref ref = refs[at];
            if (!ref.unit && clauses_[ref.place].died <= before && clauses_[ref.place].died != NEVER) {
                restored_.push_back(ref.place);
            }
        }
    }

    // What a clause of a conflict rests on is looked at next: its false literals, since a reason has one that it makes true.
    void mark(Place place) {
        for (Code code : clauses_[place]) {
            if (!seen_[code >> 1] && trail_.value(code) < 0) {
                seen_[code >> 1] = 1;
                if (trail_.is_root(code)) {
                    seen_roots_.push_back(opposite(code));
                }
            }
        }
    }

    // Lets those live for now that died after a place.
    void exhume(Place before) {
        for (; exhumed_ && (before == 0 || clauses_[dead_[exhumed_ - 1]].died > before); exhumed_--) {
            Place place = dead_[exhumed_ - 1];
            if (!clauses_[place].is_watched && clauses_[place].died != NEVER) {
                trail_.watch(place);
                up_.push_back(place);
                if (!trail_.is_open(place)) {
                    loose_.push_back(place);
                }
            }
        }
    }

    // Assigns what follows by the roots and the literals from those that live for now alone. Returns one that is in conflict, or NEVER.
    Place by_loose(Place before) {
        for (Place place : loose_) {
            const Clause &clause = clauses_[place];
            if (place >= before || trail_.value(clause.begin()[0]) > 0 || trail_.value(clause.begin()[1]) > 0) {
                continue;
            }
            Code open = 0;
            int count = 0;
            for (const Code *it = clause.begin(); it != clause.end() && count < 2; it++) {
                if (trail_.value(*it) >= 0) {
                    open = *it;
                    count++;
                }
            }
            if (count == 0) {
                return place;
            }
            if (count == 1 && trail_.value(open) == 0) {
                trail_.assign(open, place);
            }
        }
        return NEVER;
    }

    Clauses &clauses_;
    Propagation trail_{clauses_};
    Codes seen_roots_;
    std::vector<char> seen_;
    // those that died, in this order, and how many of them were taken up, and how many of them still are dead
    Row<Place> dead_;
    std::size_t buried_ = 0, exhumed_ = 0;
    // those that live for now, and of them those that have less than two literals which the roots do not make false
    std::vector<Place> up_, loose_;
    std::vector<Place> restored_;
    Place settled_ = 0, conflict_ = NEVER;
    bool is_contradictory_ = false;
};

} // namespace cefindrato_ipasir
