// Propagation over the clauses of a session, as of any place in their order: see finder.hpp.
//
// The trail begins with the literals that are true by propagation alone, its roots. Each has the place of the clause that made
// it true, or the place of the last of those that it rests on, if that is later; these places only grow along the trail. So
// what was true before some place is found again by cutting the trail there. Above the roots stand the literals of a trial.
#pragma once
#include "clauses.hpp"

namespace cefindrato_ipasir {

class Propagation {
  public:
    explicit Propagation(Clauses &clauses) : clauses_(clauses) {}

    // 1 if the literal is true, -1 if it is false.
    int value(Code code) const { return code < values_.size() ? values_[code] : 0; }
    bool is_root(Code code) const { return at(code) < roots_; }
    Place reason(Code code) const { return variables_[code >> 1].reason; }
    uint32_t at(Code code) const { return variables_[code >> 1].at; }
    // The place of a root.
    Place place(Code code) const { return places_[at(code)]; }
    const Codes &trail() const { return trail_; }
    uint32_t roots() const { return roots_; }

    // Makes room for the variables of some literals.
    void see(const Codes &codes) {
        for (Code code : codes) {
            if (values_.size() <= code) {
                std::size_t size = (code >> 1) + std::size_t{1};
                lengthen(variables_, size);
                lengthen(values_, 2 * size);
                lengthen(lists_, 2 * size);
            }
        }
    }

    // Adds the next clause to the roots. Returns whether all its literals, or those of a clause after it, are false by now: the
    // clause is `conflict()`.
    bool add(Place place) {
        watch(place);
        const Clause &clause = clauses_[place];
        if (is_open(place) || (clause.size && value(*clause.begin()) > 0)) {
            return false;
        }
        heads_.push_back(place);
        return head(place);
    }

    Place conflict() const { return conflict_; }

    // Takes back the roots of this place and later.
    void cut(Place place) {
        while (roots_ && places_[roots_ - 1] >= place) {
            roots_--;
        }
        places_.resize(roots_);
        undo();
    }

    // Makes the roots again that were taken back.
    void restore() {
        std::size_t next = heads_.size();
        Place last = places_.empty() ? 0 : places_.back() + 1;
        while (next && heads_[next - 1] >= last) {
            next--;
        }
        for (; next < heads_.size(); next++) {
            head(heads_[next]);
        }
    }

    // Takes back the trial.
    void undo() {
        signed char *values = values_.data();
        for (std::size_t at = roots_; at < trail_.size(); at++) {
            values[trail_[at]] = values[opposite(trail_[at])] = 0;
        }
        trail_.erase(trail_.begin() + roots_, trail_.end());
        next_ = roots_;
    }

    void assign(Code code, Place reason) {
        values_[code] = 1;
        values_[opposite(code)] = -1;
        variables_[code >> 1] = {reason, static_cast<uint32_t>(trail_.size())};
        trail_.push_back(code);
    }

    // Propagates by the clauses before a place. Returns whether there is a conflict.
    bool propagate(Place before) {
        while (next_ < trail_.size()) {
            if (visit(opposite(trail_[next_++]), before)) {
                return true;
            }
        }
        return false;
    }

    // Watches a clause by two literals: those that are not false, and else those that were made false last.
    void watch(Place place) {
        Clause &clause = clauses_[place];
        Code *codes = clause.begin();
        uint32_t open = 0, size = clause.size;
        for (uint32_t next = 0; next < size && open < 2; next++) {
            if (value(codes[next]) >= 0) {
                std::swap(codes[open++], codes[next]);
            }
        }
        for (; open < 2 && open < size; open++) {
            auto is_before = [this](Code a, Code b) { return at(a) < at(b); };
            std::swap(codes[open], *std::max_element(codes + open, codes + size, is_before));
        }
        if (size > 1) {
            lists_[codes[0]].push_back({place, size == 2, codes[1]});
            lists_[codes[1]].push_back({place, size == 2, codes[0]});
        }
        clause.is_watched = true;
    }

    void unwatch(Place place) {
        Clause &clause = clauses_[place];
        clause.is_watched = false;
        unwatched_++;
        if (clause.size > 1) {
            take_out(clause.begin()[0], place);
            take_out(clause.begin()[1], place);
        }
    }

    // Takes what is left over out of the lists, and gives back most of the memory that they do not need, once much has changed.
    void sweep() {
        if (unwatched_ < (clauses_.count() + lists_.size()) / 2) {
            return;
        }
        for (Code code = 0; code < lists_.size(); code++) {
            List &list = lists_[code];
            list.erase(std::remove_if(list.begin(), list.end(), [&](const Watch &it) { return !watches(clauses_[it.place], code); }),
                       list.end());
            if (list.capacity() > list.size() + list.size() / 2 + 3) {
                list.shrink_to_fit();
            }
        }
        unwatched_ = 0;
    }

    // Whether two literals of a clause that is now watched are not false.
    bool is_open(Place place) const {
        const Clause &clause = clauses_[place];
        return clause.size > 1 && value(clause.begin()[1]) >= 0;
    }

    // Forgets all.
    void clear() {
        for (List &list : lists_) {
            List().swap(list);
        }
        roots_ = 0;
        unwatched_ = 0;
        places_.clear();
        heads_.clear();
        undo();
    }

  private:
    struct Variable {
        Place reason = NEVER;
        uint32_t at = 0;
    };
    // A clause that watches a literal, and another of its literals.
    struct Watch {
        Place place : 31;
        Place is_pair : 1; // it has two literals
        Code other;
    };
    using List = std::vector<Watch>;
    // At how many watches a search for one looks.
    static constexpr std::size_t LOOKS = 32;

    static bool watches(const Clause &clause, Code code) {
        return clause.is_watched && (clause.begin()[0] == code || clause.begin()[1] == code);
    }

    // Takes a clause out of a list, if it is among the last, as one that lived for now mostly is; else it is left over.
    void take_out(Code code, Place place) {
        List &list = lists_[code];
        std::size_t size = list.size(), last = size - std::min(size, LOOKS);
        for (std::size_t at = size; at > last; at--) {
            if (list[at - 1].place == place) {
                list[at - 1] = list.back();
                list.pop_back();
                return;
            }
        }
    }

    // Makes the literal of a clause a root which the roots before leave alone, and all that follows from it by the clauses up to it.
    bool head(Place place) {
        const Clause &clause = clauses_[place];
        const Code *codes = clause.begin();
        uint32_t first = clause.size > 1 && value(codes[0]) < 0;
        if (!clause.size || value(codes[first]) < 0) {
            conflict_ = place;
            return true;
        }
        if (value(codes[first]) == 0) {
            assign(codes[first], place);
        }
        bool is_conflict = propagate(place + 1);
        for (; roots_ < trail_.size(); roots_++) {
            places_.push_back(place);
            clauses_[reason(trail_[roots_])].is_held = true;
        }
        return is_conflict;
    }

    // The clauses that watch a literal which was made false: whether one of them is in conflict.
    bool visit(Code code, Place before) {
        List &list = lists_[code];
        const signed char *values = values_.data();
        Clauses::Base clauses = clauses_.base();
        Watch *kept = list.data(), *it = kept, *end = it + list.size();
        bool is_conflict = false;
        for (; it != end && !is_conflict; it++) {
            int value = values[it->other];
            if (value > 0) {
                *kept++ = *it;
                continue;
            }
            Watch watch = *it;
            if (watch.place >= before) {
                *kept++ = watch;
                continue;
            }
            Clause &clause = clauses[watch.place];
            if (!clause.is_watched) {
                continue;
            }
            if (watch.is_pair) {
                is_conflict = ends(watch.place, watch.other, value);
            } else if (!follow(clause, code, watch, is_conflict)) {
                continue;
            }
            *kept++ = watch;
        }
        if (kept != it) {
            kept = std::copy(it, end, kept);
            list.erase(list.begin() + (kept - list.data()), list.end());
        }
        return is_conflict;
    }

    // All literals of a clause but one are false: whether this one is too. If not, it is made true.
    bool ends(Place place, Code code, int value) {
        if (value < 0) {
            conflict_ = place;
            return true;
        }
        assign(code, place);
        return false;
    }

    // Assigns what follows from a clause. Whether it still watches the literal.
    bool follow(Clause &clause, Code code, Watch &watch, bool &is_conflict) {
        const signed char *values = values_.data();
        Code *codes = clause.begin(), other = codes[0] ^ codes[1] ^ code;
        if (codes[0] != code && codes[1] != code) {
            return false;
        }
        int value = values[other];
        watch.other = other;
        if (value > 0) {
            return true;
        }
        for (Code *it = codes + 2, *end = clause.end(); it != end; it++) {
            if (values[*it] > 0) {
                watch.other = *it;
                return true;
            }
            if (values[*it] == 0) {
                codes[0] = other;
                codes[1] = *it;
                *it = code;
                lists_[codes[1]].push_back({watch.place, false, other});
                return false;
            }
        }
        is_conflict = ends(watch.place, other, value);
        return true;
    }

    Clauses &clauses_;
    std::vector<signed char> values_;
    std::vector<Variable> variables_;
    std::vector<List> lists_; // by the literal that is watched
    Codes trail_;
    std::vector<Place> places_, heads_;
    uint32_t roots_ = 0;
    std::size_t next_ = 0, unwatched_ = 0;
    Place conflict_ = NEVER;
};

} // namespace cefindrato_ipasir
