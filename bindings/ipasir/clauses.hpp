// The clauses of a session and the lemmas of its solver, in the order in which they came: see finder.hpp.
#pragma once
#include "codes.hpp"

namespace cefindrato_ipasir {

// A place in the order of the session: where a clause begins, in units of four bytes. A lemma may rest on what stands before it.
using Place = uint32_t;
constexpr Place NEVER = UINT32_MAX;
constexpr std::size_t UNIT = sizeof(Code);
// (a watch has a bit beside it)
constexpr Place MOST = NEVER >> 1;

// An id of a clause in the checker: they rise by one.
using Id = uint32_t;

// Its literals stand right behind it, so that propagation reads one piece of memory.
struct Clause {
    Id id;       // by which the checker knows it, or 0
    Place died;  // what came from this place on came after its deletion
    Place older; // one of the same hash that came before
    uint32_t size : 27;
    bool is_given : 1;   // the application's, which is never deleted
    bool is_watched : 1; // by its first two literals, where it has as many
    bool is_held : 1;    // a literal is true by it: it is kept, whatever the solver says
    bool is_needed : 1;
    bool is_kept : 1; // though it is dead

    Code *begin() { return reinterpret_cast<Code *>(this + 1); }
    Code *end() { return begin() + size; }
    const Code *begin() const { return reinterpret_cast<const Code *>(this + 1); }
    const Code *end() const { return begin() + size; }
};
static_assert(sizeof(Clause) == 4 * UNIT && alignof(Clause) == UNIT);
constexpr std::size_t MOST_LITERALS = (1 << 27) - 1;

class Clauses {
  public:
    // The place after the last one.
    Place end() const { return static_cast<Place>(units_.size()); }
    Place after(Place place) const { return place + units((*this)[place].size); }
    std::size_t count() const { return count_; }
    Clause &operator[](Place place) { return *reinterpret_cast<Clause *>(units_.data() + place); }
    const Clause &operator[](Place place) const { return *reinterpret_cast<const Clause *>(units_.data() + place); }
    // Finds clauses too, with one step less, until one is added.
    struct Base {
        Code *units;
        Clause &operator[](Place place) const { return *reinterpret_cast<Clause *>(units + place); }
    };
    Base base() { return {units_.data()}; }
    std::size_t dead_literals() const { return dead_literals_; }
    std::size_t live_literals() const { return literals_ - dead_literals_; }

    // Adds a clause, whose literals are different.
    Place add(const Codes &literals, Id id, bool is_given) {
        Place place = end();
        std::size_t size = literals.size();
        if (size > MOST_LITERALS || place + std::size_t{units(size)} > MOST) {
            throw std::bad_alloc();
        }
        Clause clause{id, NEVER, NEVER, static_cast<uint32_t>(size), is_given, false, false, false, false};
        std::copy(literals.begin(), literals.end(), (new (units_.add(units(size))) Clause(clause))->begin());
        count_++;
        literals_ += size;
        if (2 * slots_.size() < count_) {
            link_all(std::max<std::size_t>(2 * slots_.size(), 1 << 9));
        } else {
            link(place);
        }
        return place;
    }

    // The last lemma that fits with these literals, or NEVER. (What has a literal twice is never found.)
    template <class Fits> Place find(const Codes &wanted, Fits fits) {
        if (slots_.empty()) {
            return NEVER;
        }
        for (Code code : wanted) {
            if (marks_.size() <= code) {
                lengthen(marks_, code + std::size_t{1});
            }
            marks_[code] = 1;
        }
        Place found = slot(wanted.data(), wanted.size());
        for (; found != NEVER; found = (*this)[found].older) {
            const Clause &clause = (*this)[found];
            if (clause.size == wanted.size() && fits(clause) &&
                std::all_of(clause.begin(), clause.end(), [this](Code it) { return it < marks_.size() && marks_[it]; })) {
                break;
            }
        }
        for (Code code : wanted) {
            marks_[code] = 0;
        }
        return found;
    }

    void die(Place place) {
        (*this)[place].died = end();
        dead_literals_ += (*this)[place].size;
    }

    void rise(Place place) {
        (*this)[place].died = NEVER;
        dead_literals_ -= (*this)[place].size;
    }

    // Keeps those that are wanted, in their order, and forgets all others.
    template <class Wanted> void keep(Wanted wanted) {
        count_ = literals_ = dead_literals_ = 0;
        Place kept = 0;
        for (Place place = 0, next = 0; place < end(); place = next) {
            Clause &clause = (*this)[place];
            next = after(place);
            if (!wanted(clause)) {
                continue;
            }
            if (clause.died != NEVER) {
                clause.died = 0;
                dead_literals_ += clause.size;
            }
            clause.is_watched = clause.is_held = clause.is_kept = false;
            count_++;
            literals_ += clause.size;
            units_.move_down(place, next, kept);
            kept += next - place;
        }
        units_.cut(kept);
        link_all(slots_.size());
    }

  private:
    static Place units(std::size_t size) { return static_cast<Place>(sizeof(Clause) / UNIT + size); }

    // The list of those with this hash, which is the same for all orders.
    Place &slot(const Code *literals, std::size_t size) {
        uint64_t sum = 0;
        for (std::size_t at = 0; at < size; at++) {
            uint64_t bits = (uint64_t{literals[at]} + 1) * 0x9e3779b97f4a7c15u;
            sum += bits ^ (bits >> 29);
        }
        return slots_[(sum * 0xbf58476d1ce4e5b9u >> 20) & (slots_.size() - 1)];
    }

    // (the application's are never looked for)
    void link(Place place) {
        Clause &clause = (*this)[place];
        if (!clause.is_given) {
            Place &first = slot(clause.begin(), clause.size);
            clause.older = first;
            first = place;
        }
    }

    void link_all(std::size_t size) {
        slots_.assign(size, NEVER);
        for (Place place = 0; place < end(); place = after(place)) {
            link(place);
        }
    }

    Row<Code> units_;
    std::vector<char> marks_;
    std::vector<Place> slots_;
    std::size_t count_ = 0, literals_ = 0, dead_literals_ = 0;
};

} // namespace cefindrato_ipasir
