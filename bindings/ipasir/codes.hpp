// Literals by number: see finder.hpp.
#pragma once
#include "row.hpp"
#include <cstdint>

namespace cefindrato_ipasir {

using Literals = std::vector<int>;
using Ids = std::vector<uint64_t>;

// A literal as binary DRUP has it: twice its variable, and one more if it is negative.
using Code = uint32_t;
using Codes = std::vector<Code>;
inline Code code(int literal) { return 2 * static_cast<Code>(std::abs(literal)) + (literal < 0); }
inline int literal(Code code) { return code & 1 ? -static_cast<int>(code >> 1) : static_cast<int>(code >> 1); }
inline Code opposite(Code code) { return code ^ 1; }

// The different literals of a clause.
class Distinct {
  public:
    // Whether the clause has opposite literals. If not, `codes()` has each of its literals once.
    bool is_tautology(const Codes &clause) {
        codes_.clear();
        bool is_found = false;
        for (Code code : clause) {
            if (marks_.size() <= (code | 1)) {
                lengthen(marks_, (code | 1) + std::size_t{1});
            }
            is_found |= marks_[opposite(code)];
            if (!marks_[code]) {
                marks_[code] = 1;
                codes_.push_back(code);
            }
        }
        for (Code code : codes_) {
            marks_[code] = 0;
        }
        return is_found;
    }

    const Codes &codes() const { return codes_; }

  private:
    std::vector<char> marks_;
    Codes codes_;
};

} // namespace cefindrato_ipasir
