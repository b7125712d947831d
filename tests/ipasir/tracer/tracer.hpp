// The calls of a tracer as CaDiCaL 2 has them; with LATER as its later versions have them.
#pragma once
#include <cstdint>
#include <vector>

namespace CaDiCaL {

enum ConclusionType { CONFLICT = 1, ASSUMPTIONS = 2, CONSTRAINT = 4 };

class Tracer {
  public:
#ifdef LATER
    using Id = int64_t;
    virtual void add_derived_clause(Id, bool, int, const std::vector<int> &, const std::vector<Id> &) = 0;
#else
    using Id = uint64_t;
    virtual void add_derived_clause(Id, bool, const std::vector<int> &, const std::vector<Id> &) = 0;
#endif
    virtual ~Tracer() {}
    virtual void add_original_clause(Id, bool, const std::vector<int> &, bool = false) = 0;
    virtual void delete_clause(Id, bool, const std::vector<int> &) = 0;
    virtual void weaken_minus(Id, const std::vector<int> &) = 0;
    virtual void add_assumption_clause(Id, const std::vector<int> &, const std::vector<Id> &) = 0;
    virtual void conclude_sat(const std::vector<int> &) = 0;
    virtual void conclude_unsat(ConclusionType, const std::vector<Id> &) = 0;
};

} // namespace CaDiCaL
