// Checkers as objects; exits 0 if each call answers what it must.
#include "cefindrato_checker.hpp"
#include "objects.hpp"

using cefindrato::Checker;
using cefindrato::clause_hash;
using cefindrato::Step;

int main() {
    Checker checker;
    is_so("added", bool(checker.add_clause({1, 2})) && bool(checker.check_step(Step::add_clause, {1, -2, 3})));
    is_so("derived", bool(checker.check_step(Step::at_clause, {1, 3}, {clause_hash({2, 1}), clause_hash({-2, 3, 1})})));
    is_so("simplified", bool(checker.check_step(Step::delete_simplified, {1, -2, 3})));
    is_so("assumed", bool(checker.check_step(Step::assumptions, {-1, -3, 4})));
    is_so("core", bool(checker.check_step(Step::failed_assumptions, {-1, -3}, {clause_hash({1, 3})})));
    const cefindrato::CheckerAnswer other = checker.check_step(Step::failed_assumptions, {-2}, {clause_hash({1, 3})});
    is_so("not assumed", other.cause == CEFINDRATO_CHECKER_NOT_ASSUMED && other.step == 6);
    is_so("its text", std::string(other.text()) == "failed core contains non-assumed variables");
    is_so("nothing is assumed", bool(checker.check_step(Step::assumptions)));
    is_so("model", bool(checker.check_step(Step::model, {3, 2})));
    is_so("missed", checker.check_step(Step::model, {2}).cause == CEFINDRATO_CHECKER_MODEL_MISSES_CLAUSE);
    is_so("no literal", is_refused([&] { checker.add_clause({0}); }));
    Checker moved = std::move(checker);
    is_so("moved from", is_refused([&] { checker.check_step(Step::end); }) && !checker.unsat());
    is_so("empty", bool(moved.add_clause({})) && moved.unsat());
    checker = std::move(moved);
    is_so("moved back", checker.unsat() && bool(checker.check_step(Step::end)));
    return wrong;
}
