// The ported checker over two clauses, a lemma and two queries, each answer of which is checked before it is printed.
//
//   c++ -std=c++17 -I bindings/c -I bindings/cpp -o example bindings/cpp/checker_example.cpp FOLDER/libcefindrato.a && ./example
#include "cefindrato_checker.hpp"
#include <iostream>

using cefindrato::clause_hash;
using cefindrato::Step;

static const char *verdict(const cefindrato::CheckerAnswer &answer) { return answer ? "shown" : "not shown"; }

int main() {
    cefindrato::Checker checker;
    // the application's clauses
    checker.add_clause({1, 2});
    checker.add_clause({1, -2, 3});
    // the solver's lemma: with 1 and 3 false, the first clause makes 2 true, and then the second one is false
    checker.check_step(Step::redundant_at_clause, {1, 3}, {clause_hash({1, 2}), clause_hash({1, -2, 3})});
    checker.check_step(Step::assumptions, {-1, -3});
    std::cout << "unsatisfiable under -1 and -3: "
              << verdict(checker.check_step(Step::failed_assumptions, {-1, -3}, {clause_hash({1, 3})})) << "\n";
    checker.check_step(Step::assumptions, {-3});
    std::cout << "satisfiable under -3: " << verdict(checker.check_step(Step::model, {1, -3})) << "\n";
}
