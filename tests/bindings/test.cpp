// The C++ wrapper on real input, wrong proofs, nothing, and several threads; exits 0 if each answers what it must.
#include "cefindrato.hpp"
#include <atomic>
#include <fstream>
#include <iostream>
#include <iterator>
#include <thread>
#include <vector>

using cefindrato::Answer;

static int wrong = 0;

static void expect(std::string_view cnf, std::string_view proof, Answer wanted, std::string_view text) {
    std::string why = "of before";
    const Answer answer = cefindrato::check(cnf, proof, &why);
    if (answer != wanted || why != text || cefindrato::check(cnf, proof) != wanted) {
        std::cout << "'" << proof << "': " << int(answer) << " '" << why << "'\n";
        wrong = 1;
    }
}

static void is_so(const char *what, bool holds) {
    if (!holds) {
        std::cout << what << ": it is not so\n";
        wrong = 1;
    }
}

static void of_drat() {
    const std::string_view five = "3 0 1 2 0 1 -2 0 -1 2 0 -1 -2 0";
    std::string why = "of before", lrat = "of before", core = "of before";
    is_so("verified", cefindrato::check_drat(five, "1 0\n0\n", &why, {&lrat, &core}) == Answer::verified);
    is_so("no fault", why.empty());
    is_so("the lines are a proof", cefindrato::check(five, lrat) == Answer::verified);
    is_so("the used clauses", core == "p cnf 2 4\n1 2 0\n1 -2 0\n-1 2 0\n-1 -2 0\n");
    is_so("no output", cefindrato::check_drat(five, "4 0\n", &why, {&lrat, &core}) == Answer::not_verified && lrat.empty() && core.empty());
    is_so("refused", cefindrato::check_drat(five, "1 x\n", &why) == Answer::fault && why == "proof: step 1: malformed");
    is_so("a format", cefindrato::check_drat(five, "1 0\n0\n", nullptr, {}, cefindrato::Format::drat) == Answer::verified);
}

static void of_lists() {
    const std::string four = cefindrato::text_of(std::vector<std::vector<int32_t>>{{1, 2}, {1, -2}, {-1, 2}, {-1, -2}});
    is_so("clauses", four == "1 2 0\n1 -2 0\n-1 2 0\n-1 -2 0\n");
    const std::string steps = cefindrato::text_of({{{2, 1}, true}, {{1}}, {{}}});
    is_so("steps", steps == "d 2 1 0\n1 0\n0\n" && cefindrato::check_drat(four, steps) == Answer::fault);
    is_so("without the deletion", cefindrato::check_drat(four, std::string_view(steps).substr(8)) == Answer::verified);
    try {
        cefindrato::text_of({{{1, 0, 2}, false}});
        is_so("0 is no literal", false);
    } catch (const std::invalid_argument &) {
    }
}

// One line with this many hints that it is longer than the room that is tried first.
static void of_long_lines() {
    const int length = 200000;
    std::string cnf = "1 0\n", lrat;
    for (int var = 1; var < length; var++)
        cnf += "-" + std::to_string(var) + " " + std::to_string(var + 1) + " 0\n";
    cnf += "-" + std::to_string(length) + " 0\n";
    is_so("long", cefindrato::check_drat(cnf, "", nullptr, {&lrat, nullptr}) == Answer::verified);
    is_so("long lines", lrat.size() > 1 << 20 && cefindrato::check(cnf, lrat) == Answer::verified);
}

static void of_models() {
    const std::string_view answer = "s SATISFIABLE\nv 1 2 0\n";
    std::string why = "of before";
    cefindrato::Unmet unmet;
    is_so("met", cefindrato::check_model("1 2 0", answer, &why, &unmet) == Answer::verified && unmet.clause == 0 && why.empty());
    is_so("not met", cefindrato::check_model("1 2 0\n-1 -2 0\n", answer, &why, &unmet) == Answer::not_verified);
    is_so("the clause", unmet.clause == 2 && unmet.line == 2);
    is_so("refused", cefindrato::check_model("1 x", answer, &why) == Answer::fault && why == "formula: line 1: bad number");
}

static std::string whole_file(const char *name) {
    std::ifstream file(name, std::ios::binary);
    return {std::istreambuf_iterator<char>(file), {}};
}

int main(int, char **names) {
    const std::string_view four = "1 2 0 1 -2 0 -1 2 0 -1 -2 0";
    expect(four, "5 1 0 1 2 0\n6 0 5 3 4 0\n", Answer::verified, "");
    expect(four, "5 1 0 1 2 0\n", Answer::not_verified, "");
    expect(four, "5 1 0 1 2 0\n6 0 5 3 0\n", Answer::fault, "proof: line 2: hints end without a conflict");
    expect("1 2", "", Answer::fault, "formula: line 1: unterminated clause");
    expect({}, {}, Answer::not_verified, "");
    // a view ends where its length says, also within a text that goes on
    expect(four.substr(0, 5), "", Answer::not_verified, "");
    expect(four.substr(0, 3), "", Answer::fault, "formula: line 1: unterminated clause");
    expect(std::string_view("1 0\0", 4), "", Answer::fault, "formula: line 1: bad number");

    of_drat();
    of_lists();
    of_long_lines();
    of_models();

    const std::string cnf = whole_file(names[1]), proof = whole_file(names[2]);
    const std::string_view cut = std::string_view(proof).substr(0, proof.size() / 2);
    std::atomic<int> verified = 0, others = 0;
    std::vector<std::thread> threads;
    for (int n = 0; n < 8; n++)
        threads.emplace_back([&, n] {
            for (int round = 0; round < 4; round++)
                (cefindrato::check(cnf, n % 2 ? cut : std::string_view(proof)) == Answer::verified ? verified : others)++;
        });
    for (std::thread &thread : threads)
        thread.join();
    if (verified != 16 || others != 16) {
        std::cout << "threads: " << verified << " verified, " << others << " not\n";
        wrong = 1;
    }
    return wrong;
}
