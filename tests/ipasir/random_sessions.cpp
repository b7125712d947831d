// Random sessions by IPASIR: clauses in batches, queries under assumptions, values and cores, over few variables each against all
// assignments; over many each answer has to be one, a value has to meet the assumptions, and nothing else is known.
//
//   random_sessions SEED COUNT VARIABLES
//
// It prints how many answers were satisfiable, unsatisfiable and 0, and exits 1 where one is wrong; 0 is never wrong.
#include "ipasir.h"
#include <cstdio>
#include <cstdlib>
#include <random>
#include <vector>

namespace {

constexpr int MOST = 13;
using Literals = std::vector<int>;

bool is_wrong = false;

void wants(bool is_right, const char *what) {
    if (!is_right) {
        std::printf("wrong: %s\n", what);
        is_wrong = true;
    }
}

bool is_true(unsigned assignment, int literal) { return (assignment >> (std::abs(literal) - 1) & 1) == (literal > 0); }

class Random {
  public:
    Random(unsigned seed, int variables) : engine_(seed), variables_(variables) {}
    int below(int bound) { return static_cast<int>(engine_() % static_cast<unsigned>(bound)); }
    int literal() { return (1 + below(variables_)) * (below(2) ? 1 : -1); }

  private:
    std::mt19937 engine_;
    int variables_;
};

// A session, with the assignments that satisfy what was given.
class Session {
  public:
    Session(unsigned seed, int variables) : random_(seed, variables), variables_(variables), is_small_(variables <= MOST) {
        for (unsigned assignment = 0; is_small_ && assignment < 1u << variables; assignment++) {
            left_.push_back(assignment);
        }
    }
    ~Session() { ipasir_release(solver_); }
    Session(const Session &) = delete;
    Session &operator=(const Session &) = delete;

    void play(long counts[3]) {
        for (int batch = 0; batch < 8; batch++) {
            int clauses = random_.below(is_small_ ? 2 * variables_ : variables_);
            for (int clause = 0; clause < clauses; clause++) {
                give();
            }
            for (int query = 1 + random_.below(4); query; query--) {
                counts[ask()]++;
            }
        }
    }

  private:
    void give() {
        Literals clause;
        // sometimes of one literal or none, with a literal twice, or with both signs
        int length = random_.below(40) == 0 ? random_.below(3) : 3 + (random_.below(4) == 0);
        for (int at = 0; at < length; at++) {
            clause.push_back(random_.below(30) == 0 && at ? clause[0] * (random_.below(2) ? 1 : -1) : random_.literal());
        }
        if (length == 0 && random_.below(4)) {
            return;
        }
        for (int literal : clause) {
            ipasir_add(solver_, literal);
        }
        ipasir_add(solver_, 0);
        std::vector<unsigned> left;
        for (unsigned assignment : left_) {
            bool is_met = false;
            for (int literal : clause) {
                is_met |= is_true(assignment, literal);
            }
            if (is_met) {
                left.push_back(assignment);
            }
        }
        left_ = left;
    }

    int ask() {
        Literals assumed;
        for (int count = random_.below(is_small_ ? 5 : 12); count; count--) {
            assumed.push_back(random_.literal());
            if (random_.below(20) == 0) {
                assumed.push_back(assumed[0] * (random_.below(2) ? 1 : -1));
            }
        }
        for (int literal : assumed) {
            ipasir_assume(solver_, literal);
        }
        int status = ipasir_solve(solver_);
        if (status == 10) {
            satisfied(assumed);
        } else if (status == 20) {
            failed(assumed);
        } else {
            wants(status == 0, "another status");
            for (int literal : assumed) {
                wants(!ipasir_failed(solver_, literal) && !ipasir_val(solver_, literal), "something is told of no answer");
            }
        }
        return status == 10 ? 0 : status == 20 ? 1 : 2;
    }

    void satisfied(const Literals &assumed) {
        unsigned assignment = 0;
        // (two variables more than any clause has)
        for (int variable = 1; variable <= variables_ + 2; variable++) {
            int value = ipasir_val(solver_, variable);
            wants(value == 0 || std::abs(value) == variable, "the value of another variable");
            wants(ipasir_val(solver_, -variable) == value, "two values of a variable");
            if (is_small_ && value > 0 && variable <= variables_) {
                assignment |= 1u << (variable - 1);
            }
        }
        for (int literal : assumed) {
            wants(ipasir_val(solver_, literal) == literal, "an assumption is not met");
        }
        bool is_model = !is_small_;
        for (unsigned found : left_) {
            is_model |= found == assignment;
        }
        wants(is_model, "a model that is none");
    }

    void failed(const Literals &assumed) {
        for (unsigned assignment : left_) {
            bool has_all = true;
            for (int literal : assumed) {
                has_all &= !ipasir_failed(solver_, literal) || is_true(assignment, literal);
            }
            wants(!has_all, "a core that is none");
        }
        wants(!ipasir_failed(solver_, variables_ + 1), "a literal failed that was not assumed");
    }

    Random random_;
    int variables_;
    bool is_small_;
    void *solver_ = ipasir_init();
    std::vector<unsigned> left_;
};

} // namespace

int main(int count, char **words) {
    if (count != 4) {
        std::fputs("usage: random_sessions SEED COUNT VARIABLES\n", stderr);
        return 2;
    }
    long counts[3] = {0, 0, 0};
    unsigned seed = static_cast<unsigned>(std::atoi(words[1]));
    for (int session = 0; session < std::atoi(words[2]); session++) {
        int most = std::atoi(words[3]), variables = most > MOST ? most : 3 + session % (most - 2);
        Session(seed * 1000 + static_cast<unsigned>(session), variables).play(counts);
    }
    std::printf("%ld satisfiable, %ld unsatisfiable, %ld unknown\n", counts[0], counts[1], counts[2]);
    return is_wrong;
}
