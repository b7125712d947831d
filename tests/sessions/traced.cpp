// A random session with CaDiCaL 2, which writes its own proof of it; beside it the interaction is written. Some queries have a clause that
// holds for them alone, and some a limit.
//
//   traced SEED VARIABLES FORMAT IS_TEXT INTERACTION PROOF       FORMAT is lidrup or idrup
//
// It prints the lines that `session_check` has to print of the queries without such a clause.
#include <cadical.hpp>
#include <cstdio>
#include <cstdlib>
#include <random>
#include <string>
#include <vector>

namespace {

using Literals = std::vector<int>;

class Random {
  public:
    Random(unsigned seed, int variables) : engine_(seed), variables_(variables) {}
    int below(int bound) { return static_cast<int>(engine_() % static_cast<unsigned>(bound)); }
    int literal() { return (1 + below(variables_)) * (below(2) ? 1 : -1); }
    Literals literals(int count) {
        Literals found;
        for (; count; count--) {
            // sometimes one twice, or the opposite one
            found.push_back(below(20) == 0 && !found.empty() ? found[0] * (below(2) ? 1 : -1) : literal());
        }
        return found;
    }

  private:
    std::mt19937 engine_;
    int variables_;
};

class Session {
  public:
    Session(char **words)
        : random_(static_cast<unsigned>(std::atoi(words[1])), std::atoi(words[2])), variables_(std::atoi(words[2])),
          interaction_(std::fopen(words[5], "w")) {
        solver_.set("quiet", 1);
        solver_.set(words[3], 1);
        solver_.set("binary", *words[4] == '0');
        for (const char *interval : {"elimint", "probeint", "reduceint", "subsumeint"}) {
            solver_.set(interval, 10);
        }
        if (!interaction_ || !solver_.trace_proof(words[6])) {
            std::exit(2);
        }
        std::fputs("p icnf\n", interaction_);
    }
    ~Session() {
        solver_.close_proof_trace();
        std::fclose(interaction_);
    }
    Session(const Session &) = delete;
    Session &operator=(const Session &) = delete;

    void play() {
        for (int batch = 0; batch < 8; batch++) {
            for (int clause = random_.below(2 * variables_); clause; clause--) {
                give(random_.literals(random_.below(40) == 0 ? 1 : 3 + (random_.below(4) == 0)));
            }
            for (int query = 1 + random_.below(4); query; query--) {
                ask(random_.literals(random_.below(5)));
            }
        }
    }

  private:
    void say(char kind, const Literals &literals) {
        std::fprintf(interaction_, "%c ", kind);
        for (int literal : literals) {
            std::fprintf(interaction_, "%d ", literal);
        }
        std::fputs("0\n", interaction_);
    }

    void give(const Literals &clause) {
        say('i', clause);
        for (int literal : clause) {
            solver_.add(literal);
        }
        solver_.add(0);
    }

    void ask(const Literals &assumed) {
        say('q', assumed);
        for (int literal : assumed) {
            solver_.assume(literal);
        }
        bool is_constrained = random_.below(4) == 0;
        if (is_constrained) {
            for (int literal : random_.literals(2)) {
                solver_.constrain(literal);
            }
            solver_.constrain(0);
        }
        if (random_.below(5) == 0) {
            solver_.limit("conflicts", random_.below(3));
        }
        int status = solver_.solve();
        std::fprintf(interaction_, "s %s\n", status == 10 ? "SATISFIABLE" : status == 20 ? "UNSATISFIABLE" : "UNKNOWN");
        if (random_.below(3)) {
            report(status, assumed);
        }
        number_++;
        if (!is_constrained) {
            std::printf("q %d %s\n", number_, status == 10 ? "satisfiable: shown" : status == 20 ? "unsatisfiable: shown" : "unknown");
        }
    }

    // What an application may ask of an answer, also of a variable that no clause has.
    void report(int status, const Literals &assumed) {
        Literals told;
        if (status == 10) {
            for (int variable = 1; variable <= variables_ + 1; variable++) {
                told.push_back(solver_.val(variable) > 0 ? variable : -variable);
            }
            say('v', told);
        } else if (status == 20) {
            for (int literal : assumed) {
                if (solver_.failed(literal)) {
                    told.push_back(literal);
                }
            }
            say('f', told);
        }
    }

    Random random_;
    int variables_;
    std::FILE *interaction_;
    CaDiCaL::Solver solver_;
    int number_ = 0;
};

} // namespace

int main(int count, char **words) {
    if (count != 7) {
        std::fputs("usage: traced SEED VARIABLES FORMAT IS_TEXT INTERACTION PROOF\n", stderr);
        return 2;
    }
    Session(words).play();
}
