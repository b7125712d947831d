// Lines that go to `lrat_check` as they are made; exits 0 if each check answers what it must.
//
//   running LRAT_CHECK FORMULA      the formula has the four clauses over two variables
#include "cefindrato_running.hpp"
#include <chrono>
#include <csignal>
#include <iostream>
#include <thread>
#include <vector>

using cefindrato::Answer;
using cefindrato::Running;

static int wrong = 0;

static void expect(const char *what, Running &check, Answer wanted, const std::string &text) {
    for (int round = 0; round < 2; round++) {
        std::string why = "of before";
        const Answer answer = check.finish(&why);
        if (answer != wanted || why != text) {
            std::cout << what << ": " << int(answer) << " '" << why << "'\n";
            wrong = 1;
        }
    }
}

// Whether a write fails, some seconds at most after the checker has got a line at which it ends.
static bool ends(FILE *proof) {
    for (int round = 0; round < 200; round++) {
        if (std::fputs("c\n", proof) < 0 || std::fflush(proof) != 0)
            return true;
        std::this_thread::sleep_for(std::chrono::milliseconds(100));
    }
    return false;
}

int main(int, char **words) {
    const std::string program = words[1], formula = words[2];
    std::signal(SIGPIPE, SIG_IGN);
    {
        Running check(program, formula);
        std::fputs("5 1 0 1 2 0\n6 0 5 3 4 0\n", check.proof());
        expect("good", check, Answer::verified, "");
    }
    {
        Running check(program, formula);
        std::fputs("5 1 0 1 2 0\n", check.proof());
        expect("open", check, Answer::not_verified, "");
    }
    {
        Running check(program, formula);
        std::fputs("5 1 0 1 2 0\n6 0 5 3 0\n", check.proof());
        if (!ends(check.proof())) {
            std::cout << "a wrong line does not end the check\n";
            wrong = 1;
        }
        expect("bad", check, Answer::fault, "proof: line 2: hints end without a conflict");
    }
    {
        Running check(program, formula + ".none");
        expect("no formula", check, Answer::fault, "cannot open " + formula + ".none");
    }
    try {
        Running check(program + ".none", formula);
        std::cout << "a program that is not there\n";
        wrong = 1;
    } catch (const std::system_error &why) {
        if (why.code().value() != ENOENT)
            wrong = 1;
    }
    // one that is let go, one that is cancelled, and options that the program gets
    { Running check(program, formula); }
    {
        Running check(program, formula);
        std::fputs("5 1 0 1 2 0\n6 0 5 3 4 0\n", check.proof());
        check.cancel();
        expect("cancelled", check, Answer::fault, "cancelled");
    }
    {
        Running check(program, formula);
        std::fputs("5 1 0 1 2 0\n6 0 5 3 4 0\n", check.proof());
        expect("finished", check, Answer::verified, "");
        check.cancel();
        expect("cancelled after that", check, Answer::verified, "");
    }
    {
        Running check(program, formula, {"--help"});
        if (check.finish() != Answer::verified) {
            std::cout << "an option does not come to the program\n";
            wrong = 1;
        }
    }
    std::vector<std::thread> threads;
    std::vector<Answer> answers(8, Answer::fault);
    for (size_t n = 0; n < answers.size(); n++)
        threads.emplace_back([&, n] {
            Running check(program, formula);
            std::fputs(n % 2 ? "5 1 0 1 2 0\n" : "5 1 0 1 2 0\n6 0 5 3 4 0\n", check.proof());
            answers[n] = check.finish();
        });
    for (std::thread &thread : threads)
        thread.join();
    for (size_t n = 0; n < answers.size(); n++)
        if (answers[n] != (n % 2 ? Answer::not_verified : Answer::verified)) {
            std::cout << "thread " << n << ": " << int(answers[n]) << "\n";
            wrong = 1;
        }
    return wrong;
}
