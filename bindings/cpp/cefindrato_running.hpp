// A check of a proof that is not there yet, for C++17: `lrat_check` or `drat_check` reads it from a pipe while it is written.
//
// The state is the program's own. `lrat_check` judges each line as it comes, and ends at the first that is rejected and at the
// empty clause; what is written after that meets no reader. So a caller ignores SIGPIPE: std::signal(SIGPIPE, SIG_IGN).
#ifndef CEFINDRATO_RUNNING_HPP
#define CEFINDRATO_RUNNING_HPP
#include "cefindrato.hpp"
#include <algorithm>
#include <cerrno>
#include <csignal>
#include <cstdio>
#include <fcntl.h>
#include <spawn.h>
#include <string>
#include <sys/wait.h>
#include <system_error>
#include <unistd.h>
#include <vector>

namespace cefindrato {

class Running {
  public:
    // Starts the program on a formula's file, with options as on its command line, such as {"--core", "core.cnf"}. Where that
    // can't be done a std::system_error says why.
    Running(const std::string &program, const std::string &formula, const std::vector<std::string> &options = {}) {
        int steps[2], faults[2];
        open(steps);
        open(faults);
        posix_spawn_file_actions_t actions;
        posix_spawn_file_actions_init(&actions);
        posix_spawn_file_actions_adddup2(&actions, steps[0], 0);
        posix_spawn_file_actions_addopen(&actions, 1, "/dev/null", O_WRONLY, 0);
        posix_spawn_file_actions_adddup2(&actions, faults[1], 2);
        std::vector<char *> words = {word(program), word(formula), word("-")};
        for (const std::string &option : options)
            words.push_back(word(option));
        words.push_back(nullptr);
        const int fault = posix_spawnp(&child, words[0], &actions, nullptr, words.data(), environ);
        posix_spawn_file_actions_destroy(&actions);
        close(steps[0]);
        close(faults[1]);
        faults_end = faults[0];
        if (fault == 0)
            proof_file = fdopen(steps[1], "wb");
        if (!proof_file) {
            const std::error_code why(fault ? fault : errno, std::generic_category());
            close(steps[1]);
            close(faults_end);
            if (fault == 0)
                waitpid(child, nullptr, 0);
            throw std::system_error(why, program);
        }
    }

    Running(const Running &) = delete;
    Running &operator=(const Running &) = delete;

    // A check that was not finished is cancelled.
    ~Running() { cancel(); }

    // Where the proof is written. A write fails once the program has ended.
    FILE *proof() { return proof_file; }

    // Ends the proof, waits for the program, and says what it answered; later calls say it again. Where `why` is given it gets
    // the text of a fault, and nothing otherwise.
    Answer finish(std::string *why = nullptr) {
        if (proof_file) {
            std::fclose(proof_file);
            proof_file = nullptr;
            char some[512];
            for (ssize_t n; (n = read(faults_end, some, sizeof some)) != 0;) {
                if (n > 0)
                    text.append(some, static_cast<size_t>(n));
                else if (errno != EINTR)
                    break;
            }
            close(faults_end);
            text.resize(std::min(text.find('\n'), text.size()));
            int status = 0;
            while (waitpid(child, &status, 0) < 0 && errno == EINTR) {
            }
            if (WIFEXITED(status) && WEXITSTATUS(status) == 0)
                answer = Answer::verified;
            else if (WIFEXITED(status) && WEXITSTATUS(status) == 3)
                answer = Answer::not_verified;
            // beside a verdict there may be a warning
            if (answer != Answer::fault)
                text.clear();
            else if (cancelled && WIFSIGNALED(status))
                text = "cancelled";
        }
        if (why)
            *why = text;
        return answer;
    }

    // Ends the program without a verdict: where the check was not finished it is a fault from now on.
    void cancel() {
        if (!proof_file)
            return;
        cancelled = true;
        kill(child, SIGKILL);
        finish();
    }

  private:
    static char *word(const std::string &text) { return const_cast<char *>(text.c_str()); }
    static char *word(const char *text) { return const_cast<char *>(text); }

    static void open(int (&ends)[2]) {
        if (pipe2(ends, O_CLOEXEC) != 0)
            throw std::system_error(errno, std::generic_category(), "pipe2");
    }

    pid_t child = -1;
    FILE *proof_file = nullptr;
    int faults_end = -1;
    bool cancelled = false;
    Answer answer = Answer::fault;
    std::string text;
};

} // namespace cefindrato
#endif
