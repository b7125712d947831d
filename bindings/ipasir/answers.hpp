// The answers of a process, and what it says of them at its end: one line on standard error, or, where SESSION_REPORTS names a folder,
// a file there that holds after each answer what was counted so far. A forked child counts its own.
#pragma once
#include <atomic>
#include <cerrno>
#include <cstdio>
#include <cstdlib>
#include <cstring>
#include <fcntl.h>
#include <mutex>
#include <pthread.h>
#include <string>
#include <unistd.h>
#include <vector>

namespace cefindrato_ipasir {

// What becomes of an answer that is not shown: it is 0, the process ends, or it is let through.
enum class Mode { unknown, strict, count };

class Answers {
  public:
    // Those of the process, which are never destroyed, since solvers may be given up while it exits.
    static Answers &all() {
        static Answers *made = [] {
            auto *answers = new Answers;
            std::atexit([] { all().end(); });
            pthread_atfork([] { all().guard_.lock(); }, [] { all().guard_.unlock(); },
                           [] {
                               all().forget();
                               all().guard_.unlock();
                           });
            return answers;
        }();
        return *made;
    }

    Mode mode() const { return mode_; }

    // A solver begins: from here on there is something to say at the end.
    void begin() {
        std::lock_guard<std::mutex> held(guard_);
        is_used_ = true;
        report("");
    }

    // Counts an answer. With a cause it is not shown; in strict mode the process ends then.
    void count(int status, const std::string &cause) {
        std::lock_guard<std::mutex> held(guard_);
        is_used_ = true;
        total_++;
        if (cause.empty()) {
            (status == 10 ? satisfiable_ : status == 20 ? unsatisfiable_ : unknown_)++;
            report("");
            return;
        }
        hidden_++;
        std::string text = std::to_string(total_) + " (" + cause + ")";
        if (hidden_ <= MOST_NAMED) {
            named_ += (named_.empty() ? " " : ", ") + text;
        }
        report("process " + std::to_string(::getpid()) + ", answer " + text + "\n");
        if (mode_ == Mode::strict) {
            std::fflush(nullptr);
            say("answer " + std::to_string(total_) + " is not shown: " + cause);
            ::_exit(1);
        }
    }

  private:
    static constexpr uint64_t MOST_NAMED = 10;

    Answers() {
        const char *mode = std::getenv("SESSION_CHECK");
        const char *folder = std::getenv("SESSION_REPORTS");
        folder_ = folder ? folder : "";
        if (mode && std::strcmp(mode, "strict") == 0) {
            mode_ = Mode::strict;
        } else if (mode && std::strcmp(mode, "count") == 0) {
            mode_ = Mode::count;
        } else if (mode && *mode) {
            give_up("SESSION_CHECK is neither strict nor count");
        }
    }

    static void say(const std::string &text) { std::fprintf(stderr, "cefindrato: %s\n", text.c_str()); }

    [[noreturn]] static void give_up(const std::string &text) {
        std::fflush(nullptr);
        say(text);
        ::_exit(2);
    }

    void end() {
        std::lock_guard<std::mutex> held(guard_);
        if (!is_used_ || !folder_.empty()) {
            return;
        }
        std::string count = std::to_string(total_);
        if (hidden_) {
            std::string more = hidden_ > MOST_NAMED ? ", and " + std::to_string(hidden_ - MOST_NAMED) + " more" : "";
            say(std::to_string(hidden_) + " of " + count + " answers are not shown:" + named_ + more);
        } else {
            say(count + " answers, all shown: " + std::to_string(satisfiable_) + " satisfiable, " + std::to_string(unsatisfiable_) +
                " unsatisfiable, " + std::to_string(unknown_) + " unknown");
        }
    }

    // (a forked child: what its parent counted is the parent's)
    void forget() {
        is_used_ = false;
        total_ = satisfiable_ = unsatisfiable_ = unknown_ = hidden_ = 0;
        named_.clear();
        if (file_ >= 0) {
            ::close(file_);
            file_ = -1;
        }
    }

    // The counts, and more to be added after them.
    void report(const std::string &added) {
        if (folder_.empty()) {
            return;
        }
        if (file_ < 0) {
            make();
        }
        char counts[90];
        int length = std::snprintf(counts, sizeof counts, "%20llu %20llu %20llu %20llu\n", static_cast<unsigned long long>(satisfiable_),
                                   static_cast<unsigned long long>(unsatisfiable_), static_cast<unsigned long long>(unknown_),
                                   static_cast<unsigned long long>(hidden_));
        written_ = std::max(written_, static_cast<off_t>(length));
        if (::pwrite(file_, counts, static_cast<size_t>(length), 0) != length ||
            ::pwrite(file_, added.data(), added.size(), written_) != static_cast<ssize_t>(added.size())) {
            give_up("a report of answers can't be written: " + std::string(std::strerror(errno)));
        }
        written_ += static_cast<off_t>(added.size());
    }

    // A file under a name that no process has, since numbers of processes come again.
    void make() {
        written_ = 0;
        for (int next = 1; file_ < 0; next++) {
            std::string name = folder_ + "/" + std::to_string(::getpid()) + "." + std::to_string(next) + ".answers";
            file_ = ::open(name.c_str(), O_WRONLY | O_CREAT | O_EXCL | O_CLOEXEC, 0666);
            if (file_ < 0 && errno != EEXIST) {
                give_up(name + ": " + std::strerror(errno));
            }
        }
    }

    Mode mode_ = Mode::unknown;
    std::string folder_, named_;
    std::mutex guard_;
    bool is_used_ = false;
    uint64_t total_ = 0, satisfiable_ = 0, unsatisfiable_ = 0, unknown_ = 0, hidden_ = 0;
    int file_ = -1;
    off_t written_ = 0;
};

} // namespace cefindrato_ipasir
