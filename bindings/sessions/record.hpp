// What an application asks of a solver and is told, as ICNF text, and what the solver says of it, as IDRUP text.
//
// Where SESSION_RECORD is set, the Nth solver of process P writes SESSION_RECORD.P.N.icnf and SESSION_RECORD.P.N.idrup, with another
// N where these names are taken; a `%p` in SESSION_RECORD is P. A path that does not begin with / is one from where the process began.
// Until the session has ended both names end in `.part`, so what is left by a run that broke is taken for no session. It ends when
// the solver is given up, or when the process exits. Each session that begins is named in `sessions.index` beside its files, so
// that one that is lost later is noticed.
//
// A forked child that continues with a solver has files of its own, which begin with what was asked before.
#pragma once
#include <algorithm>
#include <atomic>
#include <cerrno>
#include <cstdio>
#include <cstdlib>
#include <fcntl.h>
#include <memory>
#include <mutex>
#include <pthread.h>
#include <set>
#include <string>
#include <unistd.h>
#include <vector>

namespace sessions {

using Literals = std::vector<int>;

[[noreturn]] inline void give_up(const std::string &name) {
    std::perror(name.c_str());
    std::exit(1);
}

// Whether all of a text was written.
inline bool write_all(int file, const char *text, std::size_t length) {
    while (length) {
        ssize_t count = ::write(file, text, length);
        if (count < 0 && errno == EINTR) {
            continue;
        }
        if (count <= 0) {
            return false;
        }
        text += count;
        length -= static_cast<std::size_t>(count);
    }
    return true;
}

// A file that gets its name once it is whole. What waits to be written is kept here, so that a forked child can copy all of it.
class Part {
  public:
    // The file, unless there is one of its name.
    static std::unique_ptr<Part> made(const std::string &name) {
        int file = ::open((name + ".part").c_str(), O_RDWR | O_CREAT | O_EXCL | O_CLOEXEC, 0666);
        if (file < 0 && errno != EEXIST) {
            give_up(name + ".part");
        }
        if (file >= 0 && ::access(name.c_str(), F_OK) == 0) {
            ::unlink((name + ".part").c_str());
            ::close(file);
            file = -1;
        }
        return file < 0 ? nullptr : std::unique_ptr<Part>(new Part(name, file));
    }

    ~Part() {
        if (file_ >= 0) {
            ::close(file_);
        }
    }

    Part(const Part &) = delete;
    Part &operator=(const Part &) = delete;

    void text(const std::string &line) {
        waiting_ += line;
        waiting_ += '\n';
        if (waiting_.size() >= 1 << 16) {
            flush();
        }
    }

    template <class Some> void line(char kind, const Some &literals) {
        std::string line(1, kind);
        for (int literal : literals) {
            line += ' ';
            line += std::to_string(literal);
        }
        text(line + " 0");
    }

    // Begins with what another file has been given.
    void begin_with(const Part &other) {
        std::string text(1 << 16, 0);
        for (off_t at = 0; at < other.written_;) {
            ssize_t count = ::pread(other.file_, &text[0], std::min<off_t>(text.size(), other.written_ - at), at);
            if (count <= 0) {
                is_whole_ = false;
                return;
            }
            is_whole_ &= write_all(file_, text.data(), static_cast<std::size_t>(count));
            at += count;
        }
        written_ = other.written_;
        waiting_ = other.waiting_;
    }

    // Whether all of it was written. After it nothing is.
    bool close() {
        flush();
        is_whole_ &= ::close(file_) == 0;
        file_ = -1;
        return is_whole_;
    }

    bool rename() { return std::rename((name_ + ".part").c_str(), name_.c_str()) == 0; }
    void remove() { ::unlink((name_ + ".part").c_str()); }

  private:
    Part(std::string name, int file) : name_(std::move(name)), file_(file) {}

    void flush() {
        if (file_ >= 0) {
            is_whole_ &= write_all(file_, waiting_.data(), waiting_.size());
            written_ += static_cast<off_t>(waiting_.size());
        }
        waiting_.clear();
    }

    std::string name_, waiting_;
    int file_;
    off_t written_ = 0;
    bool is_whole_ = true;
};

// The folder in which the process began: it is looked up before `main`.
inline const std::string &folder_at_start() {
    static const std::string folder = [] {
        std::unique_ptr<char, decltype(&std::free)> name(::getcwd(nullptr, 0), std::free);
        return std::string(name ? name.get() : ".");
    }();
    return folder;
}
inline const std::string &looked_up_at_start = folder_at_start();

// The two files of a session, under names that nobody else has.
struct Files {
    std::unique_ptr<Part> interaction, proof;

    // SESSION_RECORD as a path from the root.
    static std::string path() {
        const char *given = std::getenv("SESSION_RECORD");
        std::string path = given ? given : "";
        return path.empty() || path[0] == '/' ? path : folder_at_start() + "/" + path;
    }

    static std::string named_by(std::string path) {
        std::string process = std::to_string(::getpid());
        std::size_t at = path.find("%p");
        if (at == std::string::npos) {
            return path + "." + process;
        }
        for (; at != std::string::npos; at = path.find("%p", at + process.size())) {
            path.replace(at, 2, process);
        }
        return path;
    }

    static Files made(const std::string &path) {
        static std::atomic<int> count{0};
        std::string prefix = named_by(path);
        for (;;) {
            std::string name = prefix + "." + std::to_string(++count);
            Files files{Part::made(name + ".icnf"), nullptr};
            if (files.interaction) {
                files.proof = Part::made(name + ".idrup");
                if (files.proof) {
                    enlist(name);
                    return files;
                }
                files.interaction->remove();
            }
        }
    }

    // Names the session in the index of its folder: one line, by one call.
    static void enlist(const std::string &name) {
        std::size_t end = name.rfind('/') + 1;
        std::string index = name.substr(0, end) + "sessions.index", line = name.substr(end) + "\n";
        int file = ::open(index.c_str(), O_WRONLY | O_CREAT | O_APPEND | O_CLOEXEC, 0666);
        if (file < 0 || ::write(file, line.data(), line.size()) != static_cast<ssize_t>(line.size()) || ::close(file) != 0) {
            give_up(index);
        }
    }
};

// The record of one solver. The layer over a solver tells it of each call before the solver has it, and hands over the steps of
// the solver's proof, before each clause and each query and after each answer.
class Record {
  public:
    // A record, if one is wanted.
    static std::unique_ptr<Record> wanted() {
        std::string path = Files::path();
        return path.empty() ? nullptr : std::make_unique<Record>(path);
    }

    explicit Record(const std::string &path) : path_(path), files_(Files::made(path)), forks_(all().forks) {
        files_.interaction->text("p icnf");
        files_.proof->text("p idrup");
        std::lock_guard<std::mutex> held(all().guard);
        all().open.insert(this);
    }

    ~Record() {
        std::lock_guard<std::mutex> held(all().guard);
        all().open.erase(this);
    }

    Record(const Record &) = delete;
    Record &operator=(const Record &) = delete;

    // Whether the literals of a clause are complete.
    bool add(int literal) {
        next();
        if (literal) {
            see(literal);
            clause_.push_back(literal);
        }
        return literal == 0;
    }

    void given() {
        both('i', clause_);
        clause_.clear();
    }

    const Literals &clause() const { return clause_; }

    void assume(int literal) {
        next();
        see(literal);
        assumed_.push_back(literal);
    }

    void asked() {
        next();
        both('q', assumed_);
    }

    // The status, and then the model or the core.
    void answered(int status) {
        status_ = status;
        const char *line = status == 10 ? "s SATISFIABLE" : status == 20 ? "s UNSATISFIABLE" : "s UNKNOWN";
        if (is_written()) {
            files_.interaction->text(line);
            files_.proof->text(line);
        }
    }

    void model(const Literals &literals) { say('m', literals); }

    void core(const std::set<int> &literals) {
        say('u', literals);
        core_ = literals;
    }

    // A value that the application was told, and that it asked for the core.
    void told(int literal) {
        is_written();
        if (status_ == 10 && std::abs(literal) <= top_) {
            values_.insert(literal);
        }
    }

    void told_core() {
        is_written();
        is_core_told_ = true;
    }

    void lemma(const Literals &literals) { say('l', literals); }
    void deletion(const Literals &literals) { say('d', literals); }

    int top() const { return top_; }
    const Literals &assumed() const { return assumed_; }

    // Whether the session is one of this process, and not of the one that it was forked from.
    bool is_own() const { return forks_ == all().forks; }

    // Whether more is to be written. In a forked child that is into files of its own.
    bool is_written() {
        if (!has_ended_ && !is_own()) {
            Files files = Files::made(path_);
            files.interaction->begin_with(*files_.interaction);
            files.proof->begin_with(*files_.proof);
            files_ = std::move(files);
            forks_ = all().forks;
        }
        return !has_ended_;
    }

    // The session has ended: the files get their names, if all was written.
    void end() {
        if (has_ended_ || !is_own()) {
            return;
        }
        next();
        has_ended_ = true;
        bool is_whole = files_.interaction->close();
        is_whole &= files_.proof->close();
        if (!is_whole || !files_.proof->rename() || !files_.interaction->rename()) {
            std::fputs("a session's record could not be written\n", stderr);
        }
    }

  private:
    // The records of the process, which are ended when it exits. They are never destroyed, since solvers may be given up later.
    struct All {
        std::set<Record *> open;
        std::mutex guard;
        // how many forks there were on the way to this process
        unsigned forks = 0;
    };

    static All &all() {
        static All *made = [] {
            std::atexit([] {
                std::lock_guard<std::mutex> held(all().guard);
                for (Record *record : all().open) {
                    record->end();
                }
            });
            pthread_atfork([] { all().guard.lock(); }, [] { all().guard.unlock(); },
                           [] {
                               all().forks++;
                               all().guard.unlock();
                           });
            return new All;
        }();
        return *made;
    }

    // Before whatever comes after an answer: what the application was told of it.
    void next() {
        if (status_ == 10 && !values_.empty()) {
            hear('v', values_);
        }
        if (status_ == 20 && is_core_told_) {
            hear('f', core_);
        }
        if (status_ >= 0) {
            assumed_.clear();
        }
        values_.clear();
        is_core_told_ = false;
        status_ = -1;
    }

    // A line of the interaction, one of the proof, and one of both.
    template <class Some> void hear(char kind, const Some &literals) {
        if (is_written()) {
            files_.interaction->line(kind, literals);
        }
    }

    template <class Some> void say(char kind, const Some &literals) {
        if (is_written()) {
            files_.proof->line(kind, literals);
        }
    }

    template <class Some> void both(char kind, const Some &literals) {
        hear(kind, literals);
        say(kind, literals);
    }

    void see(int literal) { top_ = std::max(top_, std::abs(literal)); }

    std::string path_;
    Files files_;
    unsigned forks_;
    Literals clause_, assumed_;
    std::set<int> values_, core_;
    int top_ = 0, status_ = -1;
    bool is_core_told_ = false, has_ended_ = false;
};

// Steps of a proof that a solver writes as DRAT text into memory.
class Steps {
  public:
    Steps() : file_(open_memstream(&text_, &length_)) {
        if (!file_) {
            std::perror("memory for a proof");
            std::exit(1);
        }
    }
    ~Steps() {
        std::fclose(file_);
        std::free(text_);
    }
    Steps(const Steps &) = delete;
    Steps &operator=(const Steps &) = delete;

    std::FILE *file() { return file_; }

    // Gives each step that is whole, as its literals and whether it deletes, and forgets it.
    template <class Give> void drain(Give give) {
        std::fflush(file_);
        waiting_.append(text_, length_);
        std::rewind(file_);
        std::fflush(file_);
        std::size_t at = 0, end;
        while ((end = waiting_.find('\n', at)) != std::string::npos) {
            step(waiting_.c_str() + at, give);
            at = end + 1;
        }
        waiting_.erase(0, at);
    }

  private:
    // A line is a step unless it is a comment; picosat begins its text with a line `%`.
    template <class Give> static void step(const char *text, Give give) {
        if (*text == 'c' || *text == '%' || *text == '\n') {
            return;
        }
        bool is_deletion = *text == 'd';
        Literals literals;
        char *next = const_cast<char *>(text) + is_deletion;
        while (long literal = std::strtol(next, &next, 10)) {
            literals.push_back(static_cast<int>(literal));
        }
        give(literals, is_deletion);
    }

    char *text_ = nullptr;
    std::size_t length_ = 0;
    std::FILE *file_;
    std::string waiting_;
};

} // namespace sessions
