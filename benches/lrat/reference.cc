// Checks lines of LRAT text after a DIMACS formula: reference CNF LRAT. Groups of RAT lines it knows if it is made with -DGROUPS=1.
// The work that is measured against: the text is read, clauses are kept in a vector by their ids, hints are walked one after the other.
#include <cstdint>
#include <cstdio>
#include <cstdlib>
#include <vector>

#ifndef GROUPS
#define GROUPS 0
#endif

using Clause = std::vector<int>;

[[noreturn]] static void stop(const char *why, long line) {
  fprintf(stderr, "line %ld: %s\n", line, why);
  exit(1);
}

// A text, of which one byte is held.
struct Text {
  FILE *file;
  size_t at = 0, end = 0;
  long line = 1;
  int byte;
  unsigned char bytes[32768];

  explicit Text(const char *name) : file(fopen(name, "rb")) {
    if (!file) {
      fprintf(stderr, "cannot open %s\n", name);
      exit(2);
    }
    next();
  }

  void next() {
    if (at == end) {
      at = 0;
      end = fread(bytes, 1, sizeof bytes, file);
    }
    byte = end ? bytes[at++] : EOF;
  }

  // The first byte that is no blank and no end of a line.
  int skip() {
    for (; byte == ' ' || byte == '\t' || byte == '\r' || byte == '\n'; next()) line += byte == '\n';
    return byte;
  }

  void skip_line() {
    while (byte != '\n' && byte != EOF) next();
  }

  int64_t number() {
    bool negative = skip() == '-';
    if (negative) next();
    int64_t value = 0;
    if (byte < '0' || byte > '9') stop("malformed line", line);
    for (; byte >= '0' && byte <= '9'; next()) {
      value = value * 10 + (byte - '0');
      if (value >> 58) stop("number too large", line);
    }
    return negative ? -value : value;
  }
};

struct Checker {
  std::vector<Clause> clauses{1};
  std::vector<char> stored{0}, is_true;
  std::vector<int> trail;
  std::vector<uint32_t> uses; // where groups are known: how often a literal stands in clauses
  std::vector<uint32_t> met{0}; // and the line that met the group of an id last
  uint32_t line = 0;

  static int code(int64_t number) {
    return number > 0 ? 2 * (number - 1) : 2 * (-number - 1) + 1;
  }

  void read(Text &text, Clause &clause) {
    clause.clear();
    while (int64_t number = text.number()) {
      int lit = code(number);
      if (is_true.size() <= size_t(lit | 1)) is_true.resize((lit | 1) + 1), uses.resize((lit | 1) + 1);
      clause.push_back(lit);
    }
  }

  void store(size_t id, const Clause &clause) {
    if (clauses.size() <= id) clauses.resize(id + 1), stored.resize(id + 1), met.resize(id + 1);
    clauses[id] = clause;
    stored[id] = 1;
    if (GROUPS) for (int lit : clause) uses[lit]++;
  }

  void set(int lit) {
    if (!is_true[lit]) is_true[lit] = 1, trail.push_back(lit);
  }

  // Whether the clause of the hint is falsified. If not, its last literal becomes true.
  bool follow(size_t id, long line) {
    if (id >= clauses.size() || !stored[id]) stop("unknown id", line);
    int last = -1;
    for (int lit : clauses[id]) {
      if (is_true[lit ^ 1]) continue;
      if (last >= 0 && last != lit) stop("not unit", line);
      last = lit;
    }
    if (last >= 0) set(last);
    return last < 0;
  }

  void add(Text &text, size_t id, Clause &clause) {
    if (id < stored.size() && stored[id]) stop("id is taken", text.line);
    read(text, clause);
    for (int lit : clause) set(lit ^ 1);
    bool conflict = false;
    while (int64_t hint = text.number()) {
      if (GROUPS && hint < 0 && !conflict) {
        conflict = resolve(text, clause, hint);
        break;
      }
      if (!conflict) conflict = follow(hint, text.line);
    }
    if (!conflict) stop("no conflict", text.line);
    for (int lit : trail) is_true[lit] = 0;
    trail.clear();
    store(id, clause);
  }

  // Whether groups, of which this hint begins the first, meet all clauses that have the negation of the first literal.
  bool resolve(Text &text, const Clause &clause, int64_t hint) {
    size_t before = trail.size(), count = 0;
    line++;
    while (hint) {
      size_t id = -hint, here = 0;
      bool conflict = clause.empty() || id >= clauses.size() || !stored[id] || met[id] == line;
      if (!conflict) {
        for (int lit : clauses[id]) here += lit == (clause[0] ^ 1);
        conflict = !here;
      }
      if (!conflict) {
        met[id] = line, count += here;
        for (int lit : clauses[id]) conflict |= lit != (clause[0] ^ 1) && is_true[lit];
        for (int lit : clauses[id]) if (!conflict && lit != (clause[0] ^ 1)) set(lit ^ 1);
      }
      for (hint = text.number(); hint > 0; hint = text.number()) conflict = conflict || follow(hint, text.line);
      if (!conflict) stop("a group fails", text.line);
      for (; trail.size() > before; trail.pop_back()) is_true[trail.back()] = 0;
    }
    if (clause.empty() || count != uses[clause[0] ^ 1]) stop("a group is missing", text.line);
    return true;
  }

  void remove(Text &text) {
    while (size_t id = text.number()) {
      if (id >= stored.size() || !stored[id]) continue;
      if (GROUPS) for (int lit : clauses[id]) uses[lit]--;
      stored[id] = 0, Clause().swap(clauses[id]);
    }
  }
};

int main(int count, char **names) {
  if (count != 3) return 2;
  Checker checker;
  Clause clause;
  static Text cnf(names[1]), proof(names[2]);
  for (size_t id = 1; cnf.skip() != EOF;) {
    if (cnf.byte == 'c' || cnf.byte == 'p') {
      cnf.skip_line();
      continue;
    }
    checker.read(cnf, clause);
    checker.store(id++, clause);
  }
  while (proof.skip() != EOF) {
    size_t id = proof.number();
    if (proof.skip() == 'd') {
      proof.next();
      checker.remove(proof);
      continue;
    }
    checker.add(proof, id, clause);
    if (clause.empty()) {
      puts("s VERIFIED UNSAT");
      return 0;
    }
  }
  puts("s NOT VERIFIED");
  return 3;
}
