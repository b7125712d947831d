#!/usr/bin/env python3
"""Writes docs/definitions.v: the definitions that `s VERIFIED UNSAT` reaches, as docs/DEFINITIONS.md has them, for Coq.

    definitions_coq.py                 writes the file
    definitions_coq.py --check         says whether the file is the one that would be written, and writes nothing
    definitions_coq.py --rows N SEED   prints N theorems: what docs/definitions.py says of N random texts. Coq has to prove each by
                                       computing

Nothing is proved about the programs there. It is a second reading of the definitions: a name, a type or a case that means nothing, or
a text that is read otherwise, is found by Coq. Each definition is translated word by word. `tests/definitions.sh` has Coq read all.
"""

import os
import random
import re
import sys

import definitions
import definitions_page as page

FILE = "docs/definitions.v"
HEAD = """(* What `s VERIFIED UNSAT` means, for Coq: docs/definitions_coq.py makes this file of the definitions of docs/DEFINITIONS.md. *)
From Coq Require Import NArith List Bool String Ascii.
Import ListNotations.
Open Scope N_scope.
Open Scope list_scope.
Open Scope bool_scope.

(* ---- What they use of Rattle's library *)

Definition nat_lt (m n : N) : bool := m <? n.
Definition nat_le (m n : N) : bool := m <=? n.
Definition list_any {A : Type} (p : A -> bool) (xs : list A) : bool := existsb p xs.
Definition list_all {A : Type} (p : A -> bool) (xs : list A) : bool := forallb p xs.

(* a list split at the elements that pass the test *)
Fixpoint slice_split {A : Type} (p : A -> bool) (xs : list A) : list (list A) :=
  match xs with
  | [] => [[]]
  | x :: ys =>
      match p x, slice_split p ys with
      | true, pieces => [] :: pieces
      | false, [] => [[x]]
      | false, piece :: pieces => (x :: piece) :: pieces
      end
  end.

Fixpoint bytes_eq (xs ys : list N) : bool :=
  match xs, ys with
  | [], [] => true
  | x :: xs, y :: ys => (x =? y) && bytes_eq xs ys
  | _, _ => false
  end.

(* the bytes of a word *)
Fixpoint codes (s : string) : list N :=
  match s with
  | EmptyString => []
  | String c s => N_of_ascii c :: codes s
  end.

(* ---- Enums of the reader's code. A literal is its code *)

{enums}
(* ---- The definitions *)
"""
LEXEME = re.compile(r'"[^"]*"|\w+(?:\.\w+)*|\+\+|==|&&|\|\||\[\]|\S')
WORDS = {
    "ℕ": "N", "Bool": "bool", "List": "list", "Option": "option", "→": "->", "∷": "::", "==": "=?", "%": "mod", "λ": "fun", "≡": "=", "×": "*",
    "not": "negb", "min": "N.min",
}  # fmt: skip
# What Coq takes for its own where a pattern has it.
TAKEN = ("left", "right", "at", "end", "in", "as", "with", "return")
ROWS = """Require Import definitions.
From Coq Require Import NArith List String.
Import ListNotations.
Open Scope N_scope.
Open Scope list_scope.

(* `1 0` and `-1 0` are refuted, `1 0` alone is not *)
Theorem opposite_units_are_refuted : IsRefuted [49; 32; 48; 10; 45; 49; 32; 48; 10].
Proof. exists [[0]; [1]]. split; [ | intro a; vm_compute; destruct (a 0)]; reflexivity. Qed.
Theorem a_unit_is_not_refuted : ~ IsRefuted [49; 32; 48; 10].
Proof. intros [clauses [read all]]. vm_compute in read. injection read as <-. discriminate (all (fun _ => true)). Qed.
"""


def word(lexeme):
    """A word as Coq has it."""
    if lexeme in TAKEN:
        return f"{lexeme}_"
    if re.fullmatch(r"[a-z]\w*\.[01]", lexeme):
        return f"({'fst' if lexeme[-1] == '0' else 'snd'} {lexeme[:-2]})"
    if lexeme.startswith('"'):
        return f"{lexeme}%string"
    return WORDS.get(lexeme, lexeme.rpartition(".")[2] if lexeme[0].isalpha() else lexeme)


def words(lexemes):
    """An expression or a type. The dot after a function's parameters is the only one that stands alone."""
    said = " ".join("=>" if it == "." else word(it) for it in lexemes)
    return re.sub(r"\( | (?=[),])", lambda it: it[0].strip(), said)


def split(lexemes, mark):
    """What stands between the marks that are in no brackets."""
    parts, depth = [[]], 0
    for it in lexemes:
        depth += (it == "(") - (it == ")")
        if it == mark and depth == 0:
            parts.append([])
        else:
            parts[-1].append(it)
    return parts


def atoms(lexemes):
    """The arguments of an application."""
    found, depth = [], 0
    for it in lexemes:
        if depth == 0:
            found.append([])
        depth += (it == "(") - (it == ")")
        found[-1].append(it)
    return found


def is_whole(lexemes):
    """Whether brackets stand around all of it."""
    return len(lexemes) > 1 and len(atoms(lexemes)) == 1


def claim(lexemes):
    """A claim: `(x : A) × P` and `(x : A) → P` bind, `P × Q` is both, `x ≡ y` is an equation."""
    for mark, binder in (("→", "forall"), ("×", "exists")):
        first, *rest = split(lexemes, mark)
        if rest and is_whole(first) and len(split(first[1:-1], ":")) == 2:
            after = [it for part in rest for it in (mark, *part)][1:]
            return f"{binder} {words(first[1:-1])}, {claim(after)}"
    parts = split(lexemes, "×")
    if len(parts) > 1:
        return " /\\ ".join(f"({claim(it)})" for it in parts)
    return claim(lexemes[1:-1]) if is_whole(lexemes) and "≡" in lexemes else words(lexemes)


def equation(lexemes):
    """The patterns and the body of an equation."""
    left, *right = split(lexemes, "=")
    return atoms(left[1:]), [it for part in right for it in ("=", *part)][1:]


def function(name, types, equations):
    """A definition by equations, as one `match`."""
    types = [words(it) for it in types]
    arity = len(equations[0][0])
    ends = " -> ".join(types[arity:])
    calls = any(name in body for _, body in equations)
    head = "Fixpoint" if calls else "Definition"
    if len(equations) == 1 and all(len(it) == 1 for it in equations[0][0]):
        names = [word(it[0]) for it in equations[0][0]]
        body = equations[0][1]
        said = claim(body) if "≡" in body else words(body)
        said = f"({said})%type" if ends == "Type" else said
        ends = "Prop" if "≡" in body else ends
        match = said
    else:
        names = [f"x{at}" for at in range(arity)]
        cases = [f"  | {', '.join(map(words, patterns))} => {words(body)}\n" for patterns, body in equations]
        match = f"match {', '.join(names)} with\n{''.join(cases)}  end"
    given = "".join(f" ({one} : {of})" for one, of in zip(names, types))
    return f"{head} {name}{given} : {ends} :=\n  {match}.\n"


def inductive(name, lines):
    variants = [LEXEME.findall(line) for line in lines]
    return f"Inductive {name} : Type :=" + "".join(f"\n  | {it[0]} : {words(it[2:])}" for it in variants) + ".\n"


def definition(name, text):
    """A definition, with its comment."""
    lines = text.splitlines()
    comments = [line[3:] for line in lines if line.startswith("--")]
    code = [line for line in lines if not line.startswith("--")]
    if code[0].startswith("pub data"):
        made = inductive(name, code[1:])
    else:
        joined = re.sub(r"\n +", " ", "\n".join(code)).split("\n")
        types = split(LEXEME.findall(joined[0].partition(" : ")[2].replace("Type 0", "Type")), "→")
        made = function(name, types, [equation(LEXEME.findall(line)) for line in joined[1:]])
    return f"\n(* {' '.join(comments)} *)\n{made}"


def enum(path, name):
    """An enum of the reader's code."""
    body = re.search(rf"enum {name} \{{\n(.*?)\n\}}", page.text_of(path), re.DOTALL)[1]
    variants = [(it, [fields.strip("()").replace("Lit", "N")] if fields else []) for it, fields in page.VARIANT.findall(body)]
    return f"Inductive {name} : Type :=" + "".join(f"\n  | {it} : {' -> '.join([*of, name])}" for it, of in variants) + ".\n\n"


def in_order(found, texts):
    """The definitions, each after those that it names."""
    order, names = [], {name for _, name in found}

    def put(name):
        if name in order:
            return
        code = "\n".join(line for line in texts[name].splitlines() if not line.startswith("--"))
        made = set(CONSTRUCTORS.get(it, it) for it in re.findall(r"\w+", code))
        for below in sorted((made & names) - {name}):
            put(below)
        order.append(name)

    for _, name in found:
        put(name)
    return order


CONSTRUCTORS = {}


def whole():
    """The file."""
    files = {}
    found = page.reached(files, page.FIRST)
    texts = {name: files[path].definitions[name] for path, name in found}
    for path, _ in found:
        CONSTRUCTORS.update(files[path].constructors)
    enums = enum("crates/sat_formula/src/fault.rt", "DimacsKind") + enum("crates/sat_formula/src/word.rt", "Token")
    return HEAD.replace("{enums}", enums) + "".join(definition(name, texts[name]) for name in in_order(found, texts))


def row(number, text):
    """A theorem: how the text is read by the definitions in Python."""
    clauses, ending = definitions.outcome_of(text)
    said = "; ".join(f"[{'; '.join(map(str, clause))}]" for clause in clauses)
    end = "Ended" if ending == definitions.ENDED else f"Faulty {ending[0]} {ending[1]}"
    given = f"[{'; '.join(map(str, text))}]"
    return f"Theorem row_{number} : outcome_of {given} = ([{said}], {end}).\nProof. vm_compute. reflexivity. Qed.\n"


def main(arguments):
    if len(arguments) == 3 and arguments[0] == "--rows":
        draw = random.Random(int(arguments[2]))
        print(ROWS + "".join(row(number, definitions.random_text(draw)) for number in range(int(arguments[1]))), end="")
        return 0
    if arguments not in ([], ["--check"]):
        sys.stderr.write(__doc__)
        return 2
    made = whole()
    if arguments:
        if not os.path.exists(FILE) or page.text_of(FILE) != made:
            print(f"{FILE} is out of date: run docs/definitions_coq.py")
            return 1
        return 0
    with open(FILE, "w", encoding="utf-8") as file:
        file.write(made)
    return 0


if __name__ == "__main__":
    sys.exit(main(sys.argv[1:]))
