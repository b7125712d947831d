"""What the page is given, and what it has to say: cases for page.mjs.

    cases.py DATA FOLDER NAME..

FOLDER gets the files that are not in DATA.
"""

import gzip
import json
import sys

FOUR = b"p cnf 2 4\n1 2 0\n1 -2 0\n-1 2 0\n-1 -2 0\n"
# two inputs and their conjunction; an input and the conjunction of it with its negation
GATE = b"aig 3 2 0 1 1\n6\n\2\2"
FALSE = b"aig 2 1 0 1 1\n4\n\1\1"
TEXT = "aag 3 2 0 1 1\n2\n4\n6\n6 4 2\n"
FALSE_TEXT = "aag 2 1 0 1 1\n2\n4\n4 2 3\n"
# the conjunction with an input negated, with two outputs, with a latch, and with names of inputs that differ
OTHER_GATE = b"aig 3 2 0 1 1\n6\n\1\3"
TWO = b"aig 3 2 0 2 1\n6\n2\n\2\2"
LATCH = b"aig 1 0 1 1 0\n2\n2\n"
NAMED = GATE + b"i1 x\n", GATE + b"i1 y\n"
OTHER = b"p cnf 3 3\n1 2 0\n-1 3 0\n-2 -3 0\n"
TOO_LARGE = 2**31 + 1
VERIFIED = "s VERIFIED UNSAT"
SHOWN = "No assignment satisfies"
REFUSED = "No verdict"


def main(data, folder, *names):
    def file(name, text):
        with open(f"{folder}/{name}", "wb") as it:
            it.write(text)
        return f"{folder}/{name}"

    def case(kind, files, verdict, said, **more):
        return {"kind": kind, "files": files, "verdict": verdict, "said": said, **more}

    four, other = file("four.cnf", FOUR), file("other.cnf", OTHER)
    packed = file("four.cnf.gz", gzip.compress(FOUR))
    large = file("large.proof", b"")
    with open(large, "r+b") as it:
        it.truncate(TOO_LARGE)
    board = f"{data}/board6.cnf"
    each = {
        "drat_check": [
            case("drat", [four, file("text.drat", b"1 0\n0\n")], VERIFIED, SHOWN),
            case("drat", [four, file("binary.drat", b"a\x02\x00a\x00")], VERIFIED, SHOWN),
            case("drat", [four, file("wrong.drat", b"d 1 2 0\n1 0\n")], REFUSED, "proof: step 2: clause is neither RUP nor RAT"),
            case("drat", [], VERIFIED, SHOWN, click="example"),
        ],
        "lrat_check": [
            case("lrat", [board, f"{data}/board6.lrat"], VERIFIED, SHOWN),
            case("lrat", [four, file("wrong.lrat", b"5 1 0 1 2 0\n6 0 5 3 0\n")], REFUSED, "proof: line 2: hints end without a conflict"),
            case("lrat", [four, file("short.lrat", b"5 1 0 1 2 0\n")], "s NOT VERIFIED", "shows nothing of the formula"),
            case("lrat", [], VERIFIED, SHOWN, click="example"),
            case("lrat", [], VERIFIED, SHOWN, drop=[["some.lrat", "5 1 0 1 2 0\n6 0 5 3 4 0\n"], ["some.cnf", FOUR.decode()]]),
        ],
        "model_check": [
            case("model", [other, file("right.answer", b"s SATISFIABLE\nv 1 -2 3 0\n")], "s VERIFIED SAT", "Every assignment"),
            case("model", [other, file("wrong.answer", b"s SATISFIABLE\nv 1 -2 -3 0\n")], "s NOT VERIFIED", "clause 2 has no literal of the answer"),
            case("model", [], "s VERIFIED SAT", "Every assignment", click="example"),
            case("model", [], "s VERIFIED SAT", "Every assignment", drop=[["some", "s SATISFIABLE\nv 1 -2 3 0\n"], ["other", OTHER.decode()]]),
        ],
    }
    gate, false = file("gate.aig", GATE), file("false.aig", FALSE)
    equal, nothing = file("equal", b"-5 0\n0\n"), file("nothing", b"")
    named = [file(f"named{i}.aig", text) for i, text in enumerate(NAMED)]
    shown = "Both circuits have the same outputs"
    wanted = [["one.aag", TEXT], ["equal", "-5 0\n0\n"], ["two.aag", TEXT]]
    each["circuit_check"] = [
        case("never", [false, file("never", b"0\n")], "s VERIFIED NEVER", "No input makes an output"),
        case("never", [file("false.aag", FALSE_TEXT.encode()), file("binary", b"a\0")], "s VERIFIED NEVER", "No input makes an output"),
        case("never", [gate, nothing], "s NOT VERIFIED", "shows nothing of the circuit"),
        case("never", [gate, file("wrong", b"1 0\n0\n")], REFUSED, "proof: step 1: clause is neither RUP nor RAT"),
        case("never", [file("cut.aig", GATE[:-1]), nothing], REFUSED, "circuit: gate of variable 3: the text ends too early"),
        case("never", [file("latch.aig", LATCH), nothing], REFUSED, "a circuit with latches, bad state properties or invariant constraints"),
        case("never", [equal, gate], "The files are the wrong way round", "gate.aig begins as a circuit does"),
        case("never", [file("gate.aig.gz", gzip.compress(GATE)), nothing], "gate.aig.gz is packed", "It begins as a file of gzip"),
        case("never", [gate], "Two files are needed", "Choose the circuit"),
        case("never", [], "s VERIFIED NEVER", "No input makes an output", click="example"),
        case("never", [], "s VERIFIED NEVER", "No input makes an output", drop=[["none", "0\n"], ["false", FALSE_TEXT]]),
        case("same", [gate, file("gate2.aig", GATE), equal], "s VERIFIED SAME", shown),
        case("same", [*named, equal], REFUSED, "names: input 0 of the first circuit has no name"),
        case("same", [gate, file("other.aig", OTHER_GATE), nothing], "s NOT VERIFIED", "shows nothing of the circuit"),
        case("same", [gate, false, equal], REFUSED, "the circuits have different numbers of inputs"),
        case("same", [gate, file("two.aig", TWO), equal], REFUSED, "the circuits have different numbers of outputs"),
        case("same", [gate, file("cut.aig", GATE[:-1]), equal], REFUSED, "second circuit: gate of variable 3: the text ends too early"),
        case("same", [gate, gate], "Three files are needed", "Choose both circuits"),
        case("same", [], "s VERIFIED SAME", shown, click="example"),
        case("same", [], "s VERIFIED SAME", shown, drop=wanted),
    ]
    names = [name for name in names if name in each]
    kind = {"drat_check": "drat", "lrat_check": "lrat", "model_check": "model", "circuit_check": "never"}[names[0]]
    subject = "circuit" if kind == "never" else "formula"
    second = file("second", b"1 0\n")
    made = [it for name in names for it in each[name]]
    made += [
        case(kind, [second, four], "The files are the wrong way round", f"four.cnf begins as a {subject} does"),
        case(kind, [packed, second], "four.cnf.gz is packed", "It begins as a file of gzip"),
        case(kind, [four, large], "large.proof is too large for a page", "It has 2.1 GB"),
        case(kind, [four], "Two files are needed", f"Choose the {subject}"),
    ]
    json.dump(made, sys.stdout)


main(*sys.argv[1:])
