"""Decides a formula in DIMACS CNF and shows it: prints "satisfiable" and writes an assignment, one byte 0 or 1 a variable, or prints
"unsatisfiable" and writes a refutation in document 01's frames of kind 20. By default the solver script tools/solve.py decides, which knows
nothing but the DIMACS text and the step rule; --with has one of Debian's solvers do it. The hints of its proof are found by tools/drat.rs,
which is built as target/tools/drat where rustc is there. minisat writes no proof: then "unsatisfiable, without a proof" is printed, and nothing
is written.

Exit status: 0 answered; 1 a step is longer than a frame holds, or the converter refuses the proof; 2 a file or its text is wrong, the solver
gives no answer, or wrong usage.
"""
import os
import subprocess
import sys
import tempfile

from . import solve
from .repository import FOR_TOOLS, TOOLS, read_text
from .solve import Failure

SOLVERS = ("cadical", "minisat", "picosat", "cryptominisat5")
SATISFIABLE = 10
UNSATISFIABLE = 20

# ---- the solvers


def command(solver, formula, extra):
    """How to call a solver. It writes its proof to the extra file, but minisat, which writes its model there."""
    return {
        "cadical": ["cadical", "-q", "--no-binary", formula, extra],
        "minisat": ["minisat", "-verb=0", formula, extra],
        "picosat": ["picosat", "-R", extra, formula],
        # added variables are not the formula's, and no step can name them
        "cryptominisat5": ["cryptominisat5", "--verb", "0", "--bva", "0", formula, extra],
    }[solver]


def start(words):
    try:
        return subprocess.run(words, stdin=subprocess.DEVNULL, capture_output=True, text=True, check=False)
    except OSError as error:
        raise Failure(2, str(error)) from None


def ask(solver, formula, extra):
    """Whether the formula is satisfiable, and what the solver printed."""
    result = start(command(solver, formula, extra))
    if result.returncode not in (SATISFIABLE, UNSATISFIABLE):
        said = (result.stderr or result.stdout).strip()
        raise Failure(2, f"{solver} gives no answer (status {result.returncode}): {said}")
    return result.returncode == SATISFIABLE, result.stdout


# ---- a model


def model_words(solver, printed, extra):
    if solver == "minisat":
        return read_text(extra).removeprefix("SAT").split()
    return [word for line in printed.split("\n") if line.startswith("v") for word in line[1:].split()]


def assignment(variables, words):
    """A byte a variable; one that the solver leaves out is free, and 0."""
    data = bytearray(variables)
    for literal in map(int, words):
        if literal > 0:
            data[literal - 1] = 1
    return data


# ---- a proof


def drat_line(line):
    """A line of DRAT for a line of cryptominisat5's FRAT: "a NUMBER LITERALS 0 l HINTS 0" or "d NUMBER LITERALS 0".

    The formula's clauses ("o") and those left at the end ("f") are no part of DRAT."""
    words = line.split()
    if not words or words[0] not in ("a", "d"):
        return ""
    clause = words[2 : words.index("0", 2) + 1]
    return " ".join(["d", *clause] if words[0] == "d" else clause) + "\n"


def plain_proof(solver, proof):
    """The file with the proof as DRAT. cadical's is that; picosat's too, but for a first line with %, which drat passes over."""
    if solver != "cryptominisat5":
        return proof
    plain = proof + ".drat"
    with open(proof, encoding="ascii") as source, open(plain, "w", encoding="ascii") as target:
        target.writelines(map(drat_line, source))
    return plain


def convert(drat, formula, proof, out):
    result = start([drat, formula, proof, out])
    if result.returncode != 0:
        raise Failure(2 if result.returncode == 2 else 1, result.stderr.strip() or f"{drat}: status {result.returncode}")


# ---- the answer


def write(name, data):
    try:
        with open(name, "wb") as file:
            file.write(data)
    except OSError as error:
        raise Failure(2, str(error)) from None


def answer(solver, formula, out, drat):
    # the text is checked here, since solvers differ in what they let pass
    variables, _ = solve.read_formula(formula)
    with tempfile.TemporaryDirectory() as directory:
        extra = os.path.join(directory, "extra")
        satisfiable, printed = ask(solver, formula, extra)
        if satisfiable:
            write(out, assignment(variables, model_words(solver, printed, extra)))
            return "satisfiable"
        if solver == "minisat":
            return "unsatisfiable, without a proof"
        convert(drat, formula, plain_proof(solver, extra), out)
        return "unsatisfiable"


def build_converter(drat):
    """Builds the converter of proofs, unless it is there and no older than its source."""
    source = os.path.join(TOOLS, "drat.rs")
    if os.path.exists(drat) and os.path.getmtime(drat) >= os.path.getmtime(source):
        return
    os.makedirs(os.path.dirname(os.path.abspath(drat)), exist_ok=True)
    result = start(["rustc", "-O", "--edition", "2021", source, "-o", drat])
    if result.returncode:
        raise Failure(2, result.stderr.strip())


def arguments(parser):
    parser.add_argument("formula", metavar="FORMULA", help="a file of DIMACS text")
    parser.add_argument("out", metavar="OUT", help="the file for the assignment or the refutation")
    parser.add_argument("--with", dest="solver", choices=SOLVERS, help="one of Debian's solvers in place of the script")
    parser.add_argument("--drat", metavar="PROGRAM", help="the converter of proofs, already built; by default target/tools/drat, from tools/drat.rs")


def answer_with(options):
    """The answer of one of Debian's solvers."""
    drat = options.drat or os.path.join(FOR_TOOLS, "drat")
    if options.solver != "minisat" and not options.drat:
        build_converter(drat)
    # whole paths, so that no name is taken for an option
    print(answer(options.solver, os.path.abspath(options.formula), options.out, drat))


def run(options):
    try:
        if options.solver is None:
            solve.answer(options.formula, options.out)
        else:
            answer_with(options)
    except Failure as failure:
        status, text = failure.args
        print(f"tools solve: {text}", file=sys.stderr)
        return status
    return 0
