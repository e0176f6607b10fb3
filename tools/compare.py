"""Holds the definitions of crates/spec, evaluated by the checker, against the reference: BOOKS random and damaged books from SEED, with
assignments, plans and refutations for those that pass, without a cap and under one, and as many old books, books whose plans are drawn as train
graphs, and books whose plans are carried by borders, with the fewest of them. Both sides are asked the same questions, and it prints how many
answers of each kind agreed, or which did not. A question's answer is a row of numbers: 0 and the result, or the refusal's number and detail. The
questions become a table of a small crate beside a copy of crates/spec, and the checker (`rt check`) decides it; a table that it refuses is halved
until the question is found.

Exit status: 0 none differs, 1 some differ, or the checker refused a table's form, 2 wrong usage.
"""
import itertools
import os
import random
import re
import shutil
import subprocess
import sys
import tempfile
from collections import Counter

from . import library, reference
from .carrying_books import carried_plans, carrying_book
from .counts import listed as counted
from .crates import Listed, below
from .features import list_features
from .known import TWO, far, lone, many_free, moving, on_segment, parted
from .passing_books import passing_book
from .random_books import book_to_rewrite, damaged_book, random_book
from .random_inputs import (kept_plans, random_assignments, random_borders, random_cap, random_fewest, random_plans, random_refutations,
                            with_needed_borders)
from .repository import ROOT, read_text, write_text

# the most characters of questions in one table: a declaration has a limit of steps
TABLE_SIZE = 60000

PRELUDE = """
use Rattle.std.specs.Prelude.{◌≡◌, refl, not, ℕ, zero, suc, ◌+◌, ◌*◌, List, [], ◌∷◌, ◌++◌, map, length, take, drop, ℤ, pos, negsuc}
use Rattle.std.proofs.Math.Option.{Option, none, some}

answered : {A : Type 0} → Verdict A → (A → List ℕ) → List ℕ
answered (accepted a) f = 0 ∷ f a
answered (refused n d) f = n ∷ d ∷ []

code : ℤ → ℕ
code (pos n) = 2 * n
code (negsuc n) = 2 * n + 1

rows : List (List ℕ) → List ℕ
rows xs = each xs λ x. length x ∷ x

lists : Bytes → List ℕ
lists s = answered (read_book s) λ b. length b.nodes ∷ length b.segments ∷ length b.joins ∷ each (run_lists b) λ l. length l ∷ rows l

grouped : Bytes → List ℕ → List ℕ
grouped s borders = answered (read_instance s) λ I.
    rows (map (λ t. pick (λ u. together I (λ n. has n borders) t u) (up_to I.segments)) (up_to I.segments))

words : Option ℕ → Bytes → ℕ → List ℕ
words cap s n = answered (write_formula cap s n) λ w. w.variable_count ∷ w.clause_count ∷ w.word_count ∷ map code w.words

text_of : Option ℕ → Bytes → List ℕ
text_of cap s = answered (formula_text cap s 1000000) λ t. t

decoding : Option ℕ → Bytes → Bytes → ℕ → List ℕ
decoding cap s a n = answered (unpack_plan cap s a n) λ p. p

judging : Option ℕ → Bytes → Bytes → List ℕ
judging cap s a = answered (check_assignment cap s a) λ _. []

encoding : Option ℕ → Bytes → Bytes → ℕ → List ℕ
encoding cap s p n = answered (check_plan cap s p n) λ a. a

refuting' : Option ℕ → Bytes → Bytes → ℕ → ℕ → ℕ → ℕ → List ℕ
refuting' cap s r w c v t = answered (check_refutation cap s r (record { words = w; clauses = c; values = v; trail = t })) λ _. []

combining : Bytes → ℕ → Bytes → Bytes → ℕ → ℕ → ℕ → ℕ → List ℕ
combining s n a r w c v t = answered (check_fewest s n a r (record { words = w; clauses = c; values = v; trail = t })) λ _. []

rewriting : Bytes → ℕ → List ℕ
rewriting s n = answered (upgrade_book s n) λ b. b

drawing : Bytes → Bytes → ℕ → List ℕ
drawing s p n = answered (print_graph s p n) λ g. g

line_drawn : Bytes → Bytes → ℕ → List ℕ
line_drawn s p t = answered (print_graph s p 65536) λ g. length g ∷ take 81 (drop (81 * t) g)

listing : Bytes → Bytes → ℕ → List ℕ
listing s p n = answered (list_carriers s p n) λ l. l

measuring : Option ℕ → Bytes → List ℕ
measuring cap s = answered (measure_book cap s) λ z.
    z.intervals ∷ z.nodes ∷ z.free_nodes ∷ z.segments ∷ z.trains ∷ z.variable_count ∷ z.clause_count ∷ z.word_count ∷ z.plan_bytes ∷ []

labelling : Bytes → Bytes → ℕ → List ℕ
labelling s b n = answered (label_sections s b n) λ l. l

showing : RunAsked → List ℕ
showing no_train = 1 ∷ []
showing (no_run n) = 2 ∷ n ∷ []
showing (shown n l ds) = 0 ∷ n ∷ l ∷ ds

running : Bytes → ℕ → ℕ → List ℕ
running s i r = answered (ask_run s i r) showing

meant : Meaning → List ℕ
meant no_variable = 0 ∷ []
meant (border n) = 1 ∷ 0 ∷ 0 ∷ n ∷ 0 ∷ []
meant (run i t r) = 2 ∷ i ∷ t ∷ r ∷ 0 ∷ []
meant (gone i t) = 3 ∷ i ∷ t ∷ 0 ∷ 0 ∷ []
meant (claim i t s) = 4 ∷ i ∷ t ∷ s ∷ 0 ∷ []
meant (counted n j) = 5 ∷ 0 ∷ 0 ∷ n ∷ j ∷ []

meaning' : Option ℕ → Bytes → ℕ → List ℕ
meaning' cap s v = answered (ask_variable cap s v) meant

record Case : Type 0 where
  asked : List ℕ
  answer : List ℕ

failing : ℕ → List Case → List ℕ
failing n [] = []
failing n (c ∷ cs) = only (not (same c.asked c.answer)) (n ∷ []) ++ failing (suc n) cs
"""
HELPERS = """answered code rows lists grouped words text_of decoding judging encoding refuting' combining rewriting drawing line_drawn listing measuring
    labelling showing running meant meaning' failing"""
# the constructors that the tables name, by the module that has them
MAKERS = {"Lists": ["accepted", "refused"],
          "Library": ["no_train", "no_run", "shown", "border", "run", "gone", "claim", "counted", "no_variable"]}
# what the checker says of a table that differs, and where a limit of its own was met
DIFFERS = "error: `agree`: "
AT_LIMIT = re.compile(r"stopped at the step limit|outgrew the memory limit|ran out of (stack|the steps|the memory)")


def names_of_specs(specs):
    """The modules of crates/spec with the names that a table needs to bring in and to unfold."""
    bring, unfold = [], []
    for module in re.findall(r"pub mod (\w+)", read_text(os.path.join(specs, "Lib.antt"))):
        text = read_text(os.path.join(specs, module + ".antt"))
        functions = re.findall(r"^ *unfoldable pub (?!use )(\S+)", text, re.M)
        types = re.findall(r"^pub (?:data|record) (\S+)", text, re.M) + re.findall(r"^abbrev pub (Bytes)", text, re.M)
        bring.append("use Rattle.spec.specs.%s.{%s}" % (module, ", ".join(types + MAKERS.get(module, []) + functions)))
        unfold += functions
    return bring, unfold


def row(numbers):
    return "(" + "".join("%d ∷ " % n for n in numbers) + "[])"


def option(cap):
    """A cap, or none."""
    return "none" if cap is None else "(some %d)" % cap


def answer_of(result):
    """A result of the reference as the row of numbers that the table holds."""
    if result[0] == "refused":
        return list(result[1:])
    return [0] + list(result[1] if len(result) > 1 else [])


def coded(literal):
    return 2 * literal if literal >= 0 else 2 * (-literal - 1) + 1


def listed(data, form=reference.NEW):
    try:
        book = reference.read_book(data, form)
    except reference.Refused as r:
        return [r.number, r.detail]
    out = [0, len(book.nodes), len(book.segments), len(book.joins)]
    for runs in book.runs:
        out.append(len(runs))
        for run in runs:
            out += [len(run)] + list(run)
    return out


def written(data, length, cap):
    result = reference.entry_write_formula(data, length, cap)
    if result[0] == "refused":
        return list(result[1:])
    return [0] + list(result[1:4]) + [coded(x) for x in result[4]]


def grouped(data, borders):
    book = reference.read_book(data)
    flags = [1 if n in borders else 0 for n in range(len(book.nodes))]
    out = [0]
    for section in reference.sections(book, flags):
        out += [len(section)] + sorted(section)
    return out


def book_questions(rng, data):
    """What is asked of every book: its lists, its words and sections."""
    yield "book", "lists %s" % row(data), listed(data)
    if library.book_or_refusal(data)[1] is None:
        book = reference.read_book(data)
        yield from formula_questions(rng, data, book, None)
        for _ in range(2):
            borders = [n for n in range(len(book.nodes)) if rng.random() < 0.4]
            yield "sections", "grouped %s %s" % (row(data), row(borders)), grouped(data, borders)
        yield from library_questions(rng, data, book)


def formula_questions(rng, data, book, cap):
    """A formula's words, with enough room and with one word too few, its text, its sizes, and what its variables stand for."""
    given, count = "%s %s" % (option(cap), row(data)), library.measured(book, cap)[9]
    yield "words", "words %s %d" % (given, 10 ** 6), written(data, 10 ** 6, cap)
    yield "short", "words %s %d" % (given, count - 1), written(data, count - 1, cap)
    yield "text", "text_of %s" % given, [0] + list(reference.dimacs(book, cap))
    yield "sizes", "measuring %s" % given, list(library.measured(book, cap)[1:])
    last, found = library.meanings(book, cap)
    for variable in (0, last, last + 1, rng.randrange(1, last + 1), rng.randint(reference.Variables(book).count, last)):
        yield "variable", "meaning' %s %d" % (given, variable), [0] + list(found.get(variable, (0,)))


def library_questions(rng, data, book):
    """What the library asks beside the entry points, of a book that passes."""
    borders, room = bytes(random_borders(rng, book)), len(book.segments) - (rng.random() < 0.1)
    spoiled = rng.choice((borders, borders, borders[1:], bytes([2]) + borders[1:]))
    (number, detail, _), labels = library.labelled(book, spoiled, room)
    yield "labels", "labelling %s %s %d" % (row(data), row(spoiled), room), [number, detail] if number else [0] + labels
    train, run = rng.randrange(len(book.trains) + 1), rng.choice((0, rng.randrange(30)))
    _, _, missing, runs, place, length, path = library.run_shown(book, train, run)
    yield "run", "running %s %d %d" % (row(data), train, run), [0] + ([1], [2, runs], [0, runs, place] + path[:length])[(1, 2, 0).index(missing)]


def input_questions(rng, data, book, each, cap=None):
    """Assignments, plans and refutations for a book that passes, with room enough or one entry short."""
    given = "%s %s" % (option(cap), row(data))
    for s in list(random_assignments(rng, book, each, cap=cap)):
        n = reference.plan_length(book) - (rng.random() < 0.1)
        yield "unpacking", "decoding %s %s %d" % (given, row(s), n), answer_of(reference.entry_unpack_plan(data, s, n, cap))
        yield "assignment", "judging %s %s" % (given, row(s)), answer_of(reference.entry_check_assignment(data, s, cap))
    for s in list(random_plans(rng, book, each)):
        n = reference.Variables(book, cap).count - (rng.random() < 0.1)
        yield "plan", "encoding %s %s %d" % (given, row(s), n), answer_of(reference.entry_check_plan(data, s, n, cap))
        if cap is None:
            yield graph_question(rng, data, book, s)
            yield carriers_question(rng, data, book, s)
    for s in list(random_refutations(rng, book, each, cap=cap)):
        lent = lent_about(rng, book, cap)
        asked = "refuting' %s %s %d %d %d %d" % (given, row(s), *lent)
        yield "refutation", asked, answer_of(reference.entry_check_refutation(data, s, *lent, cap))


def lent_about(rng, book, cap):
    """Slices for a refutation: long enough, or one of them just as long as the formula needs, or one too short."""
    variables, clauses = reference.formula(book, cap)
    words = reference.word_count(clauses)
    lent = [words + 400, len(clauses) + 60, variables, variables]
    if rng.random() < 0.3:
        which = rng.randrange(4)
        lent[which] = [words + rng.randrange(8), len(clauses) + rng.randrange(3), variables, variables][which] - (rng.random() < 0.3)
    return lent


def fewest_questions(rng, data, book, each):
    """The combined verdict; at n = 0 nothing need be lent."""
    for n, assignment, refutation in random_fewest(rng, book, each):
        lent = lent_about(rng, book, n - 1) if n else [rng.choice((0, 9)) for _ in range(4)]
        asked = "combining %s %d %s %s %d %d %d %d" % (row(data), n, row(assignment), row(refutation), *lent)
        yield "fewest", asked, answer_of(reference.entry_check_fewest(data, n, assignment, refutation, *lent))


def capped_questions(rng, each):
    """A tiny book with borders that are needed: its formula, and what is judged, under each cap about the ends and one in between."""
    data = carrying_book(rng, "tiny")[0]
    book = reference.read_book(data)
    if len(reference.formula(book)[1]) < 500:
        yield from formula_questions(rng, data, book, random_cap(rng, book))
        yield from input_questions(rng, data, book, each, random_cap(rng, book))
        yield from fewest_questions(rng, data, book, 2 * each)


def edge_caps(rng):
    """What random books seldom have: as many nodes of kind 1 as there may be."""
    data, _ = many_free(96)
    book = reference.read_book(data)
    for cap in (rng.randrange(10), 95, 96):
        yield "words", "words %s %s %d" % (option(cap), row(data), 10 ** 6), written(data, 10 ** 6, cap)
        yield "sizes", "measuring %s %s" % (option(cap), row(data)), list(library.measured(book, cap)[1:])


def graph_question(rng, data, book, plan):
    """The train graph of a plan, with room for it or a byte too little."""
    n = reference.page_length(book) - (rng.random() < 0.1)
    return "graph", "drawing %s %s %d" % (row(data), row(plan), n), answer_of(reference.entry_print_graph(data, plan, n))


def carriers_question(rng, data, book, plan):
    """The borders that carry a plan, with room for an entry a kind 1 node or a byte too little."""
    n = max(reference.carriers_length(book) - (rng.random() < 0.1), 0)
    return "carriers", "listing %s %s %d" % (row(data), row(plan), n), answer_of(reference.entry_list_carriers(data, plan, n))


def kept_questions(rng, most):
    """Graphs of plans that keep the rules, of a book with trains that pass each other, and their lists, with the borders that are needed."""
    data = passing_book(rng)
    book, refusal = library.book_or_refusal(data)
    for plan in [] if refusal else itertools.islice(kept_plans(rng, book, 300), most):
        yield graph_question(rng, data, book, plan)
        yield carriers_question(rng, data, book, with_needed_borders(rng, book, plan))


def edge_carriers(rng):
    """What random books seldom have, one of each: the last interval of 256; the last node of 96, and the last two trains of eight."""
    for data, plan in (parted((0, 1, 0), TWO, (0, 1, 0), (0, 1), [(1, 255)], 256), far(1)[:2]):
        yield carriers_question(rng, data, reference.read_book(data), plan)


def line_questions(data, plan, times):
    """Of a page of many intervals, which is too long for a table, the length and some lines."""
    page = reference.entry_print_graph(data, plan, 65536)[1]
    for t in times:
        yield "line", "line_drawn %s %s %d" % (row(data), row(plan), t), [0, len(page), *page[81 * t:81 * t + 81]]


def long_graph(rng, data):
    """Lines of a plan of a book with many intervals."""
    book, refusal = library.book_or_refusal(data)
    for plan in [] if refusal else itertools.islice(kept_plans(rng, book), 1):
        yield from line_questions(data, plan, (rng.randrange(book.T), book.T - 1))


def edge_graphs(rng):
    """What random books seldom have, one of each: a train that moves up to 8, a segment of two digits, intervals of three."""
    for data, plan in (moving(1, rng.random() < 0.5, rng.choice((8, 8, rng.randrange(9)))), on_segment(rng.choice((63, rng.randrange(10, 64))))):
        yield graph_question(rng, data, reference.read_book(data), plan)
    yield from line_questions(*lone(256, 99, 100), (9, 10, 99, 100, 255))


def old_questions(rng, old):
    """An old book, with room for a new one of this length, or around it where it is one."""
    answer = reference.entry_upgrade_book(old, 2 * len(old))
    n = len(answer[1]) - rng.choice((0, 0, 1)) if answer[0] == "accepted" else len(old)
    yield "old book", "rewriting %s %d" % (row(old), n), answer_of(reference.entry_upgrade_book(old, n))


def explodes(data, form=reference.NEW):
    """A book whose run list passes 256 by far: the definition lists all of it, and the checker's steps run out."""
    return listed(data, form)[0] == 11 and data.count(bytes([3, 0, 3, 0])) > 6


def questions(rng, books):
    yield from edge_graphs(rng)
    yield from edge_carriers(rng)
    yield from edge_caps(rng)
    for n in range(books):
        if n % 8 == 3:
            # many intervals: the formula has too many words for a table
            data = random_book(rng, "long")
            yield "book", "lists %s" % row(data), listed(data)
            yield from long_graph(rng, data)
        yield from kept_questions(rng, 4)
        yield from capped_questions(rng, 3)
        for given in carried_plans(rng, "large" if n % 8 == 5 else "small"):
            yield carriers_question(rng, *given)
        old = book_to_rewrite(rng)
        if len(old) <= 900 and not explodes(old, reference.OLD):
            yield from old_questions(rng, old)
        data = random_book(rng, "tiny") if n % 4 == 0 else damaged_book(rng)
        if len(data) > 900 or explodes(data):
            continue
        yield from book_questions(rng, data)
        try:
            book = reference.read_book(data)
        except reference.Refused:
            continue
        if len(reference.formula(book)[1]) < 700:
            yield from input_questions(rng, data, book, 8)
            yield from formula_questions(rng, data, book, random_cap(rng, book))
            yield from input_questions(rng, data, book, 2, random_cap(rng, book))


def tables(asked):
    """The questions, cut into tables of a bounded size."""
    table, size = [], 0
    for q in asked:
        if table and size + len(q[1]) + 8 * len(q[2]) > TABLE_SIZE:
            yield table
            table, size = [], 0
        table.append(q)
        size += len(q[1]) + 8 * len(q[2])
    if table:
        yield table


def module_text(table, names):
    bring, unfold = names
    lines = ["-- questions"] + bring + [PRELUDE, "table : List Case", "table ="]
    lines += ["    record { asked = %s; answer = %s } ∷" % (asked, row(answer)) for _, asked, answer in table]
    lines += ["    []", "", "agree : failing 0 table ≡ []"]
    lines += ["unfolding", "    table " + HELPERS, "    " + " ".join(unfold), "agree = refl", ""]
    return "\n".join(lines)


def check_table(scratch, names, table):
    """What the checker prints of one table, or nothing where both sides agree on all of it."""
    folder = os.path.join(scratch, "crates", "probe")
    write_text(os.path.join(folder, "src", "lib.rt"), "// Questions only.\n#![tactic(auto)]\n")
    write_text(os.path.join(folder, "proofs", "Lib.antt"), "pub mod Questions\n")
    write_text(os.path.join(folder, "proofs", "Questions.antt"), module_text(table, names))
    done = subprocess.run(["rt", "check"], cwd=folder, capture_output=True, text=True, check=False)
    return "" if done.returncode == 0 else done.stdout + done.stderr


def run_table(scratch, names, table):
    """The questions of a table that differ, and those that a limit of the checker left undecided, by halving."""
    text = check_table(scratch, names, table)
    if not text:
        return [], []
    if len(table) > 1:
        half = len(table) // 2
        first, second = run_table(scratch, names, table[:half]), run_table(scratch, names, table[half:])
        return first[0] + second[0], first[1] + second[1]
    if AT_LIMIT.search(text):
        return [], table
    if DIFFERS in text:
        return table, []
    sys.exit("the checker refused the table's form:\n" + text)


def lay_out(scratch):
    """Copies crates/spec and what it rests on, with a crate for the questions above them."""
    listed = Listed(ROOT)
    needed = [*below(listed, "spec"), "spec"]
    lines = [f"{name}: {' '.join(listed.entries[name])}" for name in listed.entries if name in needed]
    for name in needed:
        shutil.copytree(os.path.join(ROOT, "crates", name), os.path.join(scratch, "crates", name))
    write_text(os.path.join(scratch, "crates.txt"), "\n".join(lines) + f"\nprobe: {' '.join(needed)}\n")


def run_tables(asked):
    """Asks the checker all tables; answers what differs and what was left undecided."""
    wrong, undecided = [], []
    with tempfile.TemporaryDirectory(prefix="compare") as scratch:
        lay_out(scratch)
        names = names_of_specs(os.path.join(scratch, "crates", "spec", "specs"))
        for table in tables(asked):
            result = run_table(scratch, names, table)
            wrong += result[0]
            undecided += result[1]
    return wrong, undecided


def arguments(parser):
    parser.add_argument("seed", metavar="SEED", type=int, help="a number from which all books are made")
    parser.add_argument("books", metavar="BOOKS", type=int, help="how many books; 40 take some minutes")


def run(options):
    asked = list(questions(random.Random(options.seed), options.books))
    wrong, undecided = run_tables(asked)
    kinds = Counter(kind for kind, _, _ in asked)
    answers = Counter(answer[0] for _, _, answer in asked)
    lists = Counter(name for kind, _, answer in asked if kind == "carriers" and answer[0] == 0 for name in list_features(answer[1:]))
    print("seed %d, %d books: %d questions" % (options.seed, options.books, len(asked)))
    print("  by kind:", ", ".join("%s %d" % kv for kv in sorted(kinds.items())))
    print("  by answer (0 is accepted):", ", ".join("%d: %d" % kv for kv in sorted(answers.items())))
    print("  lists of carriers:", counted(lists))
    for kind, question, answer in wrong:
        print("DIFFER %s: %s\n    reference: %s" % (kind, question, answer))
    for kind, question, answer in undecided:
        print("  undecided %s of %d characters, reference: %s" % (kind, len(question), answer[:2]))
    print("  %d differ, %d undecided" % (len(wrong), len(undecided)))
    return 1 if wrong else 0
