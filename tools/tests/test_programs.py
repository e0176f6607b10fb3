"""The solver script, and what tries the built program: with a program that answers as the reference does, and with faulty ones."""
import importlib.util
import itertools
import os
import random
import sys
import tempfile
import types
from unittest import mock

from .. import ask, example, fresh, generated, known, reference, samples, solve, solver, try_programs
from ..books import MAY_BE_SET
from ..carrying_books import carried_plans, carrying_book
from ..command import main
from ..inputs import read_steps
from ..program import whole_number
from ..random_inputs import random_fewest, with_all_borders, with_needed_borders
from ..repository import EXAMPLES, ROOT, Stop, read_bytes, write_bytes, write_text
from .stand_in import ALWAYS_ACCEPTED, CABINET, InFolder, printed, script


def dimacs(variables, clauses):
    return f"p cnf {variables} {len(clauses)}\n" + "".join(" ".join(map(str, (*clause, 0))) + "\n" for clause in clauses)


def satisfied(assignment, clauses):
    return all(any(assignment[abs(x) - 1] == (x > 0) for x in clause) for clause in clauses)


def refutes(variables, clauses, data):
    """Whether the steps follow the step rule, and the last alone is empty."""
    known_clauses, steps = list(clauses), read_steps(data)
    for literals, hints in steps:
        step = reference.Step(literals, hints)
        if any(not 1 <= h <= len(known_clauses) for h in hints) or not reference.proves(known_clauses, step):
            return False
        reference.check_literals(variables, step, 1)
        known_clauses.append(literals)
    return [bool(literals) for literals, _ in steps] == [True] * (len(steps) - 1) + [False]


class SolverScript(InFolder):
    def answer(self, text):
        write_text(self.path("formula"), text)
        with printed() as out:
            status = solver.run(types.SimpleNamespace(formula=self.path("formula"), out=self.path("out"), solver=None, drat=None))
        return status, out.getvalue().strip()

    def test_brute_force(self):
        rng, decided = random.Random(3), {True: 0, False: 0}
        for _ in range(120):
            variables = rng.randint(1, 6)
            clauses = [[rng.choice((1, -1)) * rng.randint(1, variables) for _ in range(rng.choice((1, 2, 2, 3)))]
                       for _ in range(rng.randint(1, 3 * variables))]
            some = any(satisfied(choice, clauses) for choice in itertools.product((0, 1), repeat=variables))
            decided[some] += 1
            self.assertEqual(self.answer(dimacs(variables, clauses)), (0, "satisfiable" if some else "unsatisfiable"))
            shown = read_bytes(self.path("out"))
            self.assertTrue(satisfied(shown, clauses) if some else refutes(variables, [sorted(set(c)) for c in clauses], shown))
        self.assertGreater(min(decided.values()), 20)

    def test_wrong_text(self):
        for text in ("", "p cnf 1\n", "p cnf 1 1\n2 0\n", "p cnf 1 1\n1\n", "p cnf 1 2\n1 0\n", "p cnf 1 1\n+1 0\n"):
            self.assertEqual(self.answer(text)[0], 2, text)

    def test_it_imports_nothing_of_the_package(self):
        with open(solve.__file__, encoding="utf-8") as file:
            text = file.read()
        self.assertNotIn("from .", text)
        self.assertNotIn("tools.", text)

    def test_a_solver_that_is_not_there(self):
        write_text(self.path("formula"), dimacs(1, [[1]]))
        with mock.patch.dict(os.environ, PATH=self.folder), printed() as out:
            options = types.SimpleNamespace(formula=self.path("formula"), out=self.path("out"), solver="minisat", drat=None)
            self.assertEqual(solver.run(options), 2)
        self.assertIn("minisat", out.getvalue())

    def test_a_solver_s_model(self):
        """minisat played by a script that writes a model."""
        script(self.path("bin", "minisat"), "import sys\nopen(sys.argv[-1], 'w').write('SAT\\n-1 2 0\\n')\nsys.exit(10)\n")
        self.with_programs()
        write_text(self.path("formula"), dimacs(3, [[2]]))
        options = types.SimpleNamespace(formula=self.path("formula"), out=self.path("out"), solver="minisat", drat=None)
        with printed() as out:
            self.assertEqual(solver.run(options), 0)
        self.assertEqual((out.getvalue(), read_bytes(self.path("out"))), ("satisfiable\n", b"\0\1\0"))

    def test_frat_lines(self):
        self.assertEqual(solver.drat_line("a 7 -1 2 0 l 3 4 0\n"), "-1 2 0\n")
        self.assertEqual(solver.drat_line("d 7 1 0\n"), "d 1 0\n")
        self.assertEqual(solver.drat_line("o 7 1 0\n"), "")


class Reference(InFolder):
    def test_ask(self):
        for name, data in (("book", known.BOOK_L), ("assignment", known.ASSIGNMENT_L)):
            write_bytes(self.path(name), data)
        names = [self.path(name) for name in ("book", "assignment", "plan")]
        self.assertEqual(ask.check("check_assignment", names), b"accepted\n")
        self.assertEqual(read_bytes(self.path("plan")), known.PLAN_L)

    def test_ask_of_an_old_book(self):
        write_bytes(self.path("old"), known.OLD_L)
        names = [self.path(name) for name in ("old", "new")]
        self.assertEqual(ask.check("upgrade_book", names), b"accepted\n")
        self.assertEqual(read_bytes(self.path("new")), known.BOOK_L)
        self.assertEqual(ask.check("upgrade_book", names[::-1]), b"4 0\n")
        self.assertEqual(read_bytes(self.path("old")), known.OLD_L)

    def test_ask_for_a_graph(self):
        names = [self.path(name) for name in ("book", "plan")]
        for plan, said in ((known.PLAN_GRAPH, known.PAGE_GRAPH), (known.PLAN_GRAPH[:-1], b"15 0\n")):
            for name, data in zip(names, (known.BOOK_GRAPH, plan)):
                write_bytes(name, data)
            self.assertEqual(ask.said_by("print_graph", names), said)

    def test_ask_for_a_list(self):
        names = [self.path(name) for name in ("book", "plan", "list")]
        for name, data in zip(names, (known.BOOK_CARRIED, known.PLAN_CARRIED)):
            write_bytes(name, data)
        self.assertEqual((ask.said_by("list_carriers", names), read_bytes(names[2])), (b"accepted\n", known.LIST_CARRIED))
        write_bytes(names[1], known.PLAN_MEETING)
        self.assertEqual((ask.said_by("list_carriers", names), read_bytes(names[2])), (b"16 6\n", known.LIST_CARRIED))
        for name, data in zip(names, (known.BOOK_L, known.PLAN_L)):
            write_bytes(name, data)
        self.assertEqual((ask.said_by("list_carriers", names), read_bytes(names[2])), (b"accepted\n", b""))

    def test_documents_examples(self):
        samples.check_figures()
        samples.check_shapes()
        samples.check_books_l_and_m()

    def test_old_books(self):
        samples.check_lengths()
        samples.check_rewritten_l_and_m()
        with printed() as out:
            samples.check_rewriting(random.Random(1), 300)
        self.assertIn("accepted: ", out.getvalue())

    def test_graphs(self):
        samples.check_pages()
        with printed() as out:
            samples.check_graphs(random.Random(1), 40)
        self.assertIn("same page: ", out.getvalue())

    def test_wrong_graphs_are_told(self):
        """Front for rear, a blank too few, one digit for two."""
        right = reference.run_cell
        for wrong in (lambda train, run: right(train, run[::-1]), lambda train, run: right(train, run)[:-1],
                      lambda train, run: right(train, run).replace("-0", "- "), lambda train, run: right(train, run)[:-2] + "0 "):
            with self.subTest(), mock.patch.object(reference, "run_cell", wrong), printed(), self.assertRaises((AssertionError, AttributeError)):
                samples.check_graphs(random.Random(1), 40)


    def test_lists(self):
        samples.check_lists()
        with printed() as out:
            samples.check_carriers(random.Random(1), 40)
        self.assertIn("several pairs: ", out.getvalue())

    def test_wrong_lists_are_told(self):
        """Borders of kind 2 listed too, that of node 0 never; all borders cleared; the last meeting, the last pair, the higher train first, interval
        0 always; falling node numbers; no room asked for."""
        may, meeting, carriers = reference.may_be_cleared, reference.first_meeting, reference.carriers

        def pairs(book, borders, moves):
            together = reference.sections(book, borders)
            return [(t, *pair) for t in range(book.T) for pair in reference.meeting_pairs(book, together, moves, t)]

        for name, wrong in (
                ("may_be_cleared", lambda book, borders, node: borders[node] == 1), ("may_be_cleared", lambda *given: given[2] and may(*given)),
                ("cleared", lambda borders, node: [0] * len(borders)), ("first_meeting", lambda *plan: pairs(*plan)[-1]),
                ("first_meeting", lambda *plan: max(met for met in pairs(*plan) if met[0] == meeting(*plan)[0])),
                ("first_meeting", lambda *plan: (meeting(*plan)[0], *meeting(*plan)[:0:-1])),
                ("first_meeting", lambda *plan: (0, *meeting(*plan)[1:])), ("carriers", lambda *plan: carriers(*plan)[::-1]),
                ("carriers_length", lambda book: 0)):
            with self.subTest(name=name), mock.patch.object(reference, name, wrong), printed(), self.assertRaises(AssertionError):
                samples.check_carriers(random.Random(1), 40)

    def test_caps(self):
        samples.check_counters()
        samples.check_combined()
        samples.check_capped_plans()
        samples.check_meanings(random.Random(1), 10)
        with printed() as out:
            samples.check_minima(random.Random(1), 60)
        self.assertIn("fewest 2: ", out.getvalue())

    def test_wrong_caps_are_told(self):
        """One border too many allowed, or one too few; the first node not counted, or those of kind 2 too; a clause left out, or a literal's sign changed;
        another number than the count asked for."""
        nodes, clauses, within, begin = reference.kind_1_nodes, reference.cap_clauses, reference.within_cap, reference.begin_clause
        for name, wrong in (
                ("within_cap", lambda book, borders, cap: cap is None or within(book, borders, cap + 1)),
                ("within_cap", lambda book, borders, cap: cap is None or within(book, borders, cap - 1)),
                ("kind_1_nodes", lambda book: nodes(book)[1:]),
                ("kind_1_nodes", lambda book: [node for node, kind in enumerate(book.nodes) if kind in (1, 2)]),
                ("cap_clauses", lambda *given: list(clauses(*given))[1:]), ("cap_clauses", lambda *given: list(clauses(*given))[:-1]),
                ("cap_clauses", lambda *given: [clause for clause in clauses(*given) if len(clause) != 2]),
                ("begin_clause", lambda *given: [-begin(*given)[0], *begin(*given)[1:]]),
                ("unpacked_count", lambda book, assignment: sum(assignment[:len(book.nodes)])),
                ("check_none_lower", lambda lower, refutation: None)):
            with self.subTest(name=name), mock.patch.object(reference, name, wrong), printed(), self.assertRaises((AssertionError, IndexError)):
                samples.check_minima(random.Random(1), 40)

    def test_the_fewest(self):
        """What shows the fewest is accepted, and something of everything is wrong with what is nearly that."""
        rng, found = random.Random(4), {}
        for _ in range(12):
            data, _ = carrying_book(rng, "tiny")
            book = reference.read_book(data)
            for given in random_fewest(rng, book, 20):
                answer = reference.entry_check_fewest(data, *given, *[10 ** 6] * 4)
                found[answer[1] if answer[1:] else 0] = given
        self.assertLessEqual({0, 13, 14, 20, 21, 22}, set(found))

    def test_ask_under_a_cap(self):
        inputs = {"book": known.BOOK_FEWEST, "plan": known.PLAN_FEWEST, "assignment": known.ASSIGNMENT_FEWEST, "steps": known.REFUTATION_FEWEST}
        for name, data in inputs.items():
            write_bytes(self.path(name), data)
        book, plan, assignment, steps, made = map(self.path, (*inputs, "made"))
        self.assertEqual(ask.said_by("print_formula", [book], 1).split(b"\n")[0], b"p cnf 19 49")
        self.assertEqual(ask.said_by("check_plan", [book, plan, made], 0), b"22 0\n")
        self.assertFalse(os.path.exists(made))
        self.assertEqual((ask.said_by("check_plan", [book, plan, made], 1), len(read_bytes(made))), (b"accepted\n", 19))
        self.assertEqual([ask.said_by("check_refutation", [book, steps], cap) for cap in (0, None)], [b"accepted\n", b"19 1\n"])
        self.assertEqual([ask.said_by("check_fewest", [book, n, assignment, steps]) for n in "012"], [b"22 0\n", b"accepted\n", b"22 0\n"])

    def test_borders_that_are_needed(self):
        """None of them may go, and as many as there may be keep the rules too."""
        rng, fewer = random.Random(1), 0
        for _ in range(30):
            for _, book, plan in carried_plans(rng, "small"):
                needed, most = with_needed_borders(rng, book, plan), with_all_borders(book, plan)
                for some in (plan, needed, most):
                    self.assertEqual(reference.broken_rule(book, *reference.read_plan(book, some)), 0)
                listed = [node for node, *_ in reference.carriers(book, *reference.read_plan(book, needed))]
                self.assertEqual(listed, [node for node, kind in enumerate(book.nodes) if kind == MAY_BE_SET and needed[node]])
                self.assertTrue(all(more >= less for more, less in zip(most, needed)))
                fewer += needed != most
        self.assertGreater(fewer, 30)


class Example(InFolder):
    """The main job, with a prover and a program that are played."""

    def setUp(self):
        super().setUp()
        script(self.path("programs", "cabinet"), CABINET)
        patch = mock.patch.multiple(example, PROGRAMS=self.path("programs"), ROOT=self.folder)
        patch.start()
        self.addCleanup(patch.stop)

    def job(self, *books, built=True):
        options = types.SimpleNamespace(books=[os.path.join(EXAMPLES, book) for book in books], solver=None, built=built)
        with printed() as out:
            status = example.run(options)
        return status, out.getvalue()

    def test_yes_and_no(self):
        status, said = self.job("following.book", "uncut.book")
        self.assertEqual(status, 0)
        self.assertIn("border at node 1", said)
        self.assertRegex(said, r"\n      0  01-\d\d \d  00-\d\d \d\n")
        self.assertRegex(said, r"following.book: yes, .*\n.*uncut.book: no, ")
        self.assertIn("not the railway", said)

    def test_a_plan_needs_no_warning(self):
        self.assertNotIn("railway", self.job("following.book")[1])

    def test_refused_book(self):
        write_bytes(self.path("cut"), known.BOOK_L[:-1])
        status, said = self.job(self.path("cut"))
        self.assertEqual(status, 1)
        self.assertIn("refuses the book: 1 0", said)

    def test_refused_answer(self):
        """A solver that says what is not so."""
        script(self.path("bin", "minisat"), "import sys\nopen(sys.argv[-1], 'w').write('SAT\\n1 0\\n')\nsys.exit(10)\n")
        self.with_programs()
        options = types.SimpleNamespace(books=[os.path.join(EXAMPLES, "uncut.book")], solver="minisat", built=True)
        with printed() as out:
            self.assertEqual(example.run(options), 1)
        self.assertIn("check_assignment refuses it: 14", out.getvalue())
        self.assertIn("uncut.book: nothing", out.getvalue())

    def test_building(self):
        write_text(self.path("crates.txt"), "low:\nother:\ncabinet: low io\n")
        write_text(self.path("crates", "cabinet", "src", "main.rt"), "// The program.\n")
        self.with_programs()
        right = "import os, sys\nprint({!r})\nsys.exit(sys.argv[1:] != ['run'] or os.path.basename(os.getcwd()) != 'cabinet')\n"
        proved, before = "axioms std: none\nlogic=proved functions=2 native=nat", " of them had been proved before, and have not changed\n"
        low, cabinet = f"fn low::f: proved\n{proved}", f"struct cabinet::A: proved\ncrate cabinet: modules loaded=1 checked=2\n{proved}"
        for lines, shown in ((f"note\n{low}\n{cabinet}\nusage: ..", r"  \[1/2\] low \(\d+ s\)\n  \[2/2\] cabinet \(\d+ s\)\n(?!  \d)"),
                             (f"{proved}\n{cabinet}", r"  \[1/2\] definitions \(\d+ s\)\n  \[2/2\] cabinet \(\d+ s\)\n(?!  \d)"),
                             (cabinet, r"  \[1/2\] cabinet \(\d+ s\)\n  1" + before),
                             ("rt: nothing has changed since the last proved build", "from them\n  2" + before)):
            script(self.path("bin", "rt"), right.format(lines))
            status, said = self.job("following.book", built=False)
            self.assertEqual(status, 0)
            self.assertRegex(said, shown)
        script(self.path("bin", "rt"), "import sys\nprint('logic=not-proved\\nrt: the library low did not build')\nsys.exit(1)\n")
        status, said = self.job("following.book", built=False)
        self.assertEqual((status, "the library low did not build" in said, "decided" in said), (1, True, False))


class Trials(InFolder):
    """What tries the program finds a faulty one, and nothing wrong with a good one."""

    def tries(self, text, *groups):
        tries = try_programs.Tries(script(self.path("cabinet"), text), self.folder)
        with printed() as out:
            for group in groups:
                group(tries)
        return tries, out.getvalue()

    def test_good(self):
        tries, said = self.tries(CABINET, try_programs.try_examples, try_programs.try_commands, try_programs.try_old_books,
                                 try_programs.try_refused_old_books, try_programs.try_graphs, try_programs.try_lists, try_programs.try_scripts)
        self.assertEqual((tries.failed, said), (0, ""))
        self.assertGreater(tries.tried, 30)

    def test_good_caps(self):
        tries, said = self.tries(CABINET, try_programs.try_caps, try_programs.try_refused_caps, try_programs.try_cap_words, try_programs.try_fewest,
                                 try_programs.try_fewest_words)
        self.assertEqual((tries.failed, said), (0, ""))
        self.assertGreater(tries.tried, 300)

    def test_a_cap_that_is_passed_over(self):
        """As a program does that takes the option and makes nothing of it."""
        deaf = CABINET.replace("reference.main(words)", "reference.main([words[0], *names(COMMANDS[words[0]])])")
        tries, said = self.tries(deaf, try_programs.try_caps, try_programs.try_refused_caps)
        self.assertGreater(tries.failed, 20)
        self.assertIn("check_plan, cap 0: expected b'22 0\\n'", said)
        self.assertNotIn("cap 18446744073709551615", said)

    def test_a_page_a_byte_short(self):
        cut = CABINET.replace("reference.main(words)", "sys.stdout.buffer.write(reference.print_graph(*map(reference.read_file, words[1:]))[:-1])")
        tries, said = self.tries(cut, try_programs.try_graphs)
        self.assertGreater(tries.failed, 3)
        self.assertIn("print_graph, absent, moves 8, gone: expected b'  0  .        63-63 0", said)

    def test_an_empty_list_that_is_not_written(self):
        """As a program does that writes no result of no bytes: what the file held stays."""
        lazy = CABINET.replace("reference.main(words)", """line, out = reference.list_carriers(*map(reference.read_file, words[1:3]))
    sys.stdout.buffer.write(line)
    if out:
        open(words[3], "wb").write(out)""")
        tries, said = self.tries(lazy, try_programs.try_lists)
        self.assertIn("list_carriers, no border of kind 1, last file longer before: exactly the result: b'xxx", said)
        self.assertNotIn("three trains", said)
        self.assertGreater(tries.failed, 5)

    def test_always_accepted(self):
        tries, said = self.tries(ALWAYS_ACCEPTED, try_programs.try_examples, try_programs.try_commands)
        self.assertGreater(tries.failed, 20)
        self.assertIn("check_refutation, book M, hints [19, 16, 17]: expected b'20 1\\n'", said)

    def fresh(self, text, number):
        session = fresh.Session("test", script(self.path("cabinet"), text), self.path("session"))
        with printed() as out:
            fresh.Trial(session, number).all()
        return session, out.getvalue()

    def test_fresh(self):
        for text, some in ((CABINET, False), (ALWAYS_ACCEPTED, True)):
            with self.subTest(text=text), mock.patch.object(fresh, "SPOILED", 1):
                os.makedirs(self.path("session"), exist_ok=True)
                session, said = self.fresh(text, 1)
                self.assertEqual(session.differences > 0, some, said)
                self.assertEqual(sum(session.count["books"].values()), 1)


    def test_a_book_s_number_that_is_none(self):
        """Told before anything is made."""
        script(self.path("bin", "cabinet"), CABINET)
        os.mkdir(self.path("temporary"))
        for seed in ("7/x", "7/", "7/-1", "7/1/2"):
            with mock.patch.object(tempfile, "tempdir", self.path("temporary")), printed() as out:
                self.assertEqual(main(["fresh", seed, "1", "--bin", self.path("bin")]), 2)
            self.assertEqual(out.getvalue(), f"tools fresh: {seed}: behind the stroke stands the number of a book, as in 7/3\n")
        self.assertEqual(os.listdir(self.path("temporary")), [])

    def test_the_folder_of_a_session(self):
        """It goes where nothing was kept, also where a session ends early."""
        script(self.path("bin", "cabinet"), CABINET)
        os.mkdir(self.path("temporary"))
        for end in (KeyboardInterrupt, Stop("no converter")):
            with mock.patch.object(tempfile, "tempdir", self.path("temporary")), mock.patch.object(fresh, "try_books", side_effect=end), printed():
                with self.assertRaises((KeyboardInterrupt, Stop)):
                    fresh.run(types.SimpleNamespace(seed="7/1", seconds=1.0, bin=self.path("bin")))
        self.assertEqual(os.listdir(self.path("temporary")), [])


class Bench(InFolder):
    def test_books(self):
        """bench/make_books.py makes its books, and the reference takes each."""
        path = os.path.join(ROOT, "bench", "make_books.py")
        found = importlib.util.spec_from_file_location("make_books", path)
        make_books = importlib.util.module_from_spec(found)
        with mock.patch.object(sys, "path", list(sys.path)), printed() as out:
            found.loader.exec_module(make_books)
            make_books.main(self.folder)
        names = sorted(os.listdir(self.folder))
        self.assertEqual(names, sorted(
            ["big_star.book", "big_ring.book", "big_lanes.book", "small_l.book", "shut.book", "ring_8.book", "ring_16.book", "ring_32.book",
             "stand_16.book", "stand_16.plan", "stand_64.book", "stand_64.plan", "many_nodes.book", "many_nodes.plan",
             "scale_line.book", "scale_ring.book", "scale_ring.plan",
             "scale_tracks.book", "scale_tracks.plan", "scale_apart.book", "scale_apart.plan", "scale_close.book", "scale_close.plan",
             "scale_long.book", "scale_shut_ring.book", "scale_shut_long.book"]))
        self.assertEqual(out.getvalue().count("\n"), 19)
        book, plan = (read_bytes(self.path("stand_16." + kind)) for kind in ("book", "plan"))
        self.assertEqual(reference.check_two("check_plan", book, plan)[0], "accepted")


class Commands(InFolder):
    def test_root(self):
        self.assertTrue(os.path.exists(os.path.join(ROOT, "crates.txt")))

    def said(self, *words):
        with printed() as out:
            try:
                status = main(list(words))
            except SystemExit as end:
                status = end.code
        return status, out.getvalue()

    def test_a_test_that_is_not_there(self):
        for name in ("nosuch", "test_text.Nosuch", "command", "test_text.Books.nosuch", ""):
            status, said = self.said("test", name)
            self.assertEqual((status, said.count("\n"), said.startswith(f"tools test: no test {name};")), (2, 1, True), said)

    def test_how_many_names(self):
        for words, many in ((("check_refutation", "a"), "2"), (("check_plan", "a"), "2 or 3"), (("print_formula", "a", "b"), "0 or 1"),
                            (("upgrade_book", "a"), "2"), (("upgrade_book", "a", "b", "c"), "2"), (("print_graph", "a"), "2"),
                            (("print_graph", "a", "b", "c"), "2"), (("list_carriers", "a", "b"), "3"),
                            (("list_carriers", "a", "b", "c", "d"), "3"), (("check_fewest", "a", "1", "b"), "4"),
                            (("check_plan", "--cap", "1", "a"), "2 or 3")):
            status, said = self.said("reference", *words)
            self.assertEqual((status, said.split(" takes ")[-1]), (2, f"{many} names\n"))

    def test_caps_that_are_none(self):
        for words, why in ((("check_plan", "--cap", "x", "a", "b"), "'x' is no number"), (("print_formula", "--cap", str(2 ** 64)), "is no number"),
                           (("check_fewest", "a", "-1", "b", "c"), "no number"), (("print_graph", "--cap", "1", "a", "b"), "takes 2 names"),
                           (("check_plan", "--cap"), "'' is no number"),
                           (("check_plan", "--cap", "1" * 9999, "a", "b"), "is no number"), (("check_plan", "--cap", "", "a", "b"), "is no number")):
            status, said = self.said("reference", *words)
            self.assertEqual((status, why in said), (2, True), said)
        for word, number in (("0", 0), ("007", 7), ("0" * 6000 + "1", 1), (str(2 ** 64 - 1), 2 ** 64 - 1)):
            self.assertEqual(whole_number(word), number)

    def test_errors_of_solve(self):
        """They begin alike, whoever finds them."""
        write_text(self.path("formula"), "p cnf 1\n")
        with mock.patch.dict(os.environ, PATH=self.folder):
            for words in ((), ("--with", "minisat")):
                for name in ("formula", "missing"):
                    status, said = self.said("solve", self.path(name), self.path("out"), *words)
                    self.assertEqual((status, said.startswith("tools solve: "), said.count("\n")), (2, True, 1), said)

    def test_the_converter_s_place(self):
        """It is built below target/, which is made."""
        script(self.path("bin", "rustc"), "import sys\nopen(sys.argv[-1], 'w').write('built')\n")
        self.with_programs()
        with mock.patch.object(solver, "FOR_TOOLS", self.path("target", "tools")):
            write_text(self.path("formula"), dimacs(1, [[1]]))
            script(self.path("bin", "cadical"), "import sys\nprint('v 1 0')\nsys.exit(10)\n")
            self.assertEqual(self.said("solve", self.path("formula"), self.path("out"), "--with", "cadical"), (0, "satisfiable\n"))
        self.assertEqual(read_bytes(self.path("target", "tools", "drat")), b"built")

    def test_every_page(self):
        """With --all the gate runs first, since it proves what the wrong programs are held against."""
        for words, wanted in ((("--all",), ["gate", "wrong", "short"]), ((), ["short"])):
            done = []
            with mock.patch.object(generated.gate, "run", lambda options: done.append("gate") or int(options.log is not None)), \
                    mock.patch.object(generated.wrong, "run", lambda options: done.append("wrong") or 1 - int(options.tidy)), \
                    mock.patch.object(generated, "write_short", lambda: done.append("short") or 0):
                self.assertEqual(self.said("generated", *words)[0], 1 if words else 0)
            self.assertEqual(done, wanted)
