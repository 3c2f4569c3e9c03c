"""What is no argument is refused by its name, with a TypeError or a ValueError, and never read as something else."""
import ast
import subprocess
import sys
import tempfile
import unittest
from array import array
from fractions import Fraction
from pathlib import Path

import made
import wurgalm
from wurgalm import Combine, Differential, Down, Drop, Equation, Exchange, Log, Refused, Relation, Solutions, State
from wurgalm import Steps, System, Up, library

#: What is no integer.
NO_INTEGERS = (True, False, 1.0, 1.9, "1", b"1", None, 1j, Fraction(1, 2), (1,), float("nan"))
#: Integers that no store has room for.
TOO_LARGE = (2**63, -(2**63) - 1, 2**64, 2**64 + 1, 2**200, 10**5000)
DIFFERENTIAL = Differential(1, 1, 0, [{(1, 0, 1): 1, (0, 0, 1): -1}])
STATE = State(2, 2, 1, 0, 0, 0, (), 0)


class Refusing(unittest.TestCase):
    def refused(self, kind, name, call, *given):
        """The call is refused with this exception, whose message begins with the argument's name."""
        with self.assertRaises(kind) as caught:
            call(*given)
        self.assertNotIsInstance(caught.exception, Refused)
        self.assertTrue(str(caught.exception).startswith(name), f"{name}: {caught.exception}")

    def told(self, name, call, *given):
        """The refusal of the call names the argument."""
        with self.assertRaises(Refused) as caught:
            call(*given)
        self.assertIn(name, caught.exception.argument)
        self.assertLess(len(str(caught.exception)), 200)


class Integers(Refusing):
    """Each place where an integer is wanted, with its name."""

    PLACES = {
        "unknowns": lambda a: System(a, 0, 0),
        "highest": lambda a: System(1, a, 0),
        "lowest": lambda a: System(1, 0, a),
        "order[1]": lambda a: System(2, 0, 0, order=[1, a]),
        "relations[0]: n0": lambda a: System(1, 0, 0, (), [(a, {})]),
        "equations[1]: terms[0, 1][1]": lambda a: System(1, 0, 0, [{}, {(0, 1): [1, a]}]),
        "equations[0]: right[0]": lambda a: System(1, 0, 0, [({}, [a])]),
        "equations[0]: terms: a block": lambda a: System(1, 0, 0, [{(a, 1): [1]}]),
        "equations[0]: terms: a column": lambda a: System(1, 0, 0, [{(0, a): [1]}]),
        "terms[0, 1][0]": lambda a: Equation({(0, 1): [a]}),
        "coefficients[2]": lambda a: wurgalm.polynomial([1, 2, a]),
        "n0": lambda a: Relation(a, Equation({})),
        "derivatives": lambda a: Differential(1, a, 0, []),
        "equations[0]: a power": lambda a: Differential(1, 0, 0, [{(0, a, 1): 1}]),
        "equations[0]: a factor": lambda a: Differential(1, 0, 0, [{(0, 0, 1): a}]),
        "i": lambda a: Up(a),
        "j": lambda a: Exchange(1, a),
        "integer": lambda a: Combine(1, 2, a, [1], []),
        "g[0]": lambda a: Combine(1, 2, 1, [a], []),
        "order[0]": lambda a: Log([], [a]),
        "settled": lambda a: State(2, 2, 1, 0, 0, a, (), 0),
        "columns[0]": lambda a: State(2, 2, 1, 0, 0, 1, (a,), 0),
        "shifts": lambda a: State(2, 2, 1, 0, 0, 0, (), a),
        "budget": lambda a: wurgalm.prepare(made.K2).take(a),
        "first": lambda a: wurgalm.check_record(made.K2, a, []),
        "vectors[0][1]": lambda a: wurgalm.check_record(made.K2, 0, [[0, a]]),
        "sequence": lambda a: Solutions(0, (((1,),),)).polynomial(a),
        "column": lambda a: Solutions(0, (((1,),),)).polynomial(0, a),
        "steps": lambda a: Log.of_numbers(a, [0] * 40),
        "numbers": lambda a: Log.of_numbers(0, [a, 0, 0, 0]),
        "n[0]": lambda a: wurgalm.satisfied(made.K2, [a], {}),
    }

    def test_what_is_no_integer(self):
        for name, place in self.PLACES.items():
            for given in NO_INTEGERS:
                with self.subTest(name, given=given):
                    self.refused(TypeError, name, place, given)

    def test_integers_of_other_classes(self):
        class Whole:
            def __index__(self):
                return 1

        self.assertEqual(System(Whole(), Whole(), 0, [{(0, Whole()): [Whole()]}]), System(1, 1, 0, [{(0, 1): [1]}]))
        self.assertIs(type(System(Whole(), 0, 0).unknowns), int)

    def test_too_large(self):
        for large in TOO_LARGE:
            with self.subTest(bits=large.bit_length()):
                self.told("unknowns is ", wurgalm.run, System(large, 0, 0))
                self.told("highest is ", wurgalm.run, System(1, large, 0))
                self.told("lowest is ", wurgalm.run, System(1, 0, large))
                self.told("equations[0] has the block ", wurgalm.run, System(1, 0, 0, [{(large, 1): [1]}]))
                self.told("equations[0].terms[0, 1][0] is ", wurgalm.run, System(1, 0, 0, [{(0, 1): [large]}]))
                self.told("equations[0].right[1] is ", wurgalm.run, System(1, 0, 0, [({}, [0, large])]))
                self.told("relations[0].n0 is ", wurgalm.run, System(1, 0, 0, (), [(large, {})]))
                self.told("order is ", wurgalm.write_sheet, System(1, 0, 0, order=[large]))
                self.told("first is ", wurgalm.check_record, made.K2, large, [])
                self.told("a number of vectors is ", wurgalm.check_record, made.K2, 0, [[large, 0]])
                self.told("a number of log is ", wurgalm.replay, made.K2, Log([Down(large)], [1]))
                self.told("a number of state is ", wurgalm.run_steps, made.K2, State(2, 2, 1, 0, 0, large, (), 0), 1)
                self.told("state.highest is ", wurgalm.run_steps, made.K2, State(2, 2, large, 0, 0, 0, (), 0), 1)
                self.told("powers is ", wurgalm.run, Differential(1, 0, large, []))
                self.told("a factor of equations[0] is ", wurgalm.run, Differential(1, 0, 0, [{(0, 0, 1): large}]))

    def test_a_budget_of_any_size(self):
        self.assertEqual(wurgalm.prepare(made.K2).take(2**200).run, wurgalm.run(made.K2))
        self.refused(ValueError, "budget", wurgalm.prepare(made.K2).take, -(2**200))


class Limits(Refusing):
    """A refusal of the library names the argument that explains it."""

    def test_sizes(self):
        self.told("unknowns is 5", wurgalm.run, System(5, 0, 0))
        self.told("there are 7 equations", wurgalm.solutions, System(1, 0, 0, [{}] * 7))
        self.told("highest is 65", wurgalm.run, System(1, 65, 62))
        self.told("lowest is -65", wurgalm.run, System(1, -62, -65))
        self.told("highest is 4 and lowest -1", wurgalm.run_logged, System(1, 4, -1))
        self.told("highest is 0 and lowest 1", wurgalm.prepare, System(1, 0, 1))
        self.told("there are 17 relations", wurgalm.run, System(1, 0, 0, (), [(0, {})] * 17))
        long = System(1, 0, 0, [{}, {(0, 1): [1] * 17}])
        self.told("equations[1].terms[0, 1] has 17 coefficients", wurgalm.run, long)

    def test_other_arguments(self):
        self.told("first is 2097152, and there are 1 vectors", wurgalm.check_record, made.K2, 2**21, [[0, 0]])
        self.told("first is 0, and there are 65 vectors", wurgalm.check_record, made.K2, 0, [[0, 0]] * 65)
        self.told("a number of vectors is past 65536", wurgalm.check_record, made.K2, 0, [[0, 65_537]])
        self.told("log has 1001 steps", wurgalm.replay, made.K2, Log([Up(1)] * 1001, [1]))
        self.told("order is 3", wurgalm.write_sheet, System(2, 0, 0, order=[3]))
        self.told("order is 1, 1", wurgalm.write_sheet, System(2, 0, 0, order=[1, 1]))
        self.told("order is 0, an integer of", wurgalm.write_sheet, System(2, 0, 0, order=[0, 10**5000]))
        self.told("unknowns is 5", wurgalm.write_sheet, System(5, 0, 0))

    def test_numbers(self):
        large = System(1, 0, 0, [{}, {(0, 1): [0, 2**28]}])
        self.told("equations[1].terms[0, 1][1] is 268435456", wurgalm.run, large)
        self.told("equations[0].right[0] is -268435456", wurgalm.run, System(1, 0, 0, [({}, [-(2**28)])]))
        self.told("relations[0].n0 is 268435456", wurgalm.run, System(1, 0, 0, (), [(2**28, {})]))
        self.told("relations[0].equation.terms[0, 1][0]", wurgalm.run, System(1, 0, 0, (), [(0, {(0, 1): [2**28]})]))


class Lists(Refusing):
    def test_text_and_bytes_are_no_lists(self):
        places = {
            "equations": lambda a: System(1, 0, 0, a),
            "relations": lambda a: System(1, 0, 0, (), a),
            "order": lambda a: System(1, 0, 0, (), (), a),
            "terms[0, 1]": lambda a: Equation({(0, 1): a}),
            "right": lambda a: Equation({}, a),
            "rows": lambda a: System.of_lists(0, a),
            "rows[0]": lambda a: System.of_lists(0, [a]),
            "right_sides": lambda a: System.of_lists(0, [[[[1]]]], a),
            "steps": lambda a: Log(a, []),
            "g": lambda a: Combine(1, 2, 1, a, []),
            "columns": lambda a: State(2, 2, 1, 0, 0, 0, a, 0),
            "vectors": lambda a: wurgalm.check_record(made.K2, 0, a),
            "vectors[0]": lambda a: wurgalm.check_record(made.K2, 0, [a]),
        }
        for name, place in places.items():
            for given in ("12", b"12", bytearray(b"12"), memoryview(b"12"), {1: 2}, {1, 2}, 12, None):
                with self.subTest(name, given=given):
                    self.refused(TypeError, name, place, given)

    def test_members_of_another_kind(self):
        self.refused(TypeError, "equations[0]", System, 1, 0, 0, ["x(n)"])
        self.refused(ValueError, "equations[1]", System, 1, 0, 0, [{}, [{}, [], []]])
        self.refused(TypeError, "equations[0]: terms", System, 1, 0, 0, [[[1], [2]]])
        self.refused(ValueError, "relations[0]", System, 1, 0, 0, (), [(1, {}, 2)])
        self.refused(TypeError, "relations[0][1]", System, 1, 0, 0, (), [(1, "x(n)")])
        self.refused(TypeError, "equation", Relation, 1, {})
        self.refused(TypeError, "terms", Equation, [((0, 1), [1])])
        self.refused(ValueError, "terms", Equation, {(0, 1, 2): [1]})
        self.refused(TypeError, "terms", Equation, {"01": [1]})
        self.refused(ValueError, "terms: columns count from 1", Equation, {(0, 0): [1]})
        self.refused(ValueError, "equations[0]", Differential, 1, 0, 0, [{(0, 1): 1}])
        self.refused(TypeError, "equations[0]", Differential, 1, 0, 0, [[1]])
        self.refused(TypeError, "steps[1]", Log, [Drop(1), "drop 1"], [])
        self.refused(ValueError, "vectors[1]", wurgalm.check_record, made.K2, 0, [[1, 2], [1]])

    def test_a_place_twice(self):
        class One:
            def __index__(self):
                return 1

        self.refused(ValueError, "terms", Equation, {(0, One()): [1], (0, 1): [2]})
        self.refused(ValueError, "equations[0]", Differential, 1, 0, 0, [{(0, 0, One()): 1, (0, 0, 1): 2}])

    def test_lists_of_other_classes(self):
        self.assertEqual(Equation({(0, 1): array("H", [1, 2])}), Equation({(0, 1): range(1, 3)}))


class Buffers(Refusing):
    READERS = (
        wurgalm.read_sheet, wurgalm.read_differential, wurgalm.write_recurrence, wurgalm.batch, Differential.of_sheet,
    )

    def test_what_is_no_bytes(self):
        sheet = wurgalm.write_sheet(made.K2)
        wide, view = array("H", sheet), memoryview(sheet)
        given = (wide, array("b", [51]), array("i", [3]), memoryview(wide), view[::2], view.cast("c"))
        given += (memoryview(bytes(4)).cast("B", (2, 2)), sheet.decode(), list(sheet), 7, None, made.K2)
        for reader in self.READERS:
            for data in given:
                with self.subTest(reader.__name__, data=type(data)):
                    self.refused(TypeError, "data", reader, data)

    def test_what_is_bytes(self):
        sheet = wurgalm.write_sheet(made.K2)
        for data in (bytearray(sheet), memoryview(sheet), array("B", sheet), memoryview(bytearray(sheet))):
            self.assertEqual(wurgalm.read_sheet(data), made.K2)
        equations = bytearray(DIFFERENTIAL.sheet())
        self.assertEqual(Differential.of_sheet(equations), DIFFERENTIAL)


class Meanings(Refusing):
    """What once meant something else than it says."""

    def test_columns_of_a_state(self):
        self.refused(ValueError, "columns", State, 2, 2, 1, 0, 0, 0, (1, 2, 3, 4, 5), 0)
        self.refused(ValueError, "columns", State, 2, 2, 1, 0, 0, 0, (0, 1), 0)

    def test_a_state_of_another_system(self):
        other = System(2, 2, 1, [{(2, 1): [0, 1], (1, 2): [-1]}, {(2, 1): [1], (1, 1): [-1]}])
        self.told("state.highest is 1, and that of the system 2", Steps, other, STATE)
        self.told("state.unknowns", Steps, System(1, 1, 0, [{}, {}]), STATE)
        self.told("state.equations", Steps, System(2, 1, 0, [{}]), STATE)
        self.told("state.relations", Steps, System(2, 1, 0, made.K2.equations, [(0, {})]), STATE)

    def test_solutions_that_are_not_there(self):
        found = Solutions(1, (((1, 2), (3, 4)),))
        self.assertEqual((found.polynomial(0), found.polynomial(0, 2)), ((1, 3), (2, 4)))
        for column in (0, -1, 3, 2**70):
            self.refused(ValueError, "column", found.polynomial, 0, column)
        for sequence in (-1, 1, -(2**70)):
            self.refused(ValueError, "sequence", found.polynomial, sequence)
        self.refused(ValueError, "sequence", Solutions(1, ()).polynomial, 0)

    def test_indices_below_a_list(self):
        fibonacci = System(1, 2, 0, [{(2, 1): [1], (1, 1): [-1], (0, 1): [-1]}])
        self.refused(ValueError, "vector", wurgalm.satisfied, fibonacci, [-1], [[0], [1], [1], [0]])
        self.assertTrue(wurgalm.satisfied(fibonacci, [-1], {-1: [1], 0: [0], 1: [1]}))

        class Fibonacci:
            """A sequence that has no end, on either side."""

            def __getitem__(self, i):
                if i in (0, 1):
                    return [i]
                return [self[i + 2][0] - self[i + 1][0] if i < 0 else self[i - 1][0] + self[i - 2][0]]

        self.assertTrue(wurgalm.satisfied(fibonacci, range(-6, 6), Fibonacci()))
        for vector in ([[0], [1]], {0: [0], 1: [1]}, [[0], [1], []], {0: 0, 1: 1, 2: 1}, {}):
            self.refused(ValueError, "vector", wurgalm.satisfied, fibonacci, [0], vector)
        self.refused(TypeError, "vector", wurgalm.satisfied, fibonacci, [0], 7)

    def test_numbers_that_are_no_log(self):
        for numbers in ([7, 1] + [0] * 38, [3, 1, 9] + [0] * 37, [3, 1] + [0] * 35 + [1, 0, 0], [3, 1]):
            self.refused(ValueError, "numbers", Log.of_numbers, 1, numbers)
        self.refused(ValueError, "numbers", Log.of_numbers, -1, [0] * 4)
        self.refused(ValueError, "numbers", Log.of_numbers, 0, [0, 1, 0, 0])

    def test_texts_that_are_no_log(self):
        steps = ["up +1", "up 01", "up  1", "up 1 ", " up 1", "up 1\r", "up 1_0", "up \u0661", "up", "turn 1", ""]
        steps += ["combine 2 1 1 2 1 0 0", "combine 2 1 1 9 1", "combine 2 1 1 1 1 1 1 1", "up " + "1" * 5000]
        texts = [f"{step}\norder 1\n" for step in steps]
        texts += ["up 1\norder1 2\n", "up 1\norder 1 2", "up 1\norder 1\n\n", "up 1\u2028order 1\n", "up 1\n", ""]
        for text in texts:
            with self.subTest(text[:20]):
                self.refused(ValueError, "text", Log.parse, text)
        with self.assertRaises(ValueError) as caught:
            Log.parse("\x1b[31m" * 100_000 + "\norder\n")
        self.assertTrue(str(caught.exception).isprintable() and len(str(caught.exception)) < 200)
        self.refused(TypeError, "text", Log.parse, b"order\n")


class Models(Refusing):
    """Differential equations are worked as their recurrence, wherever a system is."""

    def test_calls(self):
        recurrence = wurgalm.read_differential(DIFFERENTIAL)
        for call in (wurgalm.run, wurgalm.run_leading, wurgalm.run_trailing, wurgalm.run_logged, wurgalm.solutions):
            self.assertEqual(call(DIFFERENTIAL), call(recurrence))
        log = wurgalm.run_logged(DIFFERENTIAL)[1]
        self.assertEqual(wurgalm.replay(DIFFERENTIAL, log), wurgalm.run(DIFFERENTIAL))
        self.assertEqual(wurgalm.prepare(DIFFERENTIAL).take(252).run, wurgalm.run(DIFFERENTIAL))
        self.assertEqual(wurgalm.check_record(DIFFERENTIAL, 0, [[6], [6], [3], [1]]), wurgalm.Fits(3))
        self.assertTrue(wurgalm.satisfied(DIFFERENTIAL, range(3), [[6], [6], [3], [1]]))

    def test_what_is_no_model(self):
        calls = (wurgalm.run, wurgalm.run_trailing, wurgalm.run_logged, wurgalm.solutions, wurgalm.prepare)
        calls += (lambda a: wurgalm.replay(a, Log([], [])), lambda a: wurgalm.check_record(a, 0, []))
        calls += (wurgalm.write_sheet, lambda a: wurgalm.satisfied(a, [], {}), lambda a: Steps(a, STATE))
        calls += (lambda a: wurgalm.run_steps(a, STATE, 0),)
        for call in calls:
            for given in ("x(n) = 0", b"3 1 0 0\n0\n0\n0\n", None, [made.K2], STATE):
                self.refused(TypeError, "system", call, given)
        with self.assertRaisesRegex(TypeError, "system: .* write_recurrence"):
            wurgalm.write_sheet(DIFFERENTIAL)
        with self.assertRaisesRegex(TypeError, "system: .* `prepare` begins"):
            Steps(DIFFERENTIAL, STATE)

    def test_other_arguments(self):
        self.refused(ValueError, "side", wurgalm.run, made.K2, "middle")
        self.refused(TypeError, "log", wurgalm.replay, made.K2, "order 1 2\n")
        self.refused(TypeError, "state", Steps, made.K2, STATE.numbers())


class Sources(unittest.TestCase):
    def test_nothing_runs_or_parses_code(self):
        """No module names what would: neither Python's own nor SymPy's."""
        parsers = {"eval", "exec", "compile", "__import__", "loads", "sympify", "S", "parse_expr", "lambdify"}
        for path in (made.ROOT / "python/wurgalm").glob("*.py"):
            for node in ast.walk(ast.parse(path.read_text(encoding="utf-8"))):
                name = getattr(node, "attr", None) or getattr(node, "id", None) or getattr(node, "name", None)
                self.assertNotIn(name, parsers, path.name)


class Missing(unittest.TestCase):
    """Without the library, or with something else in its place, the import says in one sentence what to do."""

    def imported(self, named):
        environment = {"PYTHONPATH": str(library.path().parent.parent), "WURGALM_LIBRARY": named}
        words = [sys.executable, "-B", "-S", "-c", "import wurgalm"]
        return subprocess.run(words, env=environment, capture_output=True, text=True)

    def test_no_library(self):
        for named in ("/nonexistent/libwurgalm.so", __file__, str(library.path().parent)):
            done = self.imported(named)
            self.assertEqual(done.returncode, 1)
            *frames, last = done.stderr.splitlines()
            self.assertTrue(last.startswith(f"ImportError: {named} is not "), last)
            self.assertIn("run `tools/build`", last)
            self.assertIn("then `pip install --no-index python/`", last)
            files = [line for line in frames if line.lstrip().startswith("File ")]
            self.assertTrue(len(files) == 2 and files[1].split('"')[1].endswith("wurgalm/__init__.py"), done.stderr)
            self.assertNotIn("During handling", done.stderr)

    def test_a_package_without_its_library(self):
        with tempfile.TemporaryDirectory() as folder:
            for path in library.path().parent.glob("*.py"):
                (Path(folder) / "wurgalm").mkdir(exist_ok=True)
                (Path(folder) / "wurgalm" / path.name).write_bytes(path.read_bytes())
            words = [sys.executable, "-B", "-S", "-c", "import wurgalm.calls"]
            done = subprocess.run(words, env={"PYTHONPATH": folder}, capture_output=True, text=True)
            last = done.stderr.splitlines()[-1]
            self.assertRegex(last, "^ImportError: .*/wurgalm/libwurgalm.so is not there: run `tools/build`")

    def test_a_library_without_the_calls(self):
        import _ctypes

        if not getattr(_ctypes, "__file__", None):
            self.skipTest("ctypes is built in")
        done = self.imported(_ctypes.__file__)
        self.assertIn("is not the shared library of wurgalm", done.stderr.splitlines()[-1])
