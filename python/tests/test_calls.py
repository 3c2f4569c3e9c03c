"""The calls on the examples of the repository and on random systems, in plain Python."""
import unittest
from random import Random

import made
import wurgalm
from wurgalm import Equation, Log, Relation, State, Steps, System, library


class Sheets(unittest.TestCase):
    def test_examples_come_back(self):
        for sheet in sorted(made.EXAMPLES.glob("*.sheet")):
            with self.subTest(sheet.name):
                system = wurgalm.read_sheet(sheet.read_bytes())
                self.assertEqual(wurgalm.write_sheet(system), sheet.read_bytes())
                rows, sides = system.lists()
                back = System.of_lists(system.highest, rows, sides, system.relations, system.order)
                self.assertEqual(back, system)

    def test_stored_answers(self):
        for sheet in sorted(made.EXAMPLES.glob("*.sheet")):
            with self.subTest(sheet.name):
                answer = sheet.with_suffix(".answer").read_bytes()
                system = wurgalm.read_sheet(sheet.read_bytes())
                if answer.startswith(b"0\n"):
                    expected = b"".join(answer.splitlines(keepends=True)[1:-8])
                    self.assertEqual(wurgalm.write_sheet(wurgalm.run(system).system), expected)
                else:
                    with self.assertRaises(wurgalm.Refused) as caught:
                        wurgalm.run(system)
                    self.assertEqual(caught.exception.number, int(answer.split()[0]))

    def test_random_systems_come_back(self):
        random = Random(1)
        for _ in range(300):
            system = made.random_system(random)
            self.assertEqual(wurgalm.read_sheet(wurgalm.write_sheet(system)), system)

    def test_batch(self):
        batch = (made.EXAMPLES / "models.batch").read_bytes()
        self.assertEqual(wurgalm.batch(batch), (made.EXAMPLES / "models.answer").read_bytes())
        self.assertEqual(wurgalm.batch(b""), b"3\n")
        self.assertEqual(wurgalm.batch(b"0\n"), b"0 0\n" * 8)

    def test_a_long_batch(self):
        head, sheet = b"1000\n", (made.EXAMPLES / "beam.sheet").read_bytes()
        one = wurgalm.batch(b"1\n1 %d\n" % len(sheet) + sheet).splitlines(keepends=True)[:-8]
        output = wurgalm.batch(head + (b"1 %d\n" % len(sheet) + sheet) * 1000)
        self.assertEqual(output, b"".join(one) * 1000 + b"1000 0\n" + b"0 0\n" * 7)


class Differentials(unittest.TestCase):
    def test_examples(self):
        for sheet in sorted(made.EXAMPLES.glob("*.differential")):
            with self.subTest(sheet.name):
                data, induced = sheet.read_bytes(), sheet.with_suffix(".induced").read_bytes()
                self.assertEqual(wurgalm.write_recurrence(data), induced[2:])
                self.assertEqual(wurgalm.write_sheet(wurgalm.read_differential(data)), induced[2:])
                self.assertEqual(wurgalm.Differential.of_sheet(data).sheet(), data)


class Runs(unittest.TestCase):
    def test_arguments_stay(self):
        before = System(*[getattr(made.K2, name) for name in ("unknowns", "highest", "lowest", "equations")])
        wurgalm.run(made.K2)
        self.assertEqual(made.K2, before)

    def test_sides(self):
        self.assertEqual(wurgalm.run_leading(made.K2), wurgalm.run(made.K2, "leading"))
        self.assertEqual(wurgalm.run_trailing(made.K2), wurgalm.run(made.K2, "trailing"))
        self.assertRaises(ValueError, wurgalm.run, made.K2, "middle")

    def test_no_equations(self):
        done = wurgalm.run(System(3, 0, 0))
        self.assertEqual((done.rank, done.shifts, done.root, done.times), (0, 0, None, 0))

    def test_relations_of_the_input_stay_in_front(self):
        relation = Relation(7, Equation({(0, 2): [1]}, [2]))
        done = wurgalm.run(System(2, 1, 0, made.K2.equations, [relation]))
        self.assertEqual(done.system.relations[0], relation)
        self.assertEqual(done.system.relations[1:], wurgalm.run(made.K2).system.relations)

    def test_steps_come_to_the_whole_run(self):
        for system in made.accepted_systems(2, 60):
            whole = wurgalm.run(system)
            steps = wurgalm.prepare(system)
            taken = sum(progress.steps for progress in steps)
            self.assertEqual(steps.progress.run, whole)
            self.assertEqual(wurgalm.prepare(system).take(252).steps, taken)
            kept = wurgalm.prepare(system).take(taken // 2)
            self.assertEqual(wurgalm.run_steps(kept.system, kept.state, 252).run, whole)

    def test_a_refusal_of_steps_is_given_again(self):
        steps = wurgalm.prepare(System(1, 0, 0, [({(0, 1): [1]}, [1]), ({(0, 1): [1]}, [2])]))
        self.assertRaises(wurgalm.NoSolution, list, steps)
        self.assertRaises(wurgalm.NoSolution, steps.take, 0)
        self.assertRaises(ValueError, wurgalm.prepare(made.K2).take, -1)

    def test_own_logs(self):
        for system in made.accepted_systems(3, 60):
            done, log = wurgalm.run_logged(system)
            self.assertEqual(done, wurgalm.run(system))
            self.assertEqual(wurgalm.replay(system, log), done)
            self.assertEqual(Log.parse(str(log)), log)
            self.assertEqual(Log.of_numbers(len(log.steps), log.numbers()), log)

    def test_logs_of_the_examples(self):
        own = Log.parse((made.EXAMPLES / "logs/k2-own.log").read_text())
        self.assertEqual(wurgalm.run_logged(made.K2)[1], own)
        other = Log.parse((made.EXAMPLES / "logs/k2-other.log").read_text())
        self.assertEqual(wurgalm.replay(made.K2, other).system.relations, ())

    def test_a_text_that_is_no_log(self):
        for text in ("", "up 2\n", "up\norder\n", "combine 1 2 1 2 1\norder\n", "combine 1 2 1 1 1 1 1 1\norder\n", "turn 1\norder\n"):
            self.assertRaises(ValueError, Log.parse, text)


class Records(unittest.TestCase):
    def test_the_example(self):
        first, *values = (made.EXAMPLES / "legendre.record").read_text().splitlines()
        system = wurgalm.read_differential((made.EXAMPLES / "legendre.differential").read_bytes())
        begin, count = map(int, first.split())
        vectors = [[int(value)] for value in values]
        self.assertEqual(len(vectors), count)
        kept = wurgalm.check_record(system, begin, vectors)
        self.assertIsInstance(kept, wurgalm.Misfit)
        fits = wurgalm.check_record(system, begin, vectors[:-1])
        self.assertEqual(fits, wurgalm.Fits(count - 1 - (system.highest - system.lowest)))

    def test_a_relation(self):
        system = System(1, 0, 0, [], [(3, ({(0, 1): [0, 1]}, [6]))])
        self.assertEqual(wurgalm.check_record(system, 3, [[2]]), wurgalm.Fits(1))
        self.assertEqual(wurgalm.check_record(system, 3, [[3]]), wurgalm.Misfit("relation", 1, 3, 3))
        self.assertEqual(wurgalm.check_record(system, 4, [[3]]), wurgalm.Fits(0))
        self.assertRaises(ValueError, wurgalm.check_record, system, 0, [[1, 2]])


class Found(unittest.TestCase):
    def test_nothing_ends(self):
        self.assertIsNone(wurgalm.solutions(System(1, 1, 0, [{(1, 1): [1], (0, 1): [-2]}])))

    def test_two_unknowns(self):
        # y' = z and z' = 0: y and z with the values (y, z) at 0 and at 1.
        system = wurgalm.read_differential(wurgalm.Differential(2, 1, 0, [{(1, 0, 1): 1, (0, 0, 2): -1}, {(1, 0, 2): 1}]))
        found = wurgalm.solutions(system)
        self.assertEqual(found.last, 1)
        self.assertEqual({found.polynomial(i, 1) for i in range(2)}, {(1, 0), (0, 1)})
        for sequence in found.sequences:
            padded = {i: (0, 0) for i in range(-5, 8)} | dict(enumerate(sequence))
            self.assertTrue(wurgalm.satisfied(system, range(-4, 6), padded))


class Refusals(unittest.TestCase):
    """Each number once, with its class and sentence."""

    def refused(self, number, call, *arguments):
        with self.assertRaises(wurgalm.REFUSALS[number]) as caught:
            call(*arguments)
        self.assertEqual(caught.exception.number, number)
        self.assertTrue(str(caught.exception).startswith(f"refused with {number}: "))
        self.assertNotIn("no call", str(caught.exception))

    def test_numbers(self):
        self.assertEqual(sorted(wurgalm.REFUSALS), [1, 2, 3, 4, 5, 7, 8, 9, 10, 11, 12, 13, 14])

    def test_1(self):
        sheet, relations, result = library.octets(wurgalm.write_sheet(made.K2)), library.zeros(16 * 337), library.zeros(9)
        self.refused(1, library.call, "read_sheet", sheet, library.zeros(0), relations, result)

    def test_2(self):
        self.refused(2, wurgalm.run, System(5, 0, 0))
        self.refused(2, wurgalm.run, System(-1, 0, 0))
        self.refused(2, wurgalm.run, System(1, 2**70, 2**70))
        self.refused(2, wurgalm.run, System(1, 0, 0, [{(0, 1): [1]}] * 7))
        self.refused(2, wurgalm.run, System(1, 0, 0, [{(1, 1): [1]}]))
        self.refused(2, wurgalm.run, System(1, 0, 0, [{(0, 2): [1]}]))
        self.refused(2, wurgalm.run, System(1, 0, 0, [{(0, 1): [0] * 16 + [1]}]))
        self.refused(2, wurgalm.run, System(1, 0, 0, (), [(0, {(0, 1): [1]})] * 17))
        self.refused(2, wurgalm.write_sheet, System(2, 0, 0, order=[3]))
        self.refused(2, wurgalm.write_sheet, System(2, 0, 0, order=[1, 2, 1, 2, 1]))
        self.refused(2, wurgalm.check_record, made.K2, 2**21, [[0, 0]])

    def test_3(self):
        self.refused(3, wurgalm.read_sheet, b"3 x")
        self.refused(3, wurgalm.read_differential, b"3 1 0  0")

    def test_4(self):
        self.refused(4, wurgalm.read_sheet, b"")
        self.refused(4, wurgalm.write_recurrence, b"3 1 0 0\n0\n0")

    def test_5(self):
        self.refused(5, wurgalm.run, System(1, 0, 0, [{(0, 1): [2**28]}]))
        self.refused(5, wurgalm.run, System(1, 0, 0, [{(0, 1): [2**64]}]))
        self.refused(5, wurgalm.run, System(1, 0, 0, (), [(2**64 + 1, {})]))
        self.refused(5, wurgalm.check_record, made.K2, 0, [[0, 65_537]])
        self.refused(5, wurgalm.read_differential, wurgalm.Differential(1, 0, 0, [{(0, 0, 1): 2**20 + 1}]))

    def test_7(self):
        high = [1] + [0] * 7 + [1]
        self.refused(7, wurgalm.run, System(2, 0, 0, [{(0, 1): high, (0, 2): high}, {(0, 1): [2] + high[1:], (0, 2): [1]}]))

    def test_8(self):
        rows = [{(0, 1): [268435455], (0, 2): [100000], (0, 3): [1]}, {(0, 1): [268435453], (0, 2): [1], (0, 3): [1]}]
        self.refused(8, wurgalm.run, System(3, 0, 0, rows))

    def test_9(self):
        self.refused(9, wurgalm.run, System(2, 1, 0, made.K2.equations, [(5, {(0, 1): [1]})] * 16))

    def test_10(self):
        self.refused(10, wurgalm.run, wurgalm.read_sheet((made.EXAMPLES / "contradiction.sheet").read_bytes()))

    def test_11(self):
        state = State(2, 2, 1, 0, 0, 0, (), 0)
        Steps(made.K2, state)
        self.refused(11, Steps, made.K2, State(2, 2, 1, 0, 0, 0, (), -1))
        self.refused(11, wurgalm.run_steps, made.K2, State(2, 2, 1, 0, 0, 2**65, (), 0), 1)

    def test_12(self):
        self.refused(12, wurgalm.check_record, System(1, 0, 0, [{(0, 1): [0] * 15 + [1]}]), 1000, [[0]])

    def test_13(self):
        self.refused(13, wurgalm.replay, made.K2, Log([], []))
        self.refused(13, wurgalm.replay, made.K2, Log([wurgalm.Up(2**64)], [1]))
        self.refused(13, wurgalm.replay, made.K2, Log([wurgalm.Combine(1, 2, 1, [1] * 17, [])], [1]))

    def test_14(self):
        self.refused(14, wurgalm.solutions, System(1, 0, 0, [({(0, 1): [1]}, [1])]))
        self.refused(14, wurgalm.solutions, System(1, 0, 0))

    def test_no_numbers_are_a_mistake_of_the_caller(self):
        self.assertRaises(TypeError, Equation, {(0, 1): [0.5]})
        self.assertRaises(ValueError, System.of_lists, 0, [[[[1]]], [[[1]], [[1]]]])
