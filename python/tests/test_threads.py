"""One run in several threads, copies of it, and processes that are forked: no answer is a mixture of two calls."""
import copy
import os
import pickle
import sys
import threading
import unittest
from random import Random

import made
import wurgalm
from wurgalm import System, systems

THREADS = 4
CALLS = 10_000  # of each thread
#: A system whose run has many steps.
LONG = System(3, 1, 0, [
    {(1, 1): [1, 1], (1, 2): [2], (0, 3): [1]}, {(1, 1): [0, 1], (1, 3): [1], (0, 1): [-1]},
    {(1, 2): [1], (0, 1): [3], (0, 2): [1, 2]}, {(1, 1): [1], (0, 2): [1]},
])


def progresses(system):
    """What each number of steps leads to, but for the steps of the last call."""
    return [facts(wurgalm.prepare(system).take(steps)) for steps in range(wurgalm.prepare(system).take(252).steps + 1)]


def facts(progress):
    return progress.system, progress.state, progress.run


def in_threads(work):
    """Runs work(number) in each thread, all begun together; gives back what was raised."""
    raised, begin = [], threading.Barrier(THREADS)

    def one(number):
        try:
            begin.wait()
            work(number)
        except BaseException as wrong:  # handed to the test
            raised.append(wrong)

    before = sys.getswitchinterval()
    sys.setswitchinterval(1e-4)
    try:
        threads = [threading.Thread(target=one, args=(number,)) for number in range(THREADS)]
        [thread.start() for thread in threads]
        [thread.join() for thread in threads]
    finally:
        sys.setswitchinterval(before)
    return raised


class Threads(unittest.TestCase):
    def test_one_run_in_four_threads(self):
        """Every answer is one that the run has, each step is taken once, and all else is a plain error."""
        expected = progresses(made.K2)
        at_state = {progress[1]: [other for other in expected if other[1] == progress[1]] for progress in expected}
        self.assertEqual(len(expected), 6)
        counts = {"answers": 0, "errors": 0}
        left, count = THREADS * CALLS, threading.Lock()
        while left > 0:
            steps, taken = wurgalm.prepare(made.K2), []

            def work(number):
                random = Random(number)
                for _ in range(200):
                    try:
                        progress = steps.take(random.randint(0, 1))
                    except RuntimeError as error:
                        self.assertIn("another thread", str(error))
                        with count:
                            counts["errors"] += 1
                        continue
                    self.assertTrue(facts(progress) in at_state[progress.state], "the run has no such answer")
                    taken.append(progress.steps)

            self.assertEqual(in_threads(work), [])
            self.assertTrue(facts(steps.progress) == expected[sum(taken)], "a step was taken twice, or lost")
            counts["answers"] += len(taken)
            left -= THREADS * 200
        self.assertEqual(sum(counts.values()), THREADS * CALLS)
        self.assertGreater(counts["answers"], THREADS * CALLS // 40)

    def test_one_system_in_four_threads(self):
        models = [LONG, made.K2, *made.accepted_systems(8, 6)]

        def answers(s):
            return wurgalm.run(s), wurgalm.run(s, "trailing"), wurgalm.run_logged(s), wurgalm.write_sheet(s)

        expected = [answers(s) for s in models]

        def work(number):
            for call in range(200):
                which = (call + number) % len(models)
                self.assertTrue(answers(models[which]) == expected[which], "another answer")

        self.assertEqual(in_threads(work), [])

    def test_a_refused_run(self):
        steps = wurgalm.prepare(System(1, 0, 0, [({(0, 1): [1]}, [1]), ({(0, 1): [1]}, [2])]))

        def work(number):
            for _ in range(200):
                try:
                    steps.take(1)
                except (RuntimeError, wurgalm.NoSolution):
                    pass

        self.assertEqual(in_threads(work), [])
        self.assertRaises(wurgalm.NoSolution, steps.take, 0)

    def test_a_call_within_a_call(self):
        """A handler that takes steps while a call is under way gets the plain error, and does not wait for itself."""
        steps = wurgalm.prepare(LONG)

        class Budget:
            def __index__(self):
                steps.take(1)
                return 1

        self.assertRaises(RuntimeError, steps.take, Budget())
        self.assertEqual(steps.take(0).state.settled, 0)
        self.assertEqual(steps.take(252).run, wurgalm.run(LONG))


class Copies(unittest.TestCase):
    COPIES = (copy.copy, copy.deepcopy, lambda steps: pickle.loads(pickle.dumps(steps)))

    def test_a_copy_goes_on_by_itself(self):
        expected = progresses(LONG)
        for copied in self.COPIES:
            steps = wurgalm.prepare(LONG)
            steps.take(2)
            other = copied(steps)
            other.take(3)
            self.assertEqual(facts(steps.progress), expected[2])
            steps.take(1)
            self.assertEqual((facts(steps.take(0)), facts(other.take(0))), (expected[3], expected[5]))
            self.assertIsNot(steps._taking, other._taking)
            self.assertEqual(other.take(252).run, wurgalm.run(LONG))

    def test_a_copy_of_a_refused_run(self):
        steps = wurgalm.prepare(System(1, 0, 0, [({(0, 1): [1]}, [1]), ({(0, 1): [1]}, [2])]))
        self.assertRaises(wurgalm.NoSolution, list, steps)
        for copied in self.COPIES:
            self.assertRaises(wurgalm.NoSolution, copied(steps).take, 1)

    def test_values(self):
        done, log = wurgalm.run_logged(LONG)
        equations = wurgalm.Differential(1, 1, 0, [{(1, 0, 1): 1, (0, 0, 1): -1}])
        found = wurgalm.solutions(wurgalm.read_differential(equations))
        values = [LONG, done, log, equations, wurgalm.prepare(LONG).take(3), wurgalm.Fits(3), found]
        for value in values:
            for copied in self.COPIES:
                self.assertEqual(copied(value), value)
        for refusal in (wurgalm.Refused.of(2, "unknowns is 5"), wurgalm.Refused.of(10), wurgalm.Refused.of(99)):
            for copied in self.COPIES:
                back = copied(refusal)
                self.assertEqual((type(back), str(back), back.number), (type(refusal), str(refusal), refusal.number))

    def test_no_object_keeps_stores(self):
        steps = wurgalm.prepare(LONG)
        steps.take(2)
        self.assertEqual(sorted(vars(steps)), ["_refused", "_taking", "progress"])
        for copied in self.COPIES:
            self.assertRaisesRegex(TypeError, "Stores", copied, systems.Stores(LONG))


@unittest.skipUnless(hasattr(os, "fork"), "there is no fork")
class Forks(unittest.TestCase):
    def test_a_forked_process_goes_on_by_itself(self):
        steps, expected = wurgalm.prepare(LONG), progresses(LONG)
        steps.take(2)
        for taken in (1, 2, 3):
            child = os.fork()
            if child == 0:
                try:
                    right = facts(steps.take(taken)) == expected[2 + taken] and steps.take(252).run == wurgalm.run(LONG)
                    os._exit(0 if right else 1)
                finally:
                    os._exit(2)
            self.assertEqual(os.waitstatus_to_exitcode(os.waitpid(child, 0)[1]), 0)
        self.assertEqual(facts(steps.take(0)), expected[2])

    def test_a_process_that_is_forked_while_a_call_is_under_way(self):
        steps, expected = wurgalm.prepare(LONG), progresses(LONG)
        inside, forked = threading.Event(), threading.Event()

        class Budget:
            def __index__(self):
                inside.set()
                forked.wait(60)
                return 1

        thread = threading.Thread(target=steps.take, args=(Budget(),))
        thread.start()
        inside.wait(60)
        self.assertRaises(RuntimeError, steps.take, 1)
        child = os.fork()
        if child == 0:
            try:
                os._exit(0 if facts(steps.take(2)) == expected[2] else 1)
            finally:
                os._exit(2)
        forked.set()
        thread.join()
        self.assertEqual(os.waitstatus_to_exitcode(os.waitpid(child, 0)[1]), 0)
        self.assertEqual(facts(steps.progress), expected[1])
