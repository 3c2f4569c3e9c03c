"""Systems for the tests: the worked example, and random ones from a seed."""
from random import Random
from pathlib import Path

from wurgalm import Equation, Refused, Relation, System, run

ROOT = Path(__file__).resolve().parent.parent.parent
EXAMPLES = ROOT / "examples"
K2 = System(2, 1, 0, [{(1, 1): [0, 1], (0, 2): [-1]}, {(1, 1): [1], (0, 1): [-1]}])


def random_polynomial(random, degree):
    return [random.randint(-3, 3) for _ in range(random.randint(0, degree) + 1)]


def random_equation(random, unknowns, highest, lowest):
    places = [(block, column) for block in range(lowest, highest + 1) for column in range(1, unknowns + 1)]
    terms = {place: random_polynomial(random, 2) for place in places if random.random() < 0.6}
    return Equation(terms, random_polynomial(random, 1) if random.random() < 0.2 else ())


def random_system(random):
    unknowns, highest = random.randint(1, 3), random.randint(-2, 3)
    lowest = highest - random.randint(0, 2)
    equations = [random_equation(random, unknowns, highest, lowest) for _ in range(random.randint(0, unknowns + 1))]
    if equations and random.random() < 0.2:
        equations.append(random.choice(equations))
    count = random.choice([0, 0, 1, 2])
    relations = [Relation(random.randint(-5, 5), random_equation(random, unknowns, highest, lowest)) for _ in range(count)]
    return System(unknowns, highest, lowest, equations, relations)


def accepted_systems(seed, count, **how):
    """So many random systems, those whose run is refused left out."""
    random, found = Random(seed), []
    while len(found) < count:
        system = random_system(random)
        try:
            run(system, **how)
        except Refused:
            continue
        found.append(system)
    return found
