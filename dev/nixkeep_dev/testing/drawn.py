"""Scenarios that Hypothesis draws, and tries of them. A seed draws the same each time, and no folder keeps anything.

Each request is drawn as bytes, whatever comes before it, and `nixkeep_dev.model.scenarios` says what they mean. To draw
a value takes Hypothesis 20 microseconds whether it is of a bit or of many bytes. And of a list it leaves out at most
five values at once, in the version of Debian: so an item of a list has four at most, and one more for going on. Lists
of requests are drawn first, since it begins to leave out there.
"""
from collections.abc import Callable

import hypothesis
from hypothesis import HealthCheck, Phase, Verbosity, strategies
from hypothesis.database import InMemoryExampleDatabase
from hypothesis.strategies import SearchStrategy

from nixkeep_dev.model.requests import SIZES
from nixkeep_dev.model.runs import Scenario
from nixkeep_dev.model.scenarios import Scenarios

# (deadlines and the check of how fast values are drawn would measure how busy the machine is)
SETTINGS = {"deadline": None, "report_multiple_bugs": False, "verbosity": Verbosity.quiet,
            "suppress_health_check": [HealthCheck.too_slow]}
# Hypothesis stops after 500 failures, each of a smaller example. Then it goes on from the smallest, a few times.
STOPS, ROUNDS = 500, 4
Flaky = hypothesis.errors.Flaky


def choices(size: int) -> SearchStrategy[bytes]:
    return strategies.binary(min_size=size, max_size=size)


lists, tuples = strategies.lists, strategies.tuples
REQUEST = tuples(*map(choices, SIZES))
COMMANDS = strategies.just([]) | lists(REQUEST, max_size=4)
# Whether there is no stream after commands.
ENDS = strategies.booleans()
# (a list has about five items, so there are about forty messages)
STREAM = tuples(lists(REQUEST, max_size=8), lists(lists(REQUEST, max_size=10), min_size=4, max_size=11), choices(24))
# The first database, if there is one: its objects and its roots.
WORLD = strategies.none() | tuples(lists(tuples(choices(14), choices(24)), max_size=10),
                                   lists(choices(12), max_size=8), choices(12))
CONFIGS = lists(choices(24), min_size=1, max_size=2)


@strategies.composite
def scenarios(draw: Callable) -> Scenario:
    commands, ends = draw(COMMANDS), draw(ENDS)
    stream = None if commands and ends else draw(STREAM)
    return Scenarios().scenario(commands, stream, draw(WORLD), draw(CONFIGS), draw(choices(4)))


def tries(test: Callable, strategy: SearchStrategy, seed: int, count: int) -> None:
    """Calls a test with values of a strategy. Where one fails, smaller ones are tried, and what the test raises by the
    smallest is raised; or `Flaky`, where that raises nothing when it is called again."""
    database, failures = InMemoryExampleDatabase(), []

    def each(value):
        try:
            test(value)
        except Exception as failure:
            failures.append(failure)
            raise

    for at in range(ROUNDS):
        phases, before = [Phase.reuse if at else Phase.generate, Phase.shrink], len(failures)
        settings = hypothesis.settings(max_examples=count, database=database, phases=phases, **SETTINGS)
        try:
            # (`seed` takes the database away, so the settings come after it)
            return settings(hypothesis.seed(seed)(hypothesis.given(strategy)(each)))()
        except Exception:
            if len(failures) - before < STOPS or at == ROUNDS - 1:
                raise
