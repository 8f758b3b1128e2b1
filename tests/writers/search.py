"""Writes crates/searchmodel/proofs/SearchCases.antt: the search for a zero rate."""

from tests.inputs import examples
from tests.reference import reference
from tests.reference.reference import ALL_STEPS, LOWER, TESTS, UPPER, Rounded, StepsLeft
from tests.writers.antt import ENDS, argument, both_ends, computed, definition, short_list
from tests.writers.statements import WRITTEN, ends, maker

SEARCH_HEAD = """\
-- The search for a zero rate: the step that is tested next, what a test leaves, the steps left after each test, and how many tests are
-- made, as computed statements about the definitions.
""" + WRITTEN + """\
use Prim.Native.Nat.{ℕ, ◌-◌, ◌*◌}
use mathlib.Core.Path.{◌≡◌, refl}
use mathlib.Core.Bool.{Bool, true, false}
use mathlib.Core.List.{List, [], ◌∷◌, map}
use Rattle.arith.specs.Rounding.{End, low, high}
use Rattle.searchmodel.specs.Bisection.{middle, halved, after_tests, tests_made, rate_test, steps_left, is_left, how_many, most_left}
use Rattle.searchmodel.specs.declared.StepsLeft.{StepsLeft}
use Rattle.searchmodel.proofs.Computing.{all}
"""

FALL = 10 ** 9  # of a made-up factor, a term
MADE_UP = f"""\
-- a step that passes, and one that fails, whichever it is
abbrev pub passing : ℕ → Bool
passing step = true

abbrev pub failing : ℕ → Bool
failing step = false

-- a factor that has these ends at term 0 and falls by {FALL} a term
abbrev pub falling : ℕ → ℕ → End → ℕ → ℕ
falling a b low t = a - {FALL} * t
falling a b high t = b - {FALL} * t
"""
SOME_HALVINGS = 0, 1, 13, 14, 15, 16, 30
SEARCHED_TERMS = 2, 4, 21  # of which the searches of 4 make 15 tests and 14, the others 14 and 15


def interval(left):
    return f"between {left.first} {left.last}"


def interval_argument(left):
    return argument(interval(left))


def within(left):
    """Whether a step is one of these."""
    return lambda step: left.first <= step <= left.last


def search_definitions():
    fields = list(zip(StepsLeft._fields, "ab"))
    return [maker("between", ["ℕ", "ℕ", "StepsLeft"], fields, "the steps a to b, both included"),
            definition("every_test", "List ℕ", short_list(range(TESTS + 1))), MADE_UP]


def middle_statement():
    """Of odd and of even numbers of steps, of two and of one."""
    rows = [ALL_STEPS, StepsLeft(0, 10_999), StepsLeft(11_001, 22_000), StepsLeft(3, 5), StepsLeft(7, 8),
            StepsLeft(8, 11), StepsLeft(6, 6)]
    return computed("middles", *(equation for left in rows for equation in both_ends(
        f"middle {{e}} {interval_argument(left)}", ends(lambda end: reference.middle(left, end)))))


def halved_equations(test, passes, left):
    return [f"halved {word} {test} {interval_argument(left)} ≡ {interval(reference.halved(left, passes, end))}"
            for end, word in ENDS]


def halved_statements():
    """Where every step passes and where none does; then, by tests that part there, that the middle decides."""
    rows = [ALL_STEPS, StepsLeft(0, 10_999), StepsLeft(3, 5), StepsLeft(7, 8), StepsLeft(6, 6)]
    parting = [(ALL_STEPS, StepsLeft(0, 10_999)), (ALL_STEPS, StepsLeft(11_000, 11_000)),
               (ALL_STEPS, StepsLeft(11_001, 22_000)), (StepsLeft(8, 11), StepsLeft(9, 9)),
               (StepsLeft(8, 11), StepsLeft(10, 10))]
    of_rows = lambda test, passes: [equation for left in rows for equation in halved_equations(test, passes, left)]
    return [computed("halved-on-pass", *of_rows("passing", lambda step: True)),
            computed("halved-on-fail", *of_rows("failing", lambda step: False)),
            computed("halved-by-the-middle", *(equation for left, passing in parting for equation in halved_equations(
                f"(is_left {interval_argument(passing)})", within(passing), left)))]


def after_each(term, left):
    """What is left after each test; term takes their number."""
    return f"map ({term}) every_test ≡ {short_list(map(interval, left))}"


def after_statement(name, *tests):
    """tests: for the lower and the upper rate the term of a test, and the test."""
    return computed(name, *(after_each(f"after_tests {word} {test}", reference.halvings(passes, end))
                            for (end, word), (test, passes) in zip(ENDS, tests, strict=True)))


def after_statements():
    """Where every step passes, where none does, and where both rates are step 6,200."""
    parts = StepsLeft(0, 6_200), StepsLeft(6_200, ALL_STEPS.last)
    return [after_statement("after-passes", *[("passing", lambda step: True)] * 2),
            after_statement("after-fails", *[("failing", lambda step: False)] * 2),
            after_statement("after-tests", *((f"(is_left {interval_argument(part)})", within(part)) for part in parts))]


def tests_made(passes, end, most):
    """How many of the first halvings, up to a number, make a test: "a single step is not tested"."""
    first = reference.halvings(passes, end)
    halved = first + reference.halvings(passes, end, first[-1])[1:]
    return sum(left.first < left.last for left in halved[:most])


def made_equations(terms, passes):
    """The numbers of tests of both searches; terms and passes: for each end the term of a test, and the test."""
    return [f"map (tests_made {word} {term}) some_halvings ≡ {short_list(tests_made(test, end, most) for most in SOME_HALVINGS)}"
            for (end, word), term, test in zip(ENDS, terms, passes, strict=True)]


def tests_made_statements():
    """Of tests that every step passes or fails: of 22,001 steps some searches need 15 tests and others 14, and none makes more with a larger
    budget. Then of both searches of some terms."""
    bent = Rounded(examples.bent())
    out = [definition("some_halvings", "List ℕ", short_list(SOME_HALVINGS), "no test, one, around the most, and many more"),
           computed("tests-counted", *made_equations(["passing"] * 2, [lambda step: True] * 2),
                    *made_equations(["failing"] * 2, [lambda step: False] * 2))]
    for t in SEARCHED_TERMS:
        factor = bent.factors[t]
        terms = [f"(rate_test {factor_argument(factor, t)} {word} {t})" for _, word in ENDS]
        passes = [lambda step, end=end: reference.step_passes(step, factor, t, end) for end, _ in ENDS]
        out.append(computed(f"tests-made-{t}", *made_equations(terms, passes)))
    return out


def factor_argument(factor, t):
    """A factor that is this one at term t."""
    return f"(falling {factor[LOWER] + FALL * t} {factor[UPPER] + FALL * t})"


def steps_left_statement(name, factor, t):
    """Both searches of a term."""
    return computed(name, *(after_each(f"steps_left {factor_argument(factor, t)} {word} {t}",
                                       reference.steps_left(factor, t, end)) for end, word in ENDS))


def long_term_statement(name, factor, t):
    """After some of the tests only, since each of them takes t divisions."""
    return computed(name, *(f"steps_left {factor_argument(factor, t)} {word} {t} {tests} ≡ "
                            f"{interval(reference.steps_left(factor, t, end)[tests])}"
                            for end, word in ENDS for tests in (1, 8, TESTS)))


def steps_left_statements():
    """Factors of the bent curve; then wide ones at term 2, whose ends are results of the steps 3,234 and 5,456, and
    wider ones by a unit at each end."""
    bent = Rounded(examples.bent())
    lower, upper = reference.discounted(3_456, 2, UPPER), reference.discounted(1_234, 2, LOWER)
    return [steps_left_statement("steps-left-1", bent.factors[1], 1),
            steps_left_statement("steps-left-21", bent.factors[21], 21),
            long_term_statement("steps-left-120", bent.factors[120], 120),
            steps_left_statement("steps-left-reached", (lower, upper), 2),
            steps_left_statement("steps-left-missed", (lower - 1, upper + 1), 2)]


def is_left_equation(left, *steps):
    told = short_list("true" if within(left)(step) else "false" for step in steps)
    return f"map (is_left {interval_argument(left)}) ({short_list(steps)}) ≡ {told}"


def how_many_equation(left, n):
    return f"how_many (is_left {interval_argument(left)}) {n} ≡ {sum(map(within(left), range(n)))}"


def counted_statements():
    """At and around both ends; one step, all steps, and steps that run past those that are counted."""
    counted = [((3, 7), 12), ((4, 4), 12), ((0, 0), 12), ((11, 11), 12), ((12, 12), 12), ((0, 11), 12), ((9, 30), 12),
               ((12, 30), 12), (ALL_STEPS, 12), ((3, 7), 0), ((3, 7), 4), ((3, 7), 8)]
    return [computed("is-left", is_left_equation(StepsLeft(5, 9), 0, 4, 5, 7, 9, 10, 22_000),
                     is_left_equation(StepsLeft(0, 1), 0, 1, 2), is_left_equation(StepsLeft(6, 6), 5, 6, 7),
                     is_left_equation(ALL_STEPS, 0, 11_000, 22_000, 22_001)),
            computed("how-many", *(how_many_equation(StepsLeft(*left), n) for left, n in counted)),
            computed("most-left", f"map most_left every_test ≡ {short_list(map(reference.most_left, range(TESTS + 1)))}")]


def search_cases():
    return "\n".join([SEARCH_HEAD, *search_definitions(), middle_statement(), *halved_statements(), *after_statements(),
                      *steps_left_statements(), *tests_made_statements(), *counted_statements()])


PATHS = {"crates/searchmodel/proofs/SearchCases.antt": search_cases}
