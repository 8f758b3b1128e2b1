"""Writes crates/flat/proofs/Pinned.antt: what a host is told of an answer, and what a struct says and prints."""

import os
import tomllib

from tests import ROOT
from tests.reference import reference
from tests.reference.reference import MONEY
from tests.writers.antt import computed, definition, record, short_list
from tests.writers.statements import listed, maker, strings

HOST_HEAD = """\
-- What a host is told: the numbers of verdicts and refusals, each figure in its place, kinds of points, counts and UFRs; and what a struct of
-- these numbers says, and prints. All of it as computed statements about the definitions.
-- tests/writers wrote this file, from the one table of words, hosts/words.toml: change that, not this. Assumes nothing.
use Prim.Native.Nat.{ℕ}
use Prim.Native.String.{String}
use mathlib.Core.Path.{◌≡◌, refl}
use mathlib.Core.List.{List, [], ◌∷◌, ◌++◌, map}
use Rattle.std.specs.Prelude.{Ok, Err}
use Rattle.std.specs.Float.{binary64}
use Rattle.std.specs.Float.Ieee.{of_bits}
use Rattle.refusal.specs.declared.Refusal.{Refusal}
use Rattle.refusal.specs.declared.Refusal.TheVariants.{
  EndsEarly,
  BytesFollow,
  WrongFields,
  DayCount,
  Rate,
  Forward,
  FlowCount,
  Flow,
  Ufr,
  Amount,
  Shock,
  People,
  Buffers,
  Room,
  WindowFull,
  WindowEmpty,
  History,
  Month,
  MonthsUfr,
  Damaged,
}
use Rattle.model.specs.declared.figures.Figures.{Figures}
use Rattle.model.specs.declared.figures.Verdict.{Verdict}
use Rattle.model.specs.declared.figures.Verdict.TheVariants.{Dekkingstekort, Reservetekort, VrijVermogen, Onbeslist}
use Rattle.model.specs.declared.figures.Valuation.{Valuation}
use Rattle.model.specs.declared.window.Point.TheVariants.{Factor, Money, Blank}
use Rattle.method.specs.Window.{double}
use Rattle.method.specs.Listing.{listing}
use Rattle.method.proofs.Computing.{text, all}
use Rattle.flat.specs.Flat.{verdict_number, verdict_from, host_valuation, valuation_from, host_point, host_saved, host_ufr}
use Rattle.flat.specs.declared.HostValuation.{HostValuation}
use Rattle.flat.specs.declared.HostSaved.{HostSaved}
use Rattle.flat.specs.declared.HostUfr.{HostUfr}
"""

with open(os.path.join(ROOT, "hosts/words.toml"), "rb") as file:
    WORDS = tomllib.load(file)
OTHER_NAMES = {"MAP": "WrongFields", "GROWTH": "Forward", "BUFFER": "Buffers", "SAVED_BUFFER": "Room", "ROLLING_FULL": "WindowFull",
               "ROLLING_EMPTY": "WindowEmpty"}  # of the refusals that the table calls otherwise than the definitions do
UNDECIDED = [0, 5, 255]  # numbers that no verdict has
FIGURES = [name.lower() for name in MONEY]


def variant(entry):
    """The refusal or the verdict of an entry of the table, as the definitions have it."""
    return OTHER_NAMES.get(entry["name"]) or entry["name"].title().replace("_", "")


def numbered_definition(name, kind, entries, what):
    """The variants of entries of the table, each with its number as a comment."""
    return definition(name, f"List {kind}", listed([(str(entry["number"]), variant(entry)) for entry in entries]), what)


def brackets(numbers):
    """Figures that have these brackets, by name."""
    return record([(name, f"record {{ lower = {lower}; upper = {upper} }}") for name, (lower, upper) in zip(FIGURES, numbers, strict=True)])


def host_definitions():
    """Ten different brackets; the structs, of their numbers in order; every verdict and every refusal, in the order of the table."""
    ten = [(2 * at + 1, 2 * at + 2) for at in range(len(FIGURES))]
    return [f"-- ten brackets, no number of which is another's\nabbrev pub ten_brackets : Figures\nten_brackets = {brackets(ten)}\n",
            f"abbrev pub no_brackets : Figures\nno_brackets = {brackets([(0, 0)] * len(FIGURES))}\n",
            maker("judged", ["Verdict", "Valuation"], [("figures", "ten_brackets"), ("verdict", "a")], "the ten brackets with a verdict"),
            maker("told", ["ℕ", "ℕ", "Figures", "HostValuation"], [("refusal", "a"), ("verdict", "b"), ("figures", "c")],
                  "refusal, verdict and figures"),
            maker("saved", ["ℕ", "ℕ", "HostSaved"], [("refusal", "a"), ("written", "b")], "refusal and bytes written"),
            maker("found", ["ℕ", "ℕ", "HostUfr"], [("refusal", "a"), ("ufr", "b")], "refusal and UFR"),
            numbered_definition("every_verdict", "Verdict", WORDS["verdict"], "every verdict, with its number"),
            numbered_definition("every_refusal", "Refusal", WORDS["refusal"], "every refusal, with its number")]


def of_refusals(term, told):
    """That the term of each refusal is what is told of its number."""
    return f"map (λ r. {term}) every_refusal ≡ map ({told}) ({short_list(entry['number'] for entry in WORDS['refusal'])})"


def host_statements():
    """What is told of an answer: each figure by its name, the number of each verdict, and a refusal's number with zeros."""
    numbers = short_list(entry["number"] for entry in WORDS["verdict"])
    figures = [f"(host_valuation (Ok (judged Onbeslist))).figures.{name}.{end} ≡ {2 * at + more}"
               for at, name in enumerate(FIGURES) for more, end in enumerate(("lower", "upper"), 1)]
    return [computed("verdict-numbers", f"map verdict_number every_verdict ≡ {numbers}"),
            computed("host-figures", *figures),
            computed("host-verdicts", f"map (λ v. host_valuation (Ok (judged v))) every_verdict ≡ map (λ n. told 0 n ten_brackets) ({numbers})"),
            computed("host-refusals", of_refusals("host_valuation (Err r)", "λ n. told n 0 no_brackets")),
            computed("host-saved", "host_saved (Ok 160) ≡ saved 0 160", "host_saved (Ok 0) ≡ saved 0 0",
                     of_refusals("host_saved (Err r)", "λ n. saved n 0")),
            computed("host-ufr", "host_ufr (Ok 3100) ≡ found 0 3100", "host_ufr (Ok 0) ≡ found 0 0",
                     of_refusals("host_ufr (Err r)", "λ n. found n 0")),
            computed("host-points", "host_point Blank ≡ record { kind = 0; lower = of_bits binary64 0; upper = of_bits binary64 0 }",
                     *(f"host_point ({kind} (double 3) (double 4)) ≡ record {{ kind = {number}; lower = double 3; upper = double 4 }}"
                       for number, kind in enumerate(("Factor", "Money"), 1)))]


def said_statements():
    """What a struct says: each number of a verdict, and numbers that none has; each number of a refusal, and others, before the verdict."""
    refusals = short_list([entry["number"] for entry in WORDS["refusal"]] + [20, 255])
    rows = [(entry["number"], variant(entry)) for entry in WORDS["verdict"]] + [(number, "Onbeslist") for number in UNDECIDED]
    return [computed("verdicts-back", *(f"verdict_from {number} ≡ {verdict}" for number, verdict in rows)),
            computed("figures-back", *(f"valuation_from (told 0 {number} ten_brackets) ≡ Ok (judged {verdict})" for number, verdict in rows)),
            computed("refusals-back", f"map (λ n. valuation_from (told n 3 ten_brackets)) ({refusals}) ≡ map Err ({refusals})")]


def printed_statements():
    """The listing of a struct with each number: the word of its verdict, or a refusal."""
    lines = [f"{name} {2 * at + 1} {2 * at + 2}" for at, name in enumerate(MONEY)]
    words = [(entry["number"], entry["word"]) for entry in WORDS["verdict"]] + [(number, reference.ONBESLIST) for number in UNDECIDED]
    last = WORDS["refusal"][-1]["number"]
    printed = lambda refusal, verdict: f"listing (valuation_from (told {refusal} {verdict} ten_brackets))"
    return [definition("ten_lines", "List String", strings(lines)),
            computed("host-listings", *(f'{printed(0, number)} ≡ text (ten_lines ++ ("V {word}" ∷ []))' for number, word in words),
                     f'{printed(1, 3)} ≡ text ("R 1" ∷ [])', f'{printed(last, 3)} ≡ text ("R {last}" ∷ [])')]


def host_told():
    return "\n".join([HOST_HEAD, *host_definitions(), *host_statements(), *said_statements(), *printed_statements()])


PATHS = {"crates/flat/proofs/Pinned.antt": host_told}
