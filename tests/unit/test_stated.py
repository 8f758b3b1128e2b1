"""Tests of the tree of definitions and statements alone, without the prover."""

import os
import tempfile
import unittest

from tests.mistakes import mutants, stated
from tests.mistakes.mutant_edits import Mutant
from tests.mistakes.mutants import ILL_FORMED, REFUSED

CODE = """\
// Ends of 7 kinds.
#![tactic(auto, unfolding(crate::specs::Ends::wide))]

pub mod inner;
use a::ends::{Low, High};
use a::other::{Word};
ghost use Rattle.a.specs.Ends.{wide};

#[derive(Clone, Copy)]
pub struct Ends {
    pub low: Low,
}

pub struct Pair(u64, u64);

impl Model for Ends {
    ghost view = { λ e. e.low };
}

impl Ends {
    const MOST: u64 = 7;

    fn wide(self) -> [u64; 2]
        ensures value { result ≡ wide self }
    {
        [self.low; 2]
    }
}

pub fn word(w: Word) -> [u64; 2]
    requires { w ≤ 7 }
    ensures value { result ≡ 7 }
{
    [7; 2]
}
"""
FILES = {
    "crates/low/src/lib.rt": "#![tactic(auto)]\n\npub struct Low;\n",
    "crates/low/specs/Lib.antt": "mod Ends\nmod Other\nmod inner\n",
    "crates/low/specs/inner.antt": "mod Room\n",
    "crates/low/specs/Ends.antt": "use Rattle.low.specs.inner.Room.{room}\nabbrev pub wide : ℕ\nwide = 7 + room\n",
    "crates/low/specs/Other.antt": "abbrev pub other : ℕ\nother = 7\n",
    "crates/low/specs/inner/Room.antt": "abbrev pub room : ℕ\nroom = 1\n",
    "crates/low/proofs/Lib.antt": "pub mod Worked\n",
    "crates/low/proofs/Worked.antt": "use Rattle.low.specs.Ends.{wide}\nuse Rattle.low.specs.Other as Other\nwide-is : wide ≡ 8\nwide-is = refl\n",
    "crates/code/src/lib.rt": CODE.replace("a::", "low::").replace("Rattle.a.", "Rattle.low."),
    "crates/code/src/inner.rt": "// Nothing.\nfn f() {}\n",
    "crates/code/specs/Lib.antt": "pub mod Shown\n",
    "crates/code/specs/Shown.antt": "use Rattle.low.specs.Other.{other}\nabbrev pub shown : ℕ\nshown = other\n",
    "crates/code/proofs/Lib.antt": "mod Laws\n",
    "crates/code/proofs/Laws.antt": "law : 1 ≡ 1\nlaw = refl\n",
    "crates/code/proofs/Worked.antt": "use Rattle.code.specs.Shown.{shown}\nshown-is : shown ≡ 7\nshown-is = refl\n",
    "crates/code/proofs/inner/f/Answers.antt": "returns = refl\n",
    "crates/code/proofs/inner/Plain.antt": "use Rattle.code.specs.Shown.{shown}\n",
}


class Reduced(unittest.TestCase):
    def test_types_alone(self):
        self.assertEqual(stated.types_alone(CODE), """\
#![tactic(auto)]
pub mod inner;
use a::ends::{Low, High};
#[derive(Clone, Copy)]
pub struct Ends {
    pub low: Low,
}
pub struct Pair(u64, u64);
impl Model for Ends {
    ghost view = { λ e. e.low };
}
""")

    def test_ghost_fields(self):
        """What they are told by stays, and goes where no type has one."""
        use, told = "ghost use Rattle.a.Ends.{small};\n", "pub struct Small {\n    pub ghost is: { small },\n}\n"
        self.assertEqual(stated.types_alone(use + told), "#![tactic(auto)]\n" + use + told)
        self.assertEqual(stated.types_alone(use + "pub struct Low;\n"), "#![tactic(auto)]\npub struct Low;\n")


class Tree(unittest.TestCase):
    def setUp(self):
        folder = tempfile.TemporaryDirectory()
        self.addCleanup(folder.cleanup)
        self.root, self.tree = os.path.join(folder.name, "root"), os.path.join(folder.name, "tree")
        stated.put(self.root, FILES)
        self.deps = stated.stated_tree(self.root, self.tree, ["low"], ["code"], {"low": [], "theory": ["low"], "code": ["low", "theory", "itoa"]})

    def read(self, path):
        return stated.read(self.tree, path)

    def test_what_is_left(self):
        self.assertEqual(self.deps, {"low": [], "code": ["low"]})
        kept = {path for kind in ("src", "specs", "proofs") for path in stated.sources(self.tree, kind)}
        self.assertEqual({path for path in FILES if path not in kept}, {"crates/code/proofs/Laws.antt", "crates/code/proofs/inner/f/Answers.antt"})
        self.assertEqual(self.read("crates/code/proofs/Lib.antt"), "pub mod Worked\n")
        self.assertEqual(self.read("crates/code/proofs/inner.antt"), "pub mod Plain\n")
        self.assertEqual(self.read("crates/low/specs/Lib.antt"), "pub mod Ends\npub mod Other\npub mod inner\n")
        self.assertNotIn("fn", self.read("crates/code/src/inner.rt"))

    def test_what_an_edit_changes(self):
        graph = stated.Graph(self.tree)
        room, other = "crates/low/specs/inner/Room.antt", "crates/low/specs/Other.antt"
        self.assertEqual(graph.above(room), {room, "crates/low/specs/Ends.antt", "crates/low/proofs/Worked.antt"})
        self.assertEqual(graph.of_stage(other, {"low"}), {other, "crates/low/proofs/Worked.antt"})
        self.assertEqual(graph.of_stage(other, {"code"}), {other, "crates/code/specs/Shown.antt", "crates/code/proofs/Worked.antt",
                                                           "crates/code/proofs/inner/Plain.antt"})
        self.assertEqual(graph.of_stage(room, {"code"}), set())

    def test_computed_statements_alone(self):
        graph, other = stated.Graph(self.tree), "crates/low/specs/Other.antt"
        self.assertEqual(graph.of_stage(other, {"low"}, computed=True), {other, "crates/low/proofs/Worked.antt"})
        self.assertEqual(graph.of_stage(other, {"code"}, computed=True),
                         {other, "crates/code/specs/Shown.antt", "crates/code/proofs/Worked.antt"})
        self.assertEqual(graph.of_stage("crates/code/specs/Shown.antt", {"low"}, computed=True), set())

    def test_copies_name_each_other_and_what_stays(self):
        graph = stated.Graph(self.tree)
        mutant = Mutant("crates/low/specs/inner/Room.antt", "room", "up", "1", 1, "2", 2, "abbrev pub room : ℕ\nroom = 2\n")
        texts = stated.copies(graph, mutant, 3, {"low"})
        self.assertEqual(texts, {
            "crates/low_3/src/lib.rt": stated.ALONE,
            "crates/low_3/specs/Lib.antt": "pub mod Ends\npub mod inner\n",
            "crates/low_3/specs/inner.antt": "pub mod Room\n",
            "crates/low_3/specs/inner/Room.antt": "abbrev pub room : ℕ\nroom = 2\n",
            "crates/low_3/specs/Ends.antt": FILES["crates/low/specs/Ends.antt"].replace(".low.", ".low_3."),
            "crates/low_3/proofs/Lib.antt": "pub mod Worked\n",
            "crates/low_3/proofs/Worked.antt": FILES["crates/low/proofs/Worked.antt"].replace(".low.specs.Ends", ".low_3.specs.Ends")})
        self.assertEqual(stated.deps_with_copies(self.deps, texts), {**self.deps, "low_3": ["low"], "all": ["low_3"]})

    def test_copies_of_a_stage_above(self):
        mutant = Mutant("crates/low/specs/Other.antt", "other", "up", "7", 1, "8", 2, "abbrev pub other : ℕ\nother = 8\n")
        texts = stated.copies(stated.Graph(self.tree), mutant, 0, {"code"})
        self.assertEqual(sorted({path.split("/")[1] for path in texts}), ["code_0", "low_0"])
        self.assertNotIn("crates/low_0/proofs/Worked.antt", texts)
        self.assertEqual(stated.deps_with_copies(self.deps, texts)["code_0"], ["code", "low", "low_0"])


SAID = """\
/t/crates/model_0/proofs/Plain.antt:3:5: error: `plain`: the two types differ
/t/crates/model_0/proofs/Worked.antt:9:1: error: `cited`: `plain` was not admitted
/t/crates/model_1/proofs/Plain.antt:3:5: error: `plain`: the two types differ
/t/crates/method_1/proofs/Pinned.antt:8:5: error: `c5-factor`: the two types differ
/t/crates/model_11/proofs/Plain.antt:3:5: error: `plain`: `all` was not admitted
/t/crates/method_11/specs/Exact.antt:3:5: error: `all`: expected type
logic=not-proved
"""


class Told(unittest.TestCase):
    def test_the_first_that_is_no_consequence(self):
        told = {number: (outcome.verdict, outcome.crate, outcome.first) for number, outcome in mutants.told(SAID, "/t").items()}
        self.assertEqual(told, {0: (REFUSED, "model", "crates/model/proofs/Plain.antt:3 plain"),
                                1: (REFUSED, "method", "crates/method/proofs/Pinned.antt:8 c5-factor"),
                                11: (ILL_FORMED, "method", "crates/method/specs/Exact.antt:3 all")})


class Checked:
    """A worker without a prover: a check refuses what it is told to, and tells nothing of a batch that is too long."""

    def __init__(self, refused, most):
        self.bad, self.most, self.sizes = refused, most, []

    def check(self, batch, crates):
        self.sizes.append(len(batch))
        return None if len(batch) > self.most else {m: REFUSED for m in batch if m in self.bad}


class Key(str):
    key = property(str)


class Batches(unittest.TestCase):
    def tried(self, count, refused, most=100):
        worker = Checked({Key(n) for n in refused}, most)
        return sorted(mutants.StatedWorker.refused(worker, [Key(n) for n in range(count)], {"model"}), key=int), worker.sizes

    def test_what_passes_has_passed_where_nothing_was_refused(self):
        self.assertEqual(self.tried(20, ()), ([], [16, 4]))
        self.assertEqual(self.tried(20, (3, 17)), (["3", "17"], [16, 4, 16, 2]))
        self.assertEqual(self.tried(3, (0, 1, 2)), (["0", "1", "2"], [3]))

    def test_a_check_that_does_not_tell_is_parted(self):
        self.assertEqual(self.tried(4, (2,), most=1), (["2"], [4, 2, 2, 1, 1, 1, 1]))


class Stage:
    """Refuses in a stage what `bad` has for it; those of `hidden` only where nothing else is refused in the same check."""

    def __init__(self, bad, hidden):
        self.bad, self.hidden, self.tried = bad, hidden, []
        self.refused_once = lambda batch, part: mutants.StatedWorker.refused_once(self, batch, part)
        self.refused = lambda batch, part: mutants.StatedWorker.refused(self, batch, part)

    def parts_of(self, path):
        return [mutants.Part({"model"}, computed=True), mutants.Part({"model"}), mutants.Part({"method", "pinned"})]

    def check(self, batch, part):
        name = min(part.crates)
        self.tried.append((name, part.computed, "".join(sorted(batch))))
        found = [m for m in batch if m in self.bad.get((name, part.computed), ())] or [m for m in batch if m in self.hidden]
        return {m: mutants.Outcome(mutants.REFUSED, name) for m in found}


class Named(Key):
    path = "crates/model/specs/Case.antt"


class Groups(unittest.TestCase):
    def tried(self, names, bad, hidden=()):
        worker, kept = Stage(bad, hidden), {}
        mutants.StatedWorker.try_group(worker, [Named(n) for n in names], lambda mutant, outcome: kept.setdefault(str(mutant), outcome))
        return {name: (outcome.verdict, outcome.crate) for name, outcome in kept.items()}, worker.tried

    def test_each_stage_is_of_what_is_left(self):
        kept, tried = self.tried("abcd", {("model", True): "a", ("model", False): "d", ("method", False): "b"})
        self.assertEqual(kept, {"a": (mutants.REFUSED, "model"), "b": (mutants.REFUSED, "method"), "c": (mutants.SURVIVES, ""),
                                "d": (mutants.REFUSED, "model")})
        self.assertEqual(tried, [("model", True, "abcd"), ("model", False, "bcd"), ("method", False, "bc"), ("model", False, "c"),
                                 ("method", False, "c")])

    def test_a_refusal_that_others_hide(self):
        kept, tried = self.tried("abcd", {("model", True): "a", ("model", False): "d", ("method", False): "c"}, hidden="b")
        self.assertEqual(kept, {"a": (mutants.REFUSED, "model"), "b": (mutants.REFUSED, "model"), "c": (mutants.REFUSED, "method"),
                                "d": (mutants.REFUSED, "model")})
        self.assertEqual(tried, [("model", True, "abcd"), ("model", False, "bcd"), ("method", False, "bc"), ("model", False, "b")])


if __name__ == "__main__":
    unittest.main()
