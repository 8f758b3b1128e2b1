"""What is promised: the section of docs/GUARANTEES.md is of the crate `promises` as it is, each function there is one promise and nothing
else, and each record of a specs/Promises.antt is promised. The last class tries these tests on small trees."""

import os
import tempfile
import unittest

from tests.mistakes import stated
from tests.mistakes.mutant_edits import read
from tests.writers import promises

ROOT = promises.ROOT


class OfTheRepository(unittest.TestCase):
    def test_the_page_lists_no_promise_that_went(self):
        self.assertEqual(promises.gone(ROOT, read(ROOT, promises.PAGE)), [])

    def test_the_section_is_what_the_script_writes(self):
        page = read(ROOT, promises.PAGE)
        self.assertEqual(page, promises.written(page, promises.section(ROOT)))
        before, after = page.split(promises.BEGIN)[0], page.split(promises.END)[1]
        self.assertEqual(before.rstrip().split("\n## ")[-1].splitlines()[0], "The functions that a host calls")
        self.assertTrue(after.startswith("\n\n## "))

    def test_each_is_a_promise_and_nothing_else(self):
        self.assertEqual(promises.faults(ROOT), [])
        self.assertEqual([promise.name for promise in promises.promises(ROOT) if not promises.records(ROOT, promise)], [])

    def test_names_are_of_one_promise(self):
        names = [f"{promise.module}::{promise.name}" for promise in promises.promises(ROOT)]
        self.assertEqual(len(set(names)), len(names))
        self.assertEqual(promises.listed(promises.section(ROOT)), names)

    def test_each_record_is_promised(self):
        self.assertEqual(promises.unused(ROOT), [])
        self.assertTrue(promises.promise_types(ROOT))

    def test_each_theorem_that_a_page_names_is_of_a_contract(self):
        self.assertEqual(promises.only_named(ROOT), [])

    def test_edits_name_promises_that_are_there(self):
        names = {f"{promise.module}::{promise.name}" for promise in promises.promises(ROOT)}
        self.assertLessEqual(set(promises.edits(ROOT)), names)


SMALL = {
    "crates.txt": "# crates\nmodel:\nsaving staticlib: model\npromises: model\n",
    "crates/promises/src/lib.rt": "// What is promised.\n#![tactic(auto)]\n\npub mod saving;\n",
    "crates/promises/src/saving.rt": """\
// A case written back,
// in its shortest form.
ghost use Rattle.model.specs.Case.{Case};
ghost use Rattle.model.specs.Promises.{
    Same, Short, Of,
};

/// Saved bytes give
/// the case.
#[tactic(auto, using(theory::proofs::Promised::same))]
pub fn same()
    ensures { Same }
{}

/// No file is shorter.
#[tactic(auto)]
pub fn short() ensures { (k : Case) → (Short k) } ensures again { Of Short } {}
""",
    "crates/model/specs/Case.antt": "pub record Case : Type 0 where\n  pub ufr : ℕ\n",
    "crates/model/specs/Promises.antt": """\
-- Two promises.
use Rattle.model.specs.Case.{Case}

pub record Inner (k : Case) : Type 0 where
  pub same : k ≡ k

-- the first
pub record Same : Type 0 where
  pub same : (k : Case) → Inner k

pub record Short (k : Case) : Type 0 where
  pub short : k ≡ k

abbrev pub Of : (Case → Type 0) → Type 0
Of P = (k : Case) → P k

pub record SaveCall (k : Case) : Type 0 where
  pub short : k ≡ k
""",
    "crates/model/must-fail/longer.edit": "# Of promises::saving::short. Refused by a-b.\nfile: specs/Case.antt\nold: ℕ\nnew: ℤ\n",
    "crates/saving/src/lib.rt": """\
ghost use Rattle.model.specs.Promises.{SaveCall};

trait Field {
    fn check(&self) -> [u8; 4] ensures { Call self };
}

fn inner(k: Case) ensures { SaveCall k } {}

/// Saves.
pub extern "C" fn save(k: Case) -> [u8; 4]
    ensures value { result ≡ k }
    ensures call { SaveCall k }
{
    [0; 4]
}
""",
    "crates/theory/proofs/Promised.antt": "pub same : Same\nsame = saved-same\n",
    "crates/theory/proofs/Saved.antt": "module _ (k : Case) where\n  pub saved-same : k ≡ k\n\n  pub saved-short : k ≡ k\n",
    "README.md": "It is `saved-same`, and `saved-short`, and `k`.\n",
    "docs/GUARANTEES.md": f"# Page\n\n{promises.BEGIN}\n{promises.END}\n\n## After\n",
}


class TestOfTheTest(unittest.TestCase):
    """A small tree, with a fault at a time."""

    def tree(self, place="", old="", new=""):
        """The tree, with a change in the file whose path ends so."""
        folder = tempfile.TemporaryDirectory()
        self.addCleanup(folder.cleanup)
        for path, text in SMALL.items():
            if place and path.endswith(place):
                self.assertEqual(text.count(old), 1, old)
                text = text.replace(old, new)
            full = os.path.join(folder.name, path)
            os.makedirs(os.path.dirname(full), exist_ok=True)
            with open(full, "w", encoding="utf-8") as file:
                file.write(text)
        return folder.name

    def faults(self, old, new):
        return promises.faults(self.tree("saving.rt", old, new))

    def test_the_small_tree_is_well(self):
        root = self.tree()
        self.assertEqual(promises.faults(root), [])
        self.assertEqual(promises.unused(root), [])

    def test_the_section(self):
        self.assertEqual(promises.section(self.tree()).splitlines()[5:], [
            "### `saving`", "", "A case written back, in its shortest form.", "", "| Promise | In words | Definition | Edits |", "|---|---|---|---|",
            "| [`same`](../crates/promises/src/saving.rt#L11) | Saved bytes give the case. | [`Same`](../crates/model/specs/Promises.antt#L8) |  |",
            "| [`short`](../crates/promises/src/saving.rt#L17) | No file is shorter. | [`Short`](../crates/model/specs/Promises.antt#L11), "
            "[`Of`](../crates/model/specs/Promises.antt#L14) | `model/longer` |",
            "", "### Calls", "", "What is promised of a call stands in its own contract too, over the call's own arguments.", "",
            "| Function | Record of its contract |", "|---|---|",
            "| [`saving::save`](../crates/saving/src/lib.rt#L10) | [`SaveCall`](../crates/model/specs/Promises.antt#L17) |", promises.END])

    def test_a_promise_that_went(self):
        page = promises.written(SMALL["docs/GUARANTEES.md"], promises.section(self.tree()))
        self.assertEqual(promises.gone(self.tree(), page), [])
        self.assertEqual(promises.gone(self.tree("saving.rt", "pub fn short()", "pub fn shorter()"), page), ["promises::saving::short"])
        without = self.tree("promises/src/lib.rt", "pub mod saving;\n", "")
        self.assertEqual(promises.gone(without, page), ["promises::saving::same", "promises::saving::short"])

    def test_what_is_no_promise(self):
        for old, new, fault in (
                ("fn same()", "fn same(k: u64)", "same: it has more than its name and ()"),
                ("fn same()", "fn same<T>()", "same: it has more than its name and ()"),
                ("fn same()", "fn same() -> u64", "same: it has more than its name and ()"),
                ("pub fn same", "fn same", "same: it is not public"),
                ("{ Same }\n{}", "{ Same }\n{\n    1\n}", "same: its body is not empty"),
                ("    ensures { Same }\n", "", "same: it has no contract, or more than `ensures`"),
                ("    ensures { Same }\n", "    requires { Short }\n    ensures { Same }\n", "same: it has no contract, or more than `ensures`"),
                ("/// Saved bytes give\n/// the case.\n", "", "same: it has no sentence"),
                ("#[tactic(auto)]\n", "#[cfg(test)]\n#[tactic(auto)]\n", "short: it has an attribute that is no tactic"),
                ("{ Same }", "{ (k : Case) → Gone k }", "same: Gone is no type of a specs/ that the file brings in"),
                ("{ Same }", "{ Same × (1 ≡ 1) }", "same: 1 is no type of a specs/ that the file brings in")):
            self.assertEqual(self.faults(old, new), [f"promises::saving::{fault}"], new)

    def test_a_record_in_proofs(self):
        found = self.faults("Rattle.model.specs.Promises", "Rattle.model.proofs.Promises")
        self.assertEqual(found, ["crates/promises/src/saving.rt: it has a use of proofs",
                                 "promises::saving::same: Same is no type of a specs/ that the file brings in",
                                 "promises::saving::short: Short is no type of a specs/ that the file brings in",
                                 "promises::saving::short: Of is no type of a specs/ that the file brings in"])

    def test_a_file_that_no_module_names(self):
        without = self.tree("promises/src/lib.rt", "pub mod saving;\n", "")
        self.assertEqual(promises.faults(without), ["crates/promises/src/saving.rt: lib.rt has no `pub mod` of it"])

    def test_a_function_beside_the_modules(self):
        self.assertEqual(promises.faults(self.tree("promises/src/lib.rt", "pub mod saving;\n", "pub mod saving;\nfn more() {}\n")),
                         ["crates/promises/src/lib.rt: more stands in no module"])

    def test_a_record_that_nothing_promises(self):
        path = "crates/model/specs/Promises.antt"
        self.assertEqual(promises.unused(self.tree("specs/Promises.antt", "(k : Case) → Inner k", "(k : Case) → k ≡ k")), [f"{path}: Inner"])
        only_same = self.tree("saving.rt", "{ (k : Case) → (Short k) } ensures again { Of Short }", "{ Of Same }")
        self.assertEqual(promises.unused(only_same), [f"{path}: Short"])
        named = self.tree("saving.rt", "{ Same }", "{ (k : Case) → Kept k }\n    ensures then { Same }")
        kept = "pub record Kept : Type 0 where\n  pub a : ℕ\n"
        stated.put(named, {"crates/model/specs/Kept.antt": kept + kept.replace("Kept", "Lost")})
        self.assertEqual(promises.unused(named), [])
        used = promises.read(named, promises.HOME + "saving.rt").replace("ghost use", "ghost use Rattle.model.specs.Kept.{Kept};\nghost use", 1)
        stated.put(named, {promises.HOME + "saving.rt": used})
        self.assertEqual(promises.unused(named), ["crates/model/specs/Kept.antt: Lost"])

    def test_theorems_that_only_a_page_names(self):
        self.assertEqual(promises.only_named(self.tree()), ["saved-short (crates/theory/proofs/Saved.antt)"])
        self.assertEqual(promises.only_named(self.tree("proofs/Promised.antt", "saved-same", "refl")),
                         ["saved-same (crates/theory/proofs/Saved.antt)", "saved-short (crates/theory/proofs/Saved.antt)"])
        self.assertEqual(promises.only_named(self.tree("README.md", "`saved-short`", "nothing")), [])
        named = self.tree("README.md", "`saved-short`", "`saved_short`")
        stated.put(named, {"crates/theory/proofs/More.antt": "pub saved_short : Short\n"})
        self.assertEqual(promises.only_named(named), ["saved_short (crates/theory/proofs/More.antt)"])
        stated.put(named, {"crates/theory/src/lib.rt": "#[tactic(auto, using(crate::proofs::More::saved_short))]\npub fn short()\n"})
        self.assertEqual(promises.only_named(named), [])

    def test_the_last_thing_that_a_clause_says(self):
        term = "(k : Case) (f : ℕ → ℕ) → Within k → (Saved k × (Read (f k)))"
        self.assertEqual(promises.conclusions(term), [["Saved", "k"], ["Read", "f", "k"]])
        self.assertEqual(promises.conclusions("Saved"), [["Saved"]])


if __name__ == "__main__":
    unittest.main()
