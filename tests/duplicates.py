"""Finds duplicates: equal function bodies, contracts, statements of lemmas and definitions.

Two are equal if their texts are, apart from white space, comments and declared names
(`support/sources.py`). `duplicates.list` has a line per known duplicate, with the reason why it may
stay:

- `debt`: one should go with the next change of its crate.
- `example`: a worked example, complete in itself.
- `apart`: the two differ in meaning, or must not share dependencies.

The list only gets shorter: an unlisted duplicate fails, and so does an outdated line, which
`tests/update_lists` removes.
"""

from collections import defaultdict

from tests.support import sources
from irvtools.paths import TOP
from tests.support.harness import Test

LIST = TOP / "tests/duplicates.list"
REASONS = ("debt", "example", "apart")


def found_twice(texts):
    """Returns a line for each duplicate in these files, in order."""
    places = defaultdict(list)
    for item in sources.items(texts):
        places[item.kind, item.text].append(f"{item.file}:{item.name}")
    return sorted(f"{kind} {' '.join(sorted(found))}" for (kind, _), found in places.items() if len(found) > 1)


def listed(text):
    """Returns the list's findings, each with its reason."""
    lines = (line.split(" ", 1) for line in text.splitlines() if line and not line.startswith("#"))
    return {finding: reason for reason, finding in lines}


def faults_of(found, allowed):
    """Returns the faults of the findings, compared with the allowed ones."""
    faults = [f"duplicate: {finding}" for finding in found if finding not in allowed]
    faults += [f"the list has what is no longer a duplicate (tests/update_lists): {finding}"
               for finding in allowed if finding not in found]
    return faults + [f"{reason!r} is not a reason: {finding}" for finding, reason in allowed.items()
                     if reason not in REASONS]


def still(text, found):
    """Returns the list without outdated lines."""
    return "".join(line + "\n" for line in text.splitlines()
                   if not line or line.startswith("#") or line.split(" ", 1)[1] in found)


# files with duplicates, and the findings in them
PLANTED = {
    "crates/a/src/one.rt": """\
// A line.
fn first(a: u64) -> u64
    ensures { result ≡ a }
{
    // the sum
    let sum = a + some_other_number(a);
    let twice = sum + sum;
    twice - some_other_number(a)
}

fn short() {
    let a = 1;
}

fn sum(a: u64) -> u64
    ensures { result ≡ a + some_other_number_of_this_crate }
{
    some_other_number(a)
}
""",
    "crates/b/src/two.rt": """\
// Another line.
pub fn other(a: u64) -> u64
    // as it is
    ensures { result ≡ a + some_other_number_of_this_crate }
{
    a
}

impl Second {
    fn method(a: u64) -> u64
        ensures { result ≡ a + some_other_number_of_this_crate }
    {
        a
    }

    pub fn second(&self, a: u64) -> u64 {
        let sum = a + some_other_number(a);
        let twice = sum + sum;
        twice - some_other_number(a)
    }

    pub fn third(&self, a: u64) -> u64 {
        let sum = a + some_other_number(a);
        let twice = sum + sum;
        twice + some_other_number(a)
    }
}
""",
    "crates/a/proofs/One.antt": """\
use Rattle.std.proofs.Common.{◌≡◌, refl}

-- a law
pub first-law : (a b : Number) → sum a b ≡ sum b a
first-law zero b = refl
first-law (suc a) b = ap (λ x. suc x) (first-law a b)

module _ (p : Plant) (sound : IsSound p) where
  within : (x : Number) → has_section x p.sections ≡ true
  within x = sound.within x
""",
    "crates/b/proofs/Two.antt": """\
pub second-law : (a b : Number)
    → sum a b ≡ sum b a
second-law a b = refl

module _ (p : Plant) where
  within : (x : Number) → has_section x p.sections ≡ true
  within x = cc

pub other-law : (a b : Number) → sum a b ≡ product b a
other-law a b = refl
""",
    "crates/a/specs/One.antt": """\
abbrev pub doubled : List Number → List Number
doubled [] = []
doubled (x ∷ xs) = x ∷ x ∷ doubled xs
""",
    "crates/b/specs/Two.antt": """\
abbrev pub repeated : List Number → List Number
repeated [] = []
repeated (x ∷ xs) = x ∷ x ∷ repeated xs

abbrev pub other : List Number → List Number
other [] = []
other (x ∷ xs) = x ∷ other xs
""",
    "tools/one.py": '''\
def first(rows):
    """What is said of it."""
    found = [row for row in rows if row.startswith("a line") and not row.endswith("an end")]
    return sorted(set(found)) + [row for row in rows if row not in found]
''',
    "tests/two": '''\
class Second:
    def second(rows):
        found = [row for row in rows if row.startswith("a line") and not row.endswith("an end")]
        return sorted(set(found)) + [row for row in rows if row not in found]

    def third(rows, more):
        found = [row for row in rows if row.startswith("a line") and not row.endswith("an end")]
        return sorted(set(found)) + [row for row in rows if row not in found]
''',
}
WANTED = [
    "body crates/a/src/one.rt:first crates/b/src/two.rt:second",
    "contract crates/a/src/one.rt:sum crates/b/src/two.rt:other",
    "definition crates/a/specs/One.antt:doubled crates/b/specs/Two.antt:repeated",
    "python tests/two:second tools/one.py:first",
    "statement crates/a/proofs/One.antt:first-law crates/b/proofs/Two.antt:second-law",
]


def self_check():
    """Checks that planted duplicates are found and compared with a list."""
    found = found_twice(PLANTED)
    assert found == WANTED, found
    text = "# remarks\n" + "".join(f"debt {finding}\n" for finding in WANTED)
    assert faults_of(found, listed(text)) == []
    less = listed(text.replace(f"debt {WANTED[0]}\n", ""))
    assert faults_of(found, less) == [f"duplicate: {WANTED[0]}"]
    gone = faults_of(WANTED[1:], listed(text))
    assert len(gone) == 1 and gone[0].endswith(WANTED[0]) and "no longer" in gone[0], gone
    assert still(text, WANTED[1:]) == text.replace(f"debt {WANTED[0]}\n", "")
    assert still(text, WANTED + ["python a:b c:d"]) == text
    assert len(faults_of(found, listed(text.replace("debt body", "so body")))) == 1


def update():
    """Removes outdated lines from the list."""
    text = LIST.read_text(encoding="utf-8")
    LIST.write_text(still(text, found_twice(sources.texts_of(TOP))), encoding="utf-8")


class DuplicateTests(Test):
    """Tests that nothing new is duplicated."""

    def test_self_check(self):
        """Planted duplicates are found, and a list is compared with them."""
        self_check()

    def test_sources(self):
        """`duplicates.list` has exactly the duplicates."""
        found = found_twice(sources.texts_of(TOP))
        self.see(faults_of(found, listed(LIST.read_text(encoding="utf-8"))), max(len(found), 1))
