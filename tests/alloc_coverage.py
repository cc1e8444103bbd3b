"""Finds public calls that may run out of memory and that nothing calls.

No clause refuses a body that always answers out of memory, because memory is never promised. Only a
call with ample memory finds it. So each such public function must be called outside its own body:
by the program, on the way from `run`, or by a test. A function is called by its name; a method by
its type's name before it, or after a dot in a file that names the type.
"""

import re
from collections import namedtuple
from irvtools.paths import TOP
from tests.support.harness import Test

WANT = re.compile(r"\bAllocError\b|\bFormError\b|\bReadError\b|\bOutOfMemory\b")
REMARK = re.compile(r"//[^\n]*")
IMPL = re.compile(r"^impl(?:<[^{]*?>)?\s+(?:[\w:]+(?:<[^{]*?>)?\s+for\s+)?(\w+)", re.M)
FUNCTION = re.compile(r"^( *)(pub(?:\([a-z]+\))? )?fn (\w+)", re.M)

Call = namedtuple("Call", "crate file owner name")


def code(text):
    """Returns the text without its comments."""
    return REMARK.sub("", text)


def owner_at(text, place):
    """Returns the type whose `impl` contains a place, or `None`."""
    owner = None
    for found in IMPL.finditer(text, 0, place):
        ends = text.find("\n}", found.start())
        owner = found.group(1) if ends > place else None
    return owner


def signature(text, place):
    """Returns the text from a function's name to its clauses or its body."""
    ends = re.compile(r"\n\s*(?:requires|ensures|where)\b|\{|;").search(text, place)
    return text[place:ends.start() if ends else len(text)]


def public_calls(files):
    """Yields the public functions and methods that may answer out of memory."""
    for file, text in files.items():
        crate = file.split("/")[0]
        if crate.endswith("_tests") or crate == "irv":
            continue
        for found in FUNCTION.finditer(text):
            if found.group(2) != "pub " or not WANT.search(signature(text, found.end()).partition("->")[2]):
                continue
            yield Call(crate, file, owner_at(text, found.start()), found.group(3))


def exported(crate, files):
    """Returns the names that a crate re-exports."""
    lib = files.get(f"{crate}/src/lib.rt", "")
    return set(re.findall(r"\w+", " ".join(re.findall(r"^pub use [^;]*;", lib, re.M))))


def used_from(call, file):
    """Returns the pattern for importing a function into another file."""
    crate = "crate" if file.startswith(call.crate + "/") else call.crate
    return rf"\buse {crate}::[^;]*\b{call.name}\b"


def makes(call, file, text):
    """Returns whether a file makes a call outside its definition."""
    if call.owner is None:
        # it is that crate's function only in its own file or one that imports its name
        if file != call.file and not re.search(used_from(call, file), text):
            return False
        calls = rf"(?<!fn )(?<![.:\w]){call.name}(?:::<[^()]*>)?\(|[(,|] *{call.name} *[,)]"
    else:
        if not re.search(rf"\b{call.owner}\b", text):
            return False
        calls = rf"\b{call.owner}(?:::<[^()]*>)?::{call.name}\b|\bSelf::{call.name}\(|\.{call.name}\("
    statements = re.sub(r"^(?:pub )?(?:ghost )?use [^;]*;", "", text, flags=re.M)
    return re.search(calls, statements) is not None


def uncalled(files):
    """Returns how many calls there are, and those that nothing makes."""
    count, missing = 0, []
    for call in public_calls(files):
        names = exported(call.crate, files)
        if (call.owner or call.name) not in names:
            continue
        count += 1
        if not any(makes(call, file, text) for file, text in files.items()):
            missing.append(call)
    return count, missing


def read_files():
    """Returns the code of all crates, by file below crates/."""
    crates = TOP / "crates"
    return {str(it.relative_to(crates)): code(it.read_text())
            for it in sorted(crates.glob("*/src/**/*.rt"))}


def self_check():
    """Checks that uncalled functions and methods are found, and called ones are not."""
    lib = "mod a;\npub use a::{asked, Found, left};\n"
    own = ("pub fn asked(alloc: Global) -> Result<u64, AllocError> {\n}\n"
           "pub fn left(alloc: Global) -> Result<u64, AllocError> {\n}\n"
           "impl Found {\n    pub fn new(alloc: Global) -> Result<Found, AllocError> {\n    }\n\n"
           "    pub fn lost(&mut self) -> Result<(), AllocError> {\n    }\n}\n")
    above = ("use a::{asked, Found};\nfn run() {\n    asked(alloc)?;\n    Found::new(alloc)?;\n"
             "    other.left(alloc)?;\n}\n")
    files = {"a/src/lib.rt": lib, "a/src/a.rt": own, "b/src/lib.rt": above}
    count, missing = uncalled(files)
    assert count == 4, count
    assert [(it.owner, it.name) for it in missing] == [(None, "left"), ("Found", "lost")], missing
    files["c_tests/src/lib.rt"] = "use a::left;\nfn test() {\n    left(alloc)?;\n    let f = Found::new(alloc)?;\n    f.lost()?;\n}\n"
    assert uncalled(files) == (4, []), uncalled(files)


class AllocCoverageTests(Test):
    """Tests that each public call that may run out of memory has a caller."""

    def test_self_check(self):
        """Uncalled functions and methods are found, and called ones are not."""
        self_check()

    def test_calls(self):
        """Something calls each; otherwise a body that always answers out of memory would pass."""
        count, missing = uncalled(read_files())
        self.see([f"nothing calls {f'{call.owner}::' if call.owner else ''}{call.name} of crates/{call.file}"
                  for call in missing], count)
