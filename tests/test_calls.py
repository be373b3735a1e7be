"""Holds docs/PROOFS.md to the sources.

- Each public call of a library of the program has a clause that says what it does, or is named in
  "Calls without a clause", and then it has none.
- The files that a reader has to trust are those that the definition `output` is based on, each with
  its lines, and no other.

`-k calls -rP` prints the public calls that can refuse or alter something, or ask something of their
caller: what each one takes and gives, its clauses and preconditions."""

import re

from tests import TOP

CALL = re.compile(
    r"^( *)(?:pub )?(?:const )?(?:unsafe )?fn (\w+)([^{;]*?)(?=\n *(?:requires|ensures)\b|\s*\{|;)",
    re.M | re.S,
)
OWNER = re.compile(r"^(?:pub )?(impl|trait)\b([^{]*)\{", re.M)
USE = re.compile(
    r"^(?:(?:unfoldable )?pub )?use Rattle\.(\w+)\.specs\.((?!declared\b)[\w.\-]+?)\.?"
    r"(?: as .*|\{([^}]*)\})?$",
    re.M,
)
# The definition of what the program writes; the files that it is based on are found from it.
OUTPUT = TOP / "crates/mix_run/specs/Output.antt"
PROOFS = (TOP / "docs/PROOFS.md").read_text()


def libraries():
    """The libraries that the program stands on, in the order of crates.txt."""
    names = re.findall(r"^(\w+)[^#\n]*:", (TOP / "crates.txt").read_text(), re.M)
    return names[: names.index("mixrev")]


def owner_of(text, at):
    """The names in the head of the block around a place, and whether it is a trait, or for a
    trait."""
    found = None
    for block in OWNER.finditer(text, 0, at):
        if text.find("\n}", block.end()) > at:
            head = re.sub(r"<[^<>]*(<[^<>]*>[^<>]*)*>", "", block[2])
            names = re.findall(r"\w+", head.split(" for ")[0])
            found = names, block[1] == "trait", " for " in block[2]
    return found


def calls(crate):
    """Each public call: its name, what it takes and gives, its clauses, what it asks of its
    caller."""
    source = TOP / "crates" / crate / "src"
    root = (source / "lib.rt").read_text()
    exported = re.findall(r"\w+", " ".join(re.findall(r"pub use [^;]*;", root)))
    opened = re.findall(r"^pub mod (\w+);", root, re.M)
    for path in sorted(source.rglob("*.rt")):
        text = path.read_text()
        own = re.findall(r"^pub (?:struct|trait|fn) (\w+)", text, re.M)
        public = {*exported, *(own if path.stem in opened else ())}
        for call in CALL.finditer(text):
            owner = owner_of(text, call.start()) if call[1] else None
            names, is_trait, of_trait = owner or ([call[2]], False, False)
            is_public = names[0] in public if is_trait else call[0].lstrip().startswith("pub ")
            if is_public and not of_trait and set(names) & public:
                ends = r";\n\n|;\n\}|\n%s\{" if is_trait else r"\n%s\{"
                after = text[call.end() :]
                end = re.search(ends % call[1], after)
                after = after[: end.start() if end else 0]
                kinds = (rf"^ *{kind} (\w*) ?\{{" for kind in ("ensures", "requires"))
                clauses = [re.findall(kind, after, re.M) for kind in kinds]
                word = f"{names[0]}::{call[2]}" if owner else call[2]
                yield word, " ".join(call[3].split()), *clauses


def part(name):
    return PROOFS.partition(f"\n## {name}\n")[2].partition("\n## ")[0]


def test_calls():
    rows = re.findall(r"(?m)^\| (`[^|]*)\|", part("Calls without a clause"))
    excused = set(re.findall(r"`(\w+(?:::\w+)?)`", "\n".join(rows)))
    bare, every = set(), set()
    for crate in libraries():
        for name, signature, ensures, requires in calls(crate):
            every.add(name)
            bare |= set() if ensures else {name}
            if "Result<" in signature or "&mut" in signature or requires:
                print(f"{crate}: {name} {signature}; clauses: {ensures}; asks: {requires}")
    assert len(every) > 100
    assert (sorted(bare - excused), sorted(excused - bare)) == ([], [])


def file_of(crate, module):
    """The file of definitions of a module, or None if it is one of the toolchain's."""
    names, specs = module.strip(".").split("."), TOP / "crates" / crate / "specs"
    files = (specs / ("/".join(names[:many]) + ".antt") for many in range(len(names), 0, -1))
    return next((file for file in files if file.is_file()), None)


def used(file):
    """The files of definitions whose names a file cites, past the preludes that pass them on."""
    for crate, module, names in USE.findall(file.read_text()):
        found = file_of(crate, module)
        if found and found.stem == "Prelude":
            cited, passed = set(names.split(", ")), USE.findall(found.read_text())
            at = (place for *place, given in passed if cited & set(given.split(", ")))
            yield from (file_of(*place) for place in at)
        elif found:
            yield found


def test_files():
    below, left = set(), [OUTPUT]
    while left:
        file = left.pop()
        if file not in below:
            below.add(file)
            left += used(file)
    names = {file: str(file.relative_to(TOP / "crates")).replace("/specs/", "/") for file in below}
    lines = {name[:-5]: len(file.read_text().splitlines()) for file, name in names.items()}
    trusted, named = part("What a reader has to trust"), {}
    for crate, files in re.findall(r"(?m)^\|[^|]*\| `(\w+)` \|(.*)\|$", trusted):
        found = re.findall(r"([\w/]+) (\d+)", files)
        named.update({f"{crate}/{name}": int(number) for name, number in found})
    assert named == lines
    total = f"{len(lines)} files of definitions, {sum(lines.values()):,} lines"
    assert total in " ".join(trusted.split())
