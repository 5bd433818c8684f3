"""Writes the pages that are made from the sources: the page CALLING.md of each library, and the tables of crates in README.md
and docs/DESIGN.md.

    python3 tools/pages.py          writes them
    python3 tools/pages.py --check  says which of them aren't as they would be written

A crate is described once, in the `//!` lines at the head of its src/lib.rt (src/main.rt of a program): a paragraph that says what it
is for, and then paragraphs that begin with `Proved:`, `Said by:` (where the promise stands) and `Caller:` (a function that
calls it, quoted on its page). Callers and contracts are quoted from src/, so a page is right once it is written anew.
"""
import pathlib
import re
import sys

ROOT = pathlib.Path(__file__).resolve().parent.parent
TOP = ROOT / "crates"

HEAD = re.compile(r"^(\s*)((?:pub(?:\([a-z]+\))? )?(?:const )?fn (\w+))")


def functions(path):
    """Each function of a file: its type (or none), its name, whether it is public, its doc, head and body lines."""
    lines = path.read_text(encoding="utf-8").split("\n")
    found, owner, depth = [], None, 0
    for at, line in enumerate(lines):
        block = re.match(r"^(?:impl(?:<[^>]*>)?(?: \w+(?:<[^>]*>)? for)? |pub trait |trait )(\w+)", line)
        if block and not line.startswith("impl Model"):
            owner = block.group(1)
        if line == "}":
            owner = None
        match = HEAD.match(line)
        if not match or "#[test]" in "".join(lines[max(0, at - 2):at]):
            continue
        indent, end = match.group(1), at
        while not re.search(r"(^%s[{}]|[{;]$)" % indent, lines[end]):
            end += 1
        last = end
        if lines[end].endswith("{"):
            while lines[last] != indent + "}":
                last += 1
        # the head of a trait's method ends with its last clause
        if end == at or lines[end].endswith(";"):
            end += 1
        doc = at
        while doc and (lines[doc - 1].startswith(indent + "///") or lines[doc - 1].startswith(indent + "#[")):
            doc -= 1
        found.append((owner, match.group(3), match.group(2).startswith("pub "), lines[doc:at], [line.rstrip(";") for line in lines[at:end]], lines[end:last + 1]))
    return found


def quoted(crate, file, name):
    """A function as it stands in src/, without its place in a block."""
    for owner, found, _public, doc, head, body in functions(TOP / crate / "src" / file):
        if found == name:
            text = doc + head + body
            indent = len(text[0]) - len(text[0].lstrip())
            return "\n".join(line[indent:] for line in text)
    raise SystemExit("no function %s in %s/src/%s" % (name, crate, file))


def contract(owner, name, head):
    """The head of a function in one line, and its clauses, each in one line."""
    text = "\n".join(line.strip() for line in head if not line.strip().startswith("//"))
    parts = re.split(r"\n(?=requires|ensures)", text)
    signature = re.sub(r"\s+", " ", parts[0]).replace("( ", "(").replace(", )", ")").replace("pub fn ", "fn ")
    signature = re.sub(r",\)", ")", signature)
    if owner:
        signature = signature.replace("fn %s" % name, "fn %s::%s" % (owner, name), 1)
    return [signature.rstrip(" {")] + ["  " + re.sub(r"\s+", " ", part).strip() for part in parts[1:]]


def exported(crate):
    """The names that the root of a library hands out."""
    root = (TOP / crate / "src" / "lib.rt").read_text(encoding="utf-8")
    names = set()
    for use in re.findall(r"pub use ([^;]*);", root):
        names.update(re.findall(r"\w+", use.split("::", 1)[1]))
    return names


def crates():
    """The crates of crates.txt with the crates of the repository that they stand on, in its order."""
    lines = (ROOT / "crates.txt").read_text(encoding="utf-8").split("\n")
    found = [line.split("#")[0].partition(":") for line in lines if line.split("#")[0].strip()]
    return {name.split()[0]: below.split() for name, _colon, below in found}


def head(crate):
    """What a crate says of itself: its purpose, and the paragraphs that have a word in front."""
    root = TOP / crate / "src" / "lib.rt"
    if not root.exists():
        root = TOP / crate / "src" / "main.rt"
    lines = []
    for line in root.read_text(encoding="utf-8").split("\n"):
        if not line.startswith("//!"):
            break
        lines.append(line[3:].strip())
    said, parts = {"purpose": ""}, " ".join(line or "\n" for line in lines).split("\n")
    for part in (part.strip() for part in parts):
        named = re.match(r"(Proved|Said by|Caller): (.*)", part)
        if named:
            said[named.group(1)] = named.group(2)
        else:
            said["purpose"] = (said["purpose"] + " " + part).strip()
    return said


def caller_of(crate, said):
    """The place of the caller that a crate names: its crate, file and function."""
    named = re.fullmatch(r"`(\w+)` of `(\w+)/src/([\w/]+\.rt)`\.", said.get("Caller", ""))
    if "Caller" in said and not named:
        raise SystemExit("%s: no caller is named by '%s'" % (crate, said["Caller"]))
    return (named.group(2), named.group(3), named.group(1)) if named else None


def page(crate, said):
    """The page for callers of a library."""
    names, contracts, caller = exported(crate), [], caller_of(crate, said)
    for path in sorted((TOP / crate / "src").glob("*.rt")):
        if "tests" in path.name:
            continue
        for owner, name, public, _doc, lines, _body in functions(path):
            is_trait = owner in names and not public and any("trait %s" % owner in line for line in path.read_text(encoding="utf-8").split("\n"))
            if (owner in names if owner else name in names) and (public or is_trait):
                contracts += contract(owner, name, lines)
    text = ["# Calling `%s`" % crate, "", said["purpose"], ""]
    if caller:
        text += ["## A caller", "", "From `%s/src/%s`:" % caller[:2], "", "```rust", quoted(*caller), "```", ""]
    text += ["## Contracts", "", "Quoted from `src/`; `specs/` defines the words. docs/DESIGN.md says how to read a clause.", "", "```text"]
    text += contracts + ["```", ""]
    return "\n".join(text)


def proved_table():
    """README's table: what holds of each crate, and where it is said."""
    rows = ["| crate | what holds | where it is said |", "|---|---|---|"]
    for crate in crates():
        said = head(crate)
        if "Proved" in said and "Said by" in said:
            rows.append("| `%s` | %s | %s |" % (crate, said["Proved"].rstrip("."), said["Said by"].rstrip(".")))
    return rows


def layers_table():
    """DESIGN's table: what each crate is for, and what it stands on."""
    rows, all_crates = ["| crate | what it is for | stands on |", "|---|---|---|"], crates()
    for crate, below in all_crates.items():
        own = ", ".join("`%s`" % name for name in below if name in all_crates)
        rows.append("| `%s` | %s | %s |" % (crate, head(crate)["purpose"].rstrip("."), own or "nothing"))
    return rows


def with_table(path, rows):
    """The text of a page with the rows between its two marks."""
    begin, end = "<!-- crates: written by tools/pages.py -->", "<!-- crates: end -->"
    text = path.read_text(encoding="utf-8")
    if text.count(begin) != 1 or text.count(end) != 1:
        raise SystemExit("%s has no marks for the table of crates" % path.name)
    before, rest = text.split(begin)
    return before + begin + "\n" + "\n".join(rows) + "\n" + end + rest.split(end)[1]


def pages():
    """Each page that is written, with its text."""
    for crate in crates():
        root = TOP / crate / "src" / "lib.rt"
        if root.exists() and "pub use" in root.read_text(encoding="utf-8") or crate == "whole_algebra":
            yield TOP / crate / "CALLING.md", page(crate, head(crate))
    yield ROOT / "README.md", with_table(ROOT / "README.md", proved_table())
    yield ROOT / "docs" / "DESIGN.md", with_table(ROOT / "docs" / "DESIGN.md", layers_table())


def main():
    stale = []
    for path, text in pages():
        if "--check" not in sys.argv:
            path.write_text(text, encoding="utf-8")
        elif not path.exists() or path.read_text(encoding="utf-8") != text:
            stale.append(str(path.relative_to(ROOT)))
    if stale:
        raise SystemExit("not as written by tools/pages.py: " + ", ".join(stale))


if __name__ == "__main__":
    main()
