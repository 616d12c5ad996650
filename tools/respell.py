#!/usr/bin/env python3
"""Spells the repository's own definitions and lemmas as today's Rattle does: words in snake case, types and modules in
camel case. Run once, at the top, right after the kit's port.py, for the commit that docs/PORT.md names. Functions of src/,
exported names, strings, inputs and outputs stay as they are."""
import collections
import pathlib
import re

TOP = pathlib.Path(__file__).resolve().parent.parent

# Words that would fall together with another of the repository: the lemma gives way, since definitions are what is read.
LEMMAS = {name: name.replace("-", "_") + "_lem" for name in (
    "child-kind document-file document-read graph-file graph-read is-element is-parent program-bytes program-file "
    "program-read query-file query-read step-read steps-bytes steps-in tables-file tables-read text-is turned-away").split()}
LEMMAS["documentLength"] = "length_of_document"
LEMMAS["tablesLength"] = "length_of_tables"
# The kit's script has spelled these lemmas already, each in the files that name it, as a definition is spelled now.
SPELLED = {"mask_below": ("meaning", "kinds", "descent", "masks"), "row_read": ("rows", "rooms"), "step_count": ("meaning",)}
# What a call may answer and leave is a fact, and what Rattle reads off its contract a module: both in camel case.
CALLS = "read-graph read-document read-tables read-query read-program shred rebuild translate check run select list".split()

WORD = r"[\w'\-]"


def snake(name):
    name = name.replace("-", "_")
    return re.sub(r"(?<=[a-z0-9])([A-Z])", lambda m: "_" + m.group(1).lower(), name)


def antt():
    return sorted(f for part in ("specs", "proofs") for f in TOP.glob(f"crates/*/{part}/**/*.antt"))


def declared():
    """Each name that a file declares: a definition, a lemma, a field or a constructor. Rattle names invariants and measures."""
    names = set()
    modifiers = r"^\s*(?:unfoldable |abbrev |pub )*"
    for file in antt():
        text = file.read_text()
        names.update(re.findall(modifiers + r"(?:data|record|ruleset) (?:pub )?([^\s:(){}=]+)", text, re.M))
        names.update(re.findall(modifiers + r"([^\s:(){}=]+) :", text, re.M))
    return {name for name in names if not re.match("(invariant|decreases)-", name)}


def camel(name):
    return "".join(part.capitalize() for part in name.split("-"))


def table():
    new = {f"tb-{call}": camel(f"tb-{call}") for call in CALLS}
    for name in declared():
        if name in new:
            continue
        if "-" in name or (not name[0].isupper() and re.search(r"[a-z0-9][A-Z]", name)):
            new[name] = LEMMAS.get(name, snake(name))
    return new


def respelled(text, names):
    pattern = re.compile(rf"(?<!{WORD})(" + "|".join(sorted(map(re.escape, names), key=len, reverse=True)) + rf")(?!{WORD})")
    return pattern.sub(lambda m: names[m.group(1)], text)


def main():
    names = table()
    falls = collections.defaultdict(set)
    for old, new in names.items():
        falls[new].add(old)
    for new, olds in sorted(falls.items()):
        if len(olds) > 1 or (new in declared() and new not in SPELLED):
            print("falls together:", new, *sorted(olds))

    for file in antt():
        text = file.read_text()
        crate = file.relative_to(TOP / "crates").parts[0]
        for lemma, crates in SPELLED.items():
            if crate in crates:
                text = re.sub(rf"(?<![\w'\-.]){lemma}(?!{WORD}|\.)", lemma + "_lem", text)
        if crate == "trammelbud":
            for call in CALLS:
                text = re.sub(rf"(?<=\.Reads as ){call}$", camel(call) + "Call", text, flags=re.M)
                text = re.sub(rf"(?<!{WORD}){call}(?=\.(Post|Pre)\b)", camel(call) + "Call", text)
        file.write_text(respelled(text, names).replace("specs.inside", "specs.Inside"))
    for file in sorted(TOP.glob("crates/*/src/**/*.rt")) + sorted(TOP.glob("crates/*/must-fail/*.edit")):
        file.write_text(respelled(file.read_text(), names).replace("specs.inside", "specs.Inside"))

    for folder in sorted(TOP.glob("crates/*/specs/inside")):
        folder.rename(folder.parent / "Inside")
        page = folder.parent / "inside.antt"
        page.rename(folder.parent / "Inside.antt")
        lib = folder.parent / "Lib.antt"
        lib.write_text(re.sub(r"\binside\b", "Inside", lib.read_text()))


if __name__ == "__main__":
    main()
