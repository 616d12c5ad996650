#!/usr/bin/env python3
"""Write the files of the programs reader_vectors and call_vectors from the tables readers.txt and calls.txt, or with
--check see that they are what the tables say. What call_vectors has to print is computed by the evaluator, which takes
cargo; --check takes it as it stands, and --check --compute computes it again.
"""
import collections
import pathlib
import re
import subprocess
import sys

HERE = pathlib.Path(__file__).resolve().parent
CRATES = HERE.parent.parent / "crates"
READERS = CRATES / "reader_vectors"
CALLS = CRATES / "call_vectors"
MARKS = {"gra": b"GRA", "tre": b"TRE", "edg": b"EDG", "qry": b"QRY", "rel": b"REL"}
# What a lent buffer holds before the call.
PATTERN = bytes((7 * i + 3) % 256 for i in range(2048))

Case = collections.namedtuple("Case", "name files rooms answer written")


def table(name):
    """The columns of each line."""
    for line in (HERE / name).read_text().splitlines():
        if line.strip() and not line.startswith("#"):
            yield [part.strip() for part in line.split("|")]


def rows(parent, text):
    """The rows of elements 2 to 127."""
    return b"".join(bytes([parent(i), i]) + bytes.fromhex(text or "0000") for i in range(2, 128))


def word_bytes(word, ending):
    """The bytes of one word of a line."""
    if word == "HEAD":
        return MARKS[ending] + b"\0\1"
    if word.startswith("CHAIN126"):
        return rows(lambda i: i - 1, word.partition("-")[2])
    if word.startswith("STAR126"):
        return rows(lambda i: 1, word.partition("-")[2])
    digits, _, times = word.partition("*")
    return bytes.fromhex(digits) * int(times or 1)


def content(name, words):
    return b"".join(word_bytes(w, name.rpartition(".")[2]) for w in words.split())


def written(words, known):
    """The bytes that a case writes, None where the table doesn't say."""
    if words == "?":
        return None
    out = b""
    for word in re.findall(r'"[^"]*"|\S+', words):
        first, dots, last = word.partition("..")
        if word.startswith('"'):
            out += word[1:-1].encode() + b"\n"
        elif word in known:
            out += known[word]
        elif dots:
            out += bytes(range(int(first, 16), int(last, 16) + 1))
        else:
            out += bytes.fromhex(word)
    return out


def listed(words):
    return "".join(word + "\n" for word in words).encode()


def reader_files():
    """Every file of reader_vectors by its path, and every vector's bytes by its name."""
    out, known, arguments, answers = {}, {}, [], []
    for name, words, answer, _why in table("readers.txt"):
        assert name not in known, name
        known[name] = out[READERS / "data" / name] = content(name, words)
        graph = name if name.endswith(".gra") else name.partition("+")[0] + ".gra" if "+" in name else "stations.gra"
        arguments += [graph, name]
        answers.append(f"{name} {answer}")
    out[READERS / "args"] = listed(arguments)
    out[READERS / "stdout"] = listed(answers)
    return out, known


def call_files(known):
    """Every file of call_vectors by its path, but for what it prints; and the cases. Adds the table's files to those known."""
    out, cases = {}, []
    for columns in table("calls.txt"):
        if len(columns) == 3:
            assert columns[0] not in known, columns
            known[columns[0]] = content(columns[0], columns[1])
            continue
        name, files, rooms, answer, words, _why = columns
        files = files.split() if ".gra" in files else ["stations.gra"] + files.split()
        files += ["-"] * (3 - len(files))
        rooms = [int(room) for room in rooms.split()]
        rooms += [0] * (2 - len(rooms))
        assert name not in [case.name for case in cases] and rooms[0] <= len(PATTERN) and rooms[1] <= 24 * 2048, name
        cases.append(Case(name, files, rooms, answer, words))
    for case in cases:
        out.update((CALLS / "data" / name, known[name]) for name in case.files if name != "-")
    out[CALLS / "args"] = listed(str(word) for case in cases for word in [case.name, *case.files, *case.rooms])
    return out, cases


def stated(case, known):
    """What the table says that call_vectors prints of a case: a regular expression for each line."""
    call = case.name.partition("-")[0]
    accepted = case.answer.split()[0] == "0"
    yield re.escape(f"{case.name} {case.answer}")
    if call == "check":
        last = known[case.files[1]][5] - 1
        earlier = rf"( (?!{last}:)\S+)*" if accepted else ""
        yield "pairs" + earlier + "".join(" " + pair for pair in case.written.split())
        return
    filled = PATTERN[: case.rooms[0]]
    start = written(case.written, known)
    if start is None:
        yield f"out changed [0-9a-f]{{{2 * len(filled)}}}"
    else:
        out = start + filled[len(start) :]
        yield f"out {'same' if out == filled else 'changed'} {out.hex()}"
    if call in ("run", "select", "list"):
        yield f"work {'changed' if accepted else 'same'} [0-9a-f]{{14}}"


def contradicted(cases, known, printed):
    """The cases of which something else is printed than the table says."""
    lines = iter(printed.decode().splitlines())
    for case in cases:
        if not all([re.fullmatch(line, next(lines, "")) for line in stated(case, known)]):
            yield case.name
    yield from lines


def computed():
    run = ["cargo", "run", "--quiet", "--release", "--locked", "-j1", "--bin", "vectors", "--", str(CALLS)]
    return subprocess.run(run, cwd=HERE.parent / "evaluator", stdout=subprocess.PIPE, check=True).stdout


def check(wanted, stale, cases, known):
    """Says what isn't as it has to be, and answers whether all is."""
    wrong = [p for p, bytes_ in wanted.items() if not p.exists() or p.read_bytes() != bytes_]
    faults = [f"{p.relative_to(CRATES)} is not what its table says" for p in sorted(stale) + sorted(wrong)]
    printed = (CALLS / "stdout").read_bytes()
    faults += [f"call_vectors/stdout is not what calls.txt says at {at}" for at in contradicted(cases, known, printed)]
    if "--compute" in sys.argv and printed != computed():
        faults.append("call_vectors/stdout is not what the evaluator computes")
    for fault in faults:
        print("vectors:", fault)
    return not faults


def main():
    wanted, known = reader_files()
    call_wanted, cases = call_files(known)
    wanted.update(call_wanted)
    stale = {p for crate in (READERS, CALLS) for p in (crate / "data").glob("*")} - set(wanted)
    if "--check" not in sys.argv:
        for p in stale:
            p.unlink()
        for p, bytes_ in wanted.items():
            p.parent.mkdir(parents=True, exist_ok=True)
            p.write_bytes(bytes_)
        (CALLS / "stdout").write_bytes(computed())
        print(f"vectors: {len(wanted) + 1} files")
        stale = set()
    sys.exit(0 if check(wanted, stale, cases, known) else 1)


main()
