#!/usr/bin/env python3
"""Counts the places of the design pass (docs/DESIGN-PASS.md) in crates/*/src, of a commit or of the work tree.

    python3 tools/count_places.py [COMMIT] [-v]

Each line is a sort of place: its point, how many there are, and with -v where. A count says where to look; docs/DESIGN-PASS.md says of each place what became of it."""
import re
import subprocess
import sys

VERBOSE = "-v" in sys.argv
NAMES = [a for a in sys.argv[1:] if not a.startswith("-")]
COMMIT = NAMES[0] if NAMES else None


def run(*args):
    return subprocess.run(["git", *args], capture_output=True, text=True, check=True).stdout


def files(pattern):
    """Path and text of each file whose path fits."""
    if COMMIT:
        names = run("ls-tree", "-r", "--name-only", COMMIT).split()
    else:
        names = run("ls-files").split()
    for name in names:
        if re.fullmatch(pattern, name):
            if COMMIT:
                yield name, run("show", f"{COMMIT}:{name}")
            else:
                try:
                    yield name, open(name).read()
                except FileNotFoundError:
                    pass


SOURCE = list(files(r"crates/[^/]+/src/.*\.rt"))
TESTS = re.compile(r"_tests/|/tests?\.rt$|examples/")


def found(regex, flags=re.M, keep=lambda path: True):
    """Where the regex fits: path:line, and the match."""
    for path, text in SOURCE:
        if keep(path):
            for m in re.finditer(regex, text, flags):
                yield f"{path}:{text.count(chr(10), 0, m.start()) + 1}", m


def lines_of(regex, keep=lambda path: True):
    """Each place where the regex fits, with its text."""
    for at, m in found(regex, keep=keep):
        yield f"{at} {' '.join(m.group(0).split())[:100]}"


def together(*names):
    """Functions that take all of these parameters."""
    for at, m in found(r"\bfn (\w+)(?:<[^(]*>)?\(([^)]*(?:\([^)]*\)[^)]*)*)\)"):
        have = {re.split(r"[: ]", p.strip().removeprefix("mut "))[0] for p in m.group(2).split(",")}
        if set(names) <= have:
            yield f"{at} {m.group(1)}"


def enums():
    """Enums with a case that holds nothing beside one that holds something, or with two cases that both hold something."""
    for at, m in found(r"^(?:pub )?enum (\w+)[^{]*\{(.*?)\n\}", re.S | re.M):
        body = re.sub(r"//.*", "", m.group(2))
        cases = re.findall(r"^\s+(\w+)(\(|\s*\{|,|$)", body, re.M)
        holding = [c for c in cases if c[1].strip() in ("(", "{")]
        if holding and (len(holding) < len(cases) or len(cases) == 2):
            yield f"{at} {m.group(1)}"


def shared(regex):
    """Blocks whose captured text another block before it has too."""
    seen = set()
    for at, m in found(regex):
        if m.group(1) in seen:
            yield f"{at} {m.group(1)}"
        seen.add(m.group(1))


def pairs():
    """Functions that write words, where one of the same file measures them."""
    measured = {(at.split(":")[0], m.group(1)) for at, m in found(r"\bfn (\w+)_len\(")}
    for at, m in found(r"\bfn put_(\w+)\("):
        if (at.split(":")[0], m.group(1)) in measured:
            yield f"{at} {m.group(1)}_len, put_{m.group(1)}"


def arrays():
    """Structs with an array and a length beside it."""
    for at, m in found(r"struct (\w+)[^{;]*\{(.*?)\n\}", re.S):
        if re.search(r"\[[^\]]*; *\w+\]|\[T\]", m.group(2)) and re.search(r"\blen: usize", m.group(2)):
            yield f"{at} {m.group(1)}"


def is_code(path):
    return not TESTS.search(path)


SORTS = [
    ("1 enum that may be an Option or a Result", enums()),
    ("1 bool for taken or refused", lines_of(r"fn (push|put|put_in)\(.*-> bool")),
    ("1 match on a number that stands for a kind", lines_of(r"match [\w.]+ \{\n\s+\d+ =>")),
    ("1 refusal handed on by hand", lines_of(r"Err\((e|refusal|error)\) => (return )?Err\((e|refusal|error)\)")),
    ("1 none handed on by hand", lines_of(r"^\s+None => None,")),
    ("1 error made by hand of another", lines_of(r"is_err\(\) \{\n\s+return Err\(AllocError\)")),
    ("1 result that says nothing", lines_of(r"^pub fn [^{;]*-> u8\n(?:    ensures[^\n]*\n)*\{\n    0\n\}")),
    ("1 refusal as two numbers in a test's own struct", lines_of(r"^\s+(pub )?number: u16,")),
    ("2 record kind with the content of another", shared(r"impl(?:<[^>]*>)? RecordKind for [^{]*\{\n    type Content = ([^;]+);")),
    ("2 length and writing of the same words", pairs()),
    ("2 array with a length, type and size apart", arrays()),
    ("2 constant beside a function that answers it", lines_of(r"fn (kind_number|body_size|own_kind|own_body)\(")),
    ("3 loop, of any form", lines_of(r"^\s*(?:'\w+: |let \w+ = )?(?:for .* in .*|while .*|loop) \{")),
    ("3 while with a counted index", lines_of(r"^\s*while [\w.]+ (?:<|>|<=|>=) [\w.]+ \{")),
    ("3 for over indices", lines_of(r"^\s*for \w+ in \d+\.\..* \{")),
    ("3 test gathered in a bool", lines_of(r"\bok = ok & ")),
    ("3 loop without a condition", lines_of(r"^\s*(?:'\w+: |let \w+ = )?loop \{")),
    ("4 equality by the number inside", lines_of(r"\.0 == (?:[\w.]+\.0|n)\b|\.number\(\) == ", is_code)),
    ("4 conversion of its own name", lines_of(r"fn (from_number|number)\((number: u16|self)\)", is_code)),
    ("5 taken together: raw, at", together("raw", "at")),
    ("5 taken together: table, trail", together("table", "trail")),
    ("5 taken together: pile, principals", together("pile", "principals")),
    ("5 taken together: trail, waiting", together("trail", "waiting")),
    ("5 taken together: buf, at", together("buf", "at")),
    ("5 taken together: model, truths", together("model", "truths")),
    ("6 array with a length beside it", arrays()),
    ("7 match on a step, or a value that is called", lines_of(r"match step \{|\bdyn |: fn\(")),
]

for sort, places in SORTS:
    listed = list(places)
    print(f"{len(listed):4}  {sort}")
    if VERBOSE:
        for place in listed:
            print(f"        {place}")

answers = [text for _, text in files(r"crates/[^/]+/proofs/.*/(Answers|Invariants)\.antt")]
lemmas = [text for _, text in files(r"crates/[^/]+/proofs/[^/]+\.antt")]
print(f"{len(answers):4}  8 files of answers and invariants, with {sum(t.count(chr(10)) for t in answers)} lines; lemma files have {sum(t.count(chr(10)) for t in lemmas)}")
