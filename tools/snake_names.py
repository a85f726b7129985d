#!/usr/bin/env python3
"""Spells the repository's own names in snake case: usage: snake_names.py [--dry] (at the top of the repository, once, after the kit's port.py)

A name that some file of specs/ or proofs/ declares, or binds, and that has a dash, gets underscores in its place; a fact or a type with a dash is joined in
camel case; the one name in camel case that is no type goes to snake case. Names of the kit, and names that the check makes for goals and their parts, stay.
"""
import collections
import glob
import re
import sys

TOKEN = re.compile(r"[A-Za-z_◌⊎≤][\w'◌⊎≤⊃]*(?:-[\w'◌⊎≤⊃+*<≡=]+)*")
DECLARED = re.compile(r"^\s*(?:(?:pub|abbrev|unfoldable|opaque|private)\s+)*([A-Za-z][^\s(){}:,;]*)\s*:\s")
TYPED = re.compile(r"^\s*(?:(?:pub|abbrev|unfoldable|opaque|private)\s+)*(?:record|data)\s+([A-Za-z][^\s(){}:,;]*)")
MADE = re.compile(r"\b(?:goal|need|given)\.")
# binders of lemmas: (x-y z : T), {x-y : T}, λ x-y z., let x-y : T = .., and the arguments on the left of a clause
BINDS = [
    re.compile(r"[({]([A-Za-z][^(){}:,;]*?)\s*:\s"),
    re.compile(r"λ\s+([^.()]*?)\."),
    re.compile(r"\blet\s+([A-Za-z][\w'-]*)\s*[:=]"),
]
# in camel case though no type, a fact with a dash, an import under another name; and names that would fall together with a function of src/ or of the kit
RENAMED = {
    "chainBy": "chain_by",
    "Room-for": "RoomFor",
    "Reaches-here": "reaches_here",
    "bit-and": "bit-bit_and",
    "bit-or": "bit-bit_or",
    "entry-fits": "fits_entry",
    "fact-fits": "fits_fact",
    "formula-fits": "fits_formula",
    "formula-at": "stored_formula",
    "link-of": "stored_link",
    "modality-words": "words_of_modality",
    "said-is-so": "said_so",
}
# bound by the left side of a clause alone
LEFT = {"b-is", "d-is", "j-is", "l-is", "next-is", "reaches-on", "Reaches-here", "record-at", "records-read"}
# what stands after one of these is made by the check
PATH = re.compile(r"\b(?:c|l|w|h|k|d)\.$")


def lines_of(path):
    with open(path, encoding="utf8") as f:
        return f.read().splitlines(keepends=True)


def is_answers(path):
    name = path.rsplit("/", 1)[1]
    return name in ("Answers.antt", "Invariants.antt", "Proof.antt", "Choices.antt")


def imported(text):
    """The names that a file imports from the kit."""
    out = set()
    for m in re.finditer(r"^\s*(?:pub )?use\s+([^\s{]+)\{([^}]*)\}", text, re.M):
        if not re.match(r"Rattle\.(?!std\b)", m[1]) or re.match(r"Rattle\.(?:core|libc|os|io|check)\b", m[1]):
            for item in m[2].split(","):
                out.update(item.split(" as ")[:1])
    return {n.strip() for n in out}


def main():
    dry = "--dry" in sys.argv
    antt = sorted(glob.glob("crates/*/specs/**/*.antt", recursive=True) + glob.glob("crates/*/proofs/**/*.antt", recursive=True))
    rt = sorted(glob.glob("crates/*/src/**/*.rt", recursive=True))
    own, kit = set(LEFT), set()
    for path in antt:
        text = "".join(lines_of(path))
        kit |= imported(text)
        for line in lines_of(path):
            if line.lstrip().startswith(("--", "use ", "pub use ")):
                continue
            m = DECLARED.match(line)
            if m and not MADE.search(line.split("=")[0]):
                own.add(m[1])
            m = TYPED.match(line)
            if m:
                own.add(m[1])
            for b in BINDS:
                for m in b.finditer(line):
                    own.update(w for w in m[1].split() if "-" in w)
    for path in rt:
        for m in re.finditer(r"ghost ([a-z][\w-]*):", "".join(lines_of(path))):
            own.add(m[1])
    made = {n for n in own if re.match(r"(?:loop|then|else|overflow|invariant|decreases|returns|ensures|requires)-|.*-(?:preserved|holds|again|smaller|requires)$", n)}
    turn = {}
    for n in own - kit - made:
        if n in RENAMED:
            turn[n] = RENAMED[n]
        elif "-" in n and re.fullmatch(r"[A-Za-z][\w'-]*", n):
            turn[n] = n.replace("-", "_")
    turn["fails-or-holds"] = "fails_or_holds"
    used = collections.Counter()
    words = set()
    for path in antt + rt:
        words |= set(TOKEN.findall("".join(lines_of(path))))
    for n, to in sorted(turn.items()):
        if to in words:
            print(f"falls together: {n} and {to}")
    if dry:
        rest = collections.Counter(w for p in antt if not is_answers(p) for w in TOKEN.findall("".join(l for l in lines_of(p) if not l.lstrip().startswith("--"))) if "-" in w and w not in turn and w not in kit)
        print("left:", " ".join(sorted(rest)))
        print("made:", " ".join(sorted(made)))
        return
    for path in antt + rt:
        out = []
        for line in lines_of(path):
            body, note = line, ""
            if line.lstrip().startswith(("--", "//")):
                out.append(line)
                continue

            def spelled(m):
                w = m[0]
                if w not in turn or (is_answers(path) and PATH.search(line[: m.start()])):
                    return w
                used[w] += 1
                return turn[w]

            out.append(TOKEN.sub(spelled, line))
        with open(path, "w", encoding="utf8") as f:
            f.write("".join(out))
    print(f"{len(turn)} names, {sum(used.values())} places")


main()
