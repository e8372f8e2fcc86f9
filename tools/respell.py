#!/usr/bin/env python3
"""Brings the repository's own names in specs/, proofs/ and contracts to the spelling of today's Rattle.

usage: python3 tools/respell.py [--dry]      at the top, once, after the kit's port.py

Words, lemmas, fields and constructors are in snake case, types and modules stay in upper camel case. In the name of a
lemma a dash stays between two names, as in `length-append`. Names of src/ keep their spelling: they have no dash and no
capital. What is renamed is what a file of specs/ or proofs/ declares with a signature; a name that would then fall
together with another in some file is listed, and NAMES says how it is spelled instead.
"""
import collections
import glob
import os
import re
import sys

# words of the library that names of lemmas are made of
LIBRARY = set("""length append drop take map set cons nil suc zero add sub mul div mod min max eqb leb ltb
cond all any each sum reverse replicate get_or head tail neg pos abs pow sqrt""".split())

# words of this repository that are plain words in the name of a lemma
PLAIN = set("""and are as at behind below by end ended first for from found given good here holds in is item items last
left no none not number of on once one or outside past plus minus second shown small start state steps text third times to
told under unlike value was whole with within""".split())

# names that the rule would let fall together, or would spell as a name of the library
NAMES = {
    "adjugateOf": "adjugate_of",
    "applyOf": "apply_of",
    "detOf": "det_of",
    "inverseOf": "inverse_of",
    "linearOf": "linear_of",
    "sqrtF": "sqrt_f",
    "in-range": "is_in_range",
    "ofParts": "rule_of_parts",
    "end_after": "end_after_lem",
    "primitiveBasis": "primitive_cell_basis",
    "listedBasis": "listed_cell_basis",
    "targetRotations": "rotations_of_targets",
    "targetTranslations": "translations_of_targets",
}

TOKEN = re.compile(r"[^\s(){}.,;\"«»`\[\]:|⌜⌝]+")
SIGNATURE = re.compile(r"^(\s*)((?:(?:pub|abbrev|unfoldable|data|record)\s+)*)«?([^\s(){}.,;:|\"«»=]+)»?"
                       r"((?:\s+[^\s(){}.,;:|\"=]+)*)\s*((?:[({][^)}]*[)}]\s*)*):(?:\s|$)")
KEYWORDS = {"use", "let", "in", "where", "module", "elim", "record", "unfolding", "mod", "open", "λ"}


def antt_files(top):
    return sorted(f for d in ("specs", "proofs") for f in glob.glob(top + f"/crates/*/{d}/**/*.antt", recursive=True))


def declared(files):
    """Each declared name, and whether some declaration marks it as a word (abbrev, unfoldable)."""
    words, names, goals = set(), set(), set()
    for f in files:
        in_answers = os.path.basename(f) in ("Proof.antt", "Answers.antt", "Invariants.antt")
        with open(f, encoding="utf-8") as it:
            for line in it:
                if line.lstrip().startswith("--"):
                    continue
                m = SIGNATURE.match(line)
                if not m or m.group(3) in KEYWORDS:
                    continue
                # a goal that the kit names
                if in_answers and re.search(r":\s*(?:\([^)]*\)\s*→\s*)*(?:tie|goal)\.(?:Need|invariant|decreases)", line):
                    goals.add(m.group(3))
                    continue
                for n in [m.group(3)] + m.group(4).split():
                    names.add(n)
                    if "abbrev" in m.group(2) or "unfoldable" in m.group(2):
                        words.add(n)
    return words, names - goals


def imported(top, files):
    """Names that some file takes from a library: they are not the repository's."""
    crates = set(os.listdir(top + "/crates"))
    names = set()
    for f in files:
        with open(f, encoding="utf-8") as it:
            for path, items in re.findall(r"use ([^\s{};]+)\.\{([^}]*)\}", it.read()):
                parts = path.split(".")
                if parts[0] != "Rattle" or parts[1] not in crates:
                    names |= {i.split(" as ")[0].strip() for i in items.split(",")}
    return names


def snake(part):
    """A part without dashes: no capitals in a word; a type, or what follows an underscore, keeps its own."""
    if part[:1].isupper():
        return part
    part = re.sub(r"(?<=[a-z0-9₀-₉])([A-Z])(?=[a-z])", lambda m: "_" + m.group(1).lower(), part)
    return re.sub(r"(?<=[a-z0-9₀-₉])([A-Z]+)", lambda m: "_" + m.group(1).lower(), part)


def table(top):
    words, names = declared(antt_files(top))
    library = imported(top, antt_files(top) + sorted(glob.glob(top + "/crates/*/src/**/*.rt", recursive=True)))
    known = LIBRARY | {snake(w) for w in words if "-" not in w and len(w) > 1} - PLAIN
    known |= {w for w in names if w[:1].isupper() and "-" not in w}
    to = {}
    for n in names | set(NAMES):
        if n in NAMES:
            to[n] = NAMES[n]
            continue
        if n in library or not re.match(r"[A-Za-z]", n) or not re.search(r"-|[a-z0-9][A-Z]", n) or n.startswith("Need"):
            continue
        parts = [snake(p) for p in n.split("-")]
        new = parts[0]
        for i, (a, b) in enumerate(zip(parts, parts[1:])):
            lemma = n not in words and not n.endswith("-spec")
            joins = lemma and (a in known or new in known) and b in known
            new += ("-" if joins else "_") + b
        new = NAMES.get(n, new)
        if new != n and not (n[:1].isupper() and "-" not in n):
            to[n] = new
    apart(top, to)
    return to


def apart(top, to):
    """The name of a lemma that would have its function's name ends in `_lem`."""
    while True:
        met = set()
        for f in antt_files(top):
            with open(f, encoding="utf-8") as it:
                for _, new, old in clashes(f, it.read(), to):
                    met |= {n for n in old if "-" in n and n in to and to[n] == new and n not in NAMES}
        if not met:
            return
        for n in met:
            to[n] += "_lem"


def spell(text, to):
    return TOKEN.sub(lambda m: to.get(m.group(0), m.group(0)), text)


def in_ticks(text, to):
    return re.sub(r"`[^`\n]*`", lambda m: spell(m.group(0), to), text)


def antt(text, to):
    out = []
    for line in text.split("\n"):
        i = line.find("--") if re.search(r"(^|\s)--(\s|$)", line) else -1
        if i >= 0:
            i = re.search(r"(?:^|(?<=\s))--(?=\s|$)", line).start()
            out.append(spell(line[:i], to) + in_ticks(line[i:], to))
        else:
            out.append(spell(line, to))
    return "\n".join(out)


def rattle(text, to):
    """Ghost imports and clauses; names of the code have no dash and no capital inside."""
    out = []
    for line in text.split("\n"):
        i = line.find("//")
        code, said = (line, "") if i < 0 else (line[:i], line[i:])
        out.append(spell(code, to) + in_ticks(said, to))
    return "\n".join(out)


def clashes(path, text, to):
    tokens = set(TOKEN.findall(text))
    by = collections.defaultdict(set)
    for t in tokens:
        by[to.get(t, t)].add(t)
    return [(path, new, sorted(old)) for new, old in sorted(by.items()) if len(old) > 1]


def main():
    top = os.path.dirname(os.path.dirname(os.path.abspath(__file__)))
    to = table(top)
    said = []
    files = antt_files(top) + sorted(glob.glob(top + "/crates/*/src/**/*.rt", recursive=True))
    for f in files:
        with open(f, encoding="utf-8") as it:
            text = it.read()
        said += clashes(f, text, to)
        if "--dry" not in sys.argv:
            new = rattle(text, to) if f.endswith(".rt") else antt(text, to)
            if new != text:
                with open(f, "w", encoding="utf-8") as it:
                    it.write(new)
    for path, new, old in said:
        print(f"{os.path.relpath(path, top)}: {new} <- {', '.join(old)}")
    if "--dry" in sys.argv and "--table" in sys.argv:
        for n in sorted(to):
            print(n, "->", to[n])
    print(f"{len(to)} names, {len(said)} to look at")


if __name__ == "__main__":
    main()
