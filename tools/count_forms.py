#!/usr/bin/env python3
"""Counts, in the sources, the places of each point of docs/DESIGN-PASS.md.

    tools/count_forms.py            a line for each point, with its counts
    tools/count_forms.py 3          the places of point 3, one a line
"""
import collections
import glob
import os
import re
import sys

os.chdir(os.path.join(os.path.dirname(os.path.abspath(__file__)), ".."))
FILES = sorted(glob.glob("crates/*/src/*.rt"))
TEXT = {p: re.sub(r"//[^\n]*", "", open(p).read()) for p in FILES}


def line_of(text, at):
    return text.count("\n", 0, at) + 1


def closing(text, at, pair="{}"):
    """The place behind the bracket that closes the one at `at`."""
    depth = 0
    for i in range(at, len(text)):
        depth += (text[i] == pair[0]) - (text[i] == pair[1])
        if depth == 0:
            return i + 1
    return len(text)


def functions():
    """(file, line, name, parameters, result, contract, body) of each function."""
    for path, text in TEXT.items():
        for m in re.finditer(r"\bfn (\w+)(<(?:[^>]|->)*>)?\(", text):
            end = closing(text, m.end() - 1, "()")
            params = [p for p in re.split(r",(?![^\[<]*[\]>])", text[m.end():end - 1]) if p.strip()]
            head = re.match(r"\s*(?:->\s*([^\n{]+))?", text[end:])
            at = end + head.end()
            while True:
                clause = re.match(r"\s*(?:requires|ensures)\*?(?: \w+)? \{", text[at:])
                if not clause:
                    break
                at = closing(text, at + clause.end() - 1)
            contract = text[end + head.end():at]
            opens = re.match(r"\s*\{", text[at:])
            if not opens:
                continue
            body = text[at + opens.end() - 1:closing(text, at + opens.end() - 1)]
            yield path, line_of(text, m.start()), m.group(1), params, (head.group(1) or "").strip(), contract, body


FUNCTIONS = list(functions())


def shaped_enums():
    """Enums of two cases with at most a value each, and at least one value; fields `bool` beside others."""
    for path, text in TEXT.items():
        for m in re.finditer(r"\benum (\w+) \{([^}]*)\}", text):
            cases = [c.strip() for c in m.group(2).split("\n") if c.strip()]
            if len(cases) == 2 and any("(" in c for c in cases):
                yield f"{path}:{line_of(text, m.start())} enum {m.group(1)}"
        for m in re.finditer(r"\bstruct (\w+)[^{;]* \{([^}]*)\}", text):
            if re.search(r"\w+: bool,", m.group(2)) and m.group(2).count(":") > 1:
                yield f"{path}:{line_of(text, m.start())} flag in struct {m.group(1)}"


def flags_beside():
    for path, line, name, params, result, _, _ in FUNCTIONS:
        if result == "bool" and any("&mut" in p for p in params):
            yield f"{path}:{line} {name} answers a flag, its value in a &mut"


def numbers():
    for path, text in TEXT.items():
        if path.endswith("refusal.rt"):
            for m in re.finditer(r"pub const (\w+): usize", text):
                yield f"{path}:{line_of(text, m.start())} number {m.group(1)}"
        for m in re.finditer(r"const (NO_LETTER|NO_KEY|NOTHING_NOTED|MISSES)\b", text):
            yield f"{path}:{line_of(text, m.start())} sentinel {m.group(1)}"
        for m in re.finditer(r"-> usize\n", text):
            if re.search(r"Graded|worse|cond ok g 2", text[m.end():m.end() + 200]):
                yield f"{path}:{line_of(text, m.start())} a grade as a number"


def shape(body):
    """The body with each call, type and number under one name."""
    body = re.sub(r"\bb'.'", "0", body)
    body = re.sub(r"\b(?:\w+::)*\w+(?=\()", "F", body)
    body = re.sub(r"\b(?:[uif](?:8|16|32|64|size)|[A-Z]\w*)\b", "T", body)
    body = re.sub(r"\b\d[\w.]*\b", "0", body)
    body = re.sub(r"\[T; 0\]|\[0; 0\]|\[0(, 0)*\]", "Z", body)
    return re.sub(r"\s+", " ", body)


def trait_of(path, line):
    """The trait whose `impl` a line stands in, if any."""
    text, found = TEXT[path], ""
    for m in re.finditer(r"^impl(?:<[^{]*>)? ([\w:<>]+) for [^{]*\{", text, re.M):
        if line_of(text, m.start()) < line <= line_of(text, closing(text, m.end() - 1)):
            found = m.group(1)
    return found


def twins():
    """The impls of one trait are no twins: the trait is what they share."""
    groups = collections.defaultdict(dict)
    for path, line, name, params, _, _, body in FUNCTIONS:
        if len(body) > 12:
            trait = trait_of(path, line)
            groups[shape(body)].setdefault(trait and (path, trait, name), []).append(f"{path}:{line} {name}")
    for group in groups.values():
        if "" in group:
            group[""] += [places[0] for key, places in group.items() if key]
    several = [g.get("") or [places[0] for places in g.values()] for g in groups.values()]
    for number, group in enumerate(sorted(g for g in several if len(g) > 1)):
        for place in group:
            yield f"{place} (group {number + 1})"


def loops():
    for path, text in TEXT.items():
        for m in re.finditer(r"\bwhile ([^\n]*) \{", text):
            body = text[m.end() - 1:closing(text, m.end() - 1)]
            counted = set(re.findall(r"\b(\w+) [+-]= ", body)) & set(re.findall(r"\w+", m.group(1)))
            if counted:
                yield f"{path}:{line_of(text, m.start())} while {m.group(1)}"


def by_hand():
    for path, line, name, params, result, _, body in FUNCTIONS:
        inner = body.strip("{} \n")
        if re.fullmatch(r"\w+ as \w+", inner):
            yield f"{path}:{line} {name}: a cast"
        elif re.search(r"^(same|equal)", name):
            yield f"{path}:{line} {name}: an equality"
        elif re.search(r"digit|decimal", name) and path.startswith("crates/report_text"):
            yield f"{path}:{line} {name}: printing"
        elif re.fullmatch(r"(position_of|cells_of|number_of|real_entry)", name):
            yield f"{path}:{line} {name}: a conversion"


def long_lists():
    for path, line, name, params, _, _, _ in FUNCTIONS:
        if len(params) >= 6:
            yield f"{path}:{line} {name}: {len(params)} parameters"


def repeated_facts():
    facts = collections.defaultdict(list)
    for path, line, name, _, _, contract, _ in FUNCTIONS:
        crate = path.split("/")[1]
        for m in re.finditer(r"requires(?: \w+)? \{", contract):
            clause = contract[m.end():closing(contract, m.end() - 1) - 1]
            for fact in re.split(r" × ", re.sub(r"\s+", " ", clause)):
                fact = re.sub(r"\b(?:\w+\.)?\w+ < 3\b", "i < 3", fact.strip(" ()"))
                facts[crate, fact].append(f"{path}:{line} {name}")
    for (crate, fact), places in sorted(facts.items()):
        if len(set(places)) >= 3:
            yield f"crates/{crate}: {fact} ({len(set(places))} functions)"


def buffers():
    for path, text in TEXT.items():
        for m in re.finditer(r"let mut (\w+) = \[[^;\]]*(?:\[[^\]]*\][^;\]]*)*; (MOST_\w+|USUAL_\w+|256|26|98|64)\]", text):
            yield f"{path}:{line_of(text, m.start())} {m.group(1)}: [_; {m.group(2)}]"


def switches():
    for path, line, name, params, _, _, body in FUNCTIONS:
        for p in params:
            m = re.match(r"\s*(\w+): bool", p)
            if m and re.search(r"\bif !?%s\b" % m.group(1), body):
                yield f"{path}:{line} {name} by {m.group(1)}"


def proof_lines():
    for crate in sorted(glob.glob("crates/*")):
        lines = sum(len(open(p).readlines()) for p in glob.glob(crate + "/proofs/**/*.antt", recursive=True))
        if lines:
            yield f"{crate} {lines} lines in {len(glob.glob(crate + '/proofs/**/*.antt', recursive=True))} files"


POINTS = [
    (1, "Option- or Result-shaped enums, flags in structs", shaped_enums),
    (1, "a flag answered, its value in a &mut", flags_beside),
    (1, "numbers for refusals and grades, sentinels", numbers),
    (2, "functions with a twin", twins),
    (3, "loops that count an index", loops),
    (4, "casts, equality, conversion, printing by hand", by_hand),
    (5, "a fact in three contracts of a crate", repeated_facts),
    (5, "functions of six parameters or more", long_lists),
    (6, "fixed buffers of which a front is used", buffers),
    (7, "a parameter that says which step to run", switches),
    (8, "crates with proofs", proof_lines),
]

if __name__ == "__main__":
    for point, words, places in POINTS:
        found = list(places())
        if len(sys.argv) < 2:
            print(f"{point}  {len(found):4}  {words}")
        elif sys.argv[1] == str(point):
            print(f"-- {words}: {len(found)}")
            print("\n".join(found))
