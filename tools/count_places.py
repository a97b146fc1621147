#!/usr/bin/env python3
"""Lists the places of crates/*/src that an older way of writing leaves, by text alone, a list for each point of docs/DESIGN-PASS.md.

    python3 count_places.py REPOSITORY [POINT ..] [--count]

A hit is a place to look at, not a verdict: docs/DESIGN-PASS.md says what became of each. --count prints the numbers alone.
"""
import collections
import difflib
import itertools
import os
import re
import sys

WORDS = [it for it in sys.argv[1:] if not it.startswith("--")]
TOP, POINTS = WORDS[0], WORDS[1:]
COUNT = "--count" in sys.argv
KEYWORDS = set("as break const continue else enum fn for if impl in let loop match mod move mut pub ref return self Self struct trait type use where while true false".split())


def sources():
    """Returns each source file below crates/*/src with its text, comments blanked."""
    found = {}
    for folder, folders, names in os.walk(os.path.join(TOP, "crates")):
        folders[:] = sorted(it for it in folders if it != "out")
        for name in sorted(names):
            if name.endswith(".rt"):
                path = os.path.join(folder, name)
                with open(path, encoding="utf-8") as it:
                    text = it.read()
                found[os.path.relpath(path, os.path.join(TOP, "crates"))] = re.sub(r"//[^\n]*", "", text)
    return found


TEXTS = sources()


def lines(pattern):
    """Returns 'file:line: text' for each line that the pattern is found in."""
    test = re.compile(pattern)
    return [f"{path}:{number}: {line.strip()}" for path, text in TEXTS.items() for number, line in enumerate(text.split("\n"), 1) if test.search(line)]


def functions():
    """Returns (file, line, name, parameters, clauses, body) of each function with a body."""
    found = []
    head = re.compile(r"(?m)^( *)(?:pub(?:\([a-z]+\))? )?fn ([a-z_0-9]+)")
    for path, text in TEXTS.items():
        for match in head.finditer(text):
            rest = text[match.end() :]
            opened = re.search(r"(?m)[;{]$", rest)
            body = re.search(r"(?ms)^" + match[1] + r"\{\n(.*?)^" + match[1] + r"\}|\{\n(.*?)^" + match[1] + r"\}", rest)
            if not body or opened[0] == ";":
                continue
            start = rest.find("(")
            deep, stop = 0, start
            for stop in range(start, len(rest)):
                deep += (rest[stop] == "(") - (rest[stop] == ")")
                if not deep:
                    break
            parameters = [re.sub(r"\s+", " ", it.strip()) for it in rest[start + 1 : stop].split(",")]
            own = body[1] if body[1] is not None else body[2]
            found.append((path, text.count("\n", 0, match.start()) + 1, match[2], [it for it in parameters if it and "self" not in it.split(":")[0]], rest[stop : body.start()], own))
    return found


FUNCTIONS = functions()


def enums():
    """Own enums of three cases at most, or with a case that says 'nothing'; flags in structs; numbers that stand for none or for a kind."""
    found = []
    for path, text in TEXTS.items():
        for match in re.finditer(r"(?ms)^(?:pub(?:\([a-z]+\))? )?enum (\w+)[^{]*\{\n(.*?)^\}", text):
            cases = re.findall(r"(?m)^    (\w+)", match[2])
            if len(cases) <= 3 or any(re.match(r"Nothing|None$|Un[a-z]+d$|Same$|Fresh$", it) for it in cases):
                found.append(f"{path}:{text.count(chr(10), 0, match.start()) + 1}: enum {match[1]} {{ {', '.join(cases)} }}")
    found += lines(r"^\s+(pub(\(crate\))? )?[a-z_]+: bool,$")
    found += lines(r"(== 0|!= 0) (&&|=>)|if child == 0|\{ first: 0, last: 0 \}")
    return found + lines(r"fn (number|code)\(.*\) -> u\d+")


def twins():
    """Groups of functions whose bodies have one shape, whatever the names, numbers and texts in them."""
    shapes = []
    for path, line, name, _, _, body in FUNCTIONS:
        tokens = re.findall(r"\"[^\"]*\"|b?'[^']*'|\w+|[^\w\s]", body)
        shape = [it if it in KEYWORDS or not re.match(r"[\w\"']", it) else ("T" if it[0].isupper() else "x") for it in tokens]
        if len(shape) >= 20:
            shapes.append((f"{path}:{line} {name}", shape))
    group = {name: name for name, _ in shapes}
    for (one, first), (other, second) in itertools.combinations(shapes, 2):
        if min(len(first), len(second)) / max(len(first), len(second)) > 0.8:
            match = difflib.SequenceMatcher(None, first, second, False)
            if match.real_quick_ratio() > 0.9 and match.quick_ratio() > 0.9 and match.ratio() > 0.9:
                old, new = group[other], group[one]
                group = {name: new if it == old else it for name, it in group.items()}
    groups = collections.defaultdict(list)
    for name, it in group.items():
        groups[it].append(name)
    return [" ~ ".join(it) for it in groups.values() if len(it) > 1]


def loops():
    """Loops over a range or a test, and numbers that are counted up by hand."""
    return lines(r"\bfor \w+ in .*\.\.|\bwhile |\bloop \{|[a-z_]+ \+= 1;")


def by_hand():
    """Impls of From, TryFrom, Display and comparisons; tests, conversions and answers by a match."""
    return lines(
        r"^impl.* (From|TryFrom|fmt::Display|PartialEq|Eq|Ord|PartialOrd|Clone|Debug|Default)\b.* for "
        r"|=> true,$|=> false,$|=> \{ ?true|Err\(\w+\) => (Err|false|unreachable)|fn (is|same|are|is_same|same_\w+|of_number|number_of)\("
    )


def facts():
    """Facts that three or more functions require, and sets of three or more parameters that five or more functions take."""
    required, taken = collections.defaultdict(set), collections.defaultdict(set)
    for path, line, name, parameters, clauses, _ in FUNCTIONS:
        for clause in re.findall(r"(?m)requires(?: \w+)? \{ (.*?) \}$", clauses):
            for part in clause.split(" × "):
                required[re.sub(r"[()]", "", part)].add(f"{path}:{line} {name}")
        for size in range(3, len(parameters) + 1):
            for some in itertools.combinations(sorted(parameters), size):
                taken[some].add(f"{path}:{line} {name}")
    found = [f"{len(at)} functions require {fact}: {', '.join(sorted(at))}" for fact, at in required.items() if len(at) >= 3]
    many = {some: at for some, at in taken.items() if len(at) >= 5}
    widest = [some for some in many if not any(set(some) < set(other) and len(many[other]) == len(many[some]) for other in many)]
    return found + [f"{len(many[some])} functions take {', '.join(some)}" for some in widest]


def buffers():
    """Arrays of a fixed length in structs, and indices in place of references."""
    return lines(r"^\s+(pub(\(crate\))? )?\w+: \[\w+; \w+\],|^\s+(pub(\(crate\))? )?(first|last|next|order|depth|used|taken|filled|marked|at): usize,")


def switches():
    """Closures' bounds and trait objects, and traits (of one function, that only call back)."""
    return lines(r"\bdyn |\bFn(Mut|Once)?\(|: fn\(|^(pub(\(crate\))? )?trait ")


def proofs():
    """Files of answers, answers, files of invariants, and statements of lemmas below proofs/."""
    files, answers, invariants, lemmas, long = 0, 0, 0, 0, 0
    for folder, folders, names in os.walk(os.path.join(TOP, "crates")):
        folders[:] = [it for it in folders if it != "out"]
        if f"{os.sep}proofs" not in folder:
            continue
        for name in names:
            if name.endswith(".antt"):
                with open(os.path.join(folder, name), encoding="utf-8") as it:
                    text = it.read()
                long += text.count("\n")
                stated = len(re.findall(r"(?m)^(?:abbrev |unfoldable |pub )*[^\s:]+ : ", text))
                files += name == "Answers.antt"
                invariants += name == "Invariants.antt"
                answers += stated * (name == "Answers.antt")
                lemmas += stated * (name not in ("Answers.antt", "Invariants.antt"))
    return [f"{files} files of answers with {answers} statements, {invariants} of invariants, {lemmas} statements of lemmas beside them, {long} lines in all"]


for point, what in zip("12345678", (enums, twins, loops, by_hand, facts, buffers, switches, proofs)):
    if not POINTS or point in POINTS:
        found = what()
        print(f"{point}. {what.__doc__} {len(found)}")
        if not COUNT or point == "8":
            print("".join(f"    {it}\n" for it in found), end="")
