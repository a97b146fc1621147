#!/usr/bin/env python3
"""Makes the list of vectors that program `vectors` compares the codec with, and runs the large comparison.

    make_vectors.py gate REFERENCE GENERATOR                      writes crates/vectors/data/rust.txt
    make_vectors.py large REFERENCE GENERATOR PROGRAM SEED [KIND] compares far more, and prints the counts
    make_vectors.py altered PROGRAM                               shows that the program finds lines that were changed

REFERENCE answers lines and GENERATOR makes them; KIND is one kind of lines in place of all (docs, deep, twist,
unfinished, exhaustive, utf8, big). Both programs are described in docs/COMPARISON.md, and are no part of this
repository. PROGRAM is the program `vectors`, built: `rt run` in crates/vectors leaves it in out/.
"""

import collections
import os
import random
import subprocess
import sys
import tempfile

HERE = os.path.dirname(os.path.abspath(__file__))
DATA = os.path.join(HERE, "..", "crates", "vectors", "data", "rust.txt")

HEAD = """# Answers of the reference. Made by tools/make_vectors.py: do not edit. docs/COMPARISON.md says how.
#
# A line is a comment, the title of the group that it opens, or what is asked, ' = ', and the answer:
#
#   write CALLS = ANSWER              CALLS have ';' between. ANSWER: bytes BYTES, or error, type changed, length mismatch
#   read INPUT QUESTIONS = ANSWER     QUESTIONS have ';' between. ANSWER: a word, and the values with ';' between
#
# The word is whole (all was answered, and no byte is left), left (bytes are left), error (at the next question),
# changed (a panic there, "type changed"), or unfit (the next question does not fit the answers, or is missing).
# Bytes are in hexadecimal, '-' for none. A value is a number, a text's bytes, none, some, or '-' for unit, tuple and end.
"""

# What the reference may end a panic with, and the word for it.
PANICS = {"type changed", "length mismatch"}


class Skipped(Exception):
    """A line that the reference cannot be given."""


def items(text):
    return [item.strip() for item in text.split(" ; ")] if text.strip() else []


def value(text):
    return text[5:] if text.startswith("text ") else text


def hexadecimal(text):
    return "".join(text.split()) or "-"


def converted(pair):
    """A line of the reference with its answer, as a line of the data file."""
    asked, answer = pair.rstrip("\n").split(" => ", 1)
    fields = [field.strip() for field in asked.split(" | ")]
    if answer == "skip" or answer.startswith("bad "):
        raise Skipped(answer)
    if fields[0] in ("W", "L"):
        return "write %s = %s" % (";".join(items(fields[1])), written(answer))
    return "read %s %s = %s" % (hexadecimal(fields[1]), ";".join(items(fields[2])), heard(answer))


def written(answer):
    if answer == "bytes" or answer.startswith("bytes "):
        return "bytes " + hexadecimal(answer[5:])
    if answer == "err":
        return "error"
    if answer.startswith("panic ") and answer[6:] in PANICS:
        return answer[6:]
    raise ValueError("an answer of a writer: " + answer)


def heard(answer):
    head, _, said = answer.partition(":")
    if answer == "values" or answer.startswith("values "):
        word, number, said = "whole", None, answer[6:]
    elif head == "err eof":
        word, number = "left", None
    elif head.startswith("err "):
        word, number = "error", int(head[4:])
    elif head.startswith("diverged "):
        word, number = "unfit", int(head[9:])
    elif head.startswith("panic ") and head.split(" ", 2)[2] == "type changed":
        word, number = "changed", int(head.split(" ", 2)[1])
    else:
        raise ValueError("an answer of a reader: " + answer)
    values = [value(item) for item in items(said)]
    if number is not None and number != len(values):
        raise ValueError("an answer of a reader with %d values: %s" % (len(values), answer))
    return word + (" " + ";".join(values) if values else "")


def answered(reference, lines):
    """The lines with their answers."""
    run = subprocess.run([reference, "--answers", "--pair"], input="".join(lines), stdout=subprocess.PIPE, text=True, check=True)
    return run.stdout.splitlines()


def generated(generator, *arguments):
    run = subprocess.run([generator, *map(str, arguments)], stdout=subprocess.PIPE, text=True, check=True)
    return run.stdout.splitlines(keepends=True)


def unfinished(chance, lines):
    """Complete lists of calls in which one declared number is another: the list ends early, or has a value too many."""
    made = []
    for line in lines:
        if not line.startswith("W "):
            continue
        calls = items(line[4:])
        places = [i for i, call in enumerate(calls) if call.split(" ")[0] in ("seq", "map", "tuple") and int(call.split(" ")[1]) < 1000]
        if not places:
            continue
        i = chance.choice(places)
        word, number = calls[i].split(" ")
        number = int(number)
        number = number - 1 if number > 0 and chance.random() < 0.5 else number + 1
        made.append("L | %s\n" % " ; ".join(calls[:i] + ["%s %d" % (word, number)] + calls[i + 1 :]))
    return made


def edges():
    """Lines at the edges: limits, and each difference that has a name."""
    some, option = " ; ".join(["some"] * 33), " ; ".join(["option"] * 33)
    limit = 2251799813685247
    long = lambda n: "ff" + n.to_bytes(8, "little").hex()
    return [line + "\n" for line in [
        # sums
        "L | seq %d ; end" % (limit - 1), "L | seq %d ; end" % limit, "L | map %d ; end" % limit,
        "L | seq 18446744073709551615 ; end",
        "L | seq 2 ; seq 1 ; unit ; end ; seq %d ; end ; end" % (limit - 2),
        "L | seq 2 ; seq 1 ; unit ; end ; seq %d ; end ; end" % (limit - 1),
        "R | %s | seq ; end" % long(limit - 1), "R | %s | seq ; end" % long(limit), "R | %s | map ; end" % long(limit),
        "R | 02ff01%s | seq ; seq ; unit ; end ; seq ; end ; end" % long(limit - 2)[2:],
        "R | 0201%s | seq ; seq ; unit ; end ; seq ; end ; end" % long(limit - 2),
        "R | 0201%s | seq ; seq ; unit ; end ; seq ; end ; end" % long(limit - 1),
        # the flag of no size
        "R | %s | seq! ; unit ; end" % long(65536), "R | %s | seq! ; unit ; end" % long(65537), "R | %s | seq! ; end" % long(65537),
        "R | %s | map! ; unit ; unit ; end" % long(65536), "R | %s | map! ; unit ; unit ; end" % long(65537),
        "R | %s | seq ; unit ; end" % long(65537),
        # full tables
        "L | tuple 65534 ; end", "L | tuple 65535 ; end", "L | tuple 70000 ; end",
        "L | seq 2 ; tuple 65533 ; end ; end", "L | seq 2 ; tuple 65534 ; end ; end",
        "R | - | tuple 65534 ; end", "R | - | tuple 65535 ; end", "R | - | tuple 70000 ; end",
        "R | 02 | seq ; tuple 65533 ; end ; end", "R | 02 | seq ; tuple 65534 ; end ; end",
        "R | %s | seq ; u8 ; end" % long(1048574), "R | %s | seq ; u8 ; end" % long(1048575),
        "R | %s | seq ; unit ; u8" % long(1048575), "R | %s | seq ; text ; end" % long(600000),
        # open places
        "W | %s ; u8 7" % some[7:], "W | %s ; u8 7" % some, "W | %s ; none" % some[7:], "W | %s ; seq 0 ; end" % some[7:],
        "R | %s07 | %s ; u8" % ("01" * 32, option[9:]), "R | %s07 | %s ; u8" % ("01" * 33, option),
        "R | %s00 | %s" % ("01" * 32, option), "R | %s02 | %s" % ("01" * 32, option), "R | %s | %s" % ("01" * 32, option),
        "R | %s00 | %s ; seq ; end" % ("01" * 32, option[9:]), "R | %s00 | %s ; variant ; unit" % ("01" * 32, option[9:]),
        "R | %s | %s ; tuple 0 ; end" % ("01" * 32, option[9:]),
        # kinds at one node
        "W | seq 2 ; unit ; u8 7 ; end", "W | seq 2 ; u8 7 ; unit ; end", "W | seq 3 ; unit ; unit ; tuple 0 ; end ; end",
        "W | tuple 2 ; seq 2 ; unit ; u8 7 ; end ; seq 1 ; u8 0 ; end ; end",
        "R | 02070100 | tuple 2 ; seq ; unit ; u8 ; end ; seq ; u8 ; end ; end",
        "R | 0207 | seq ; unit ; u8 ; end", "R | 0207 | seq ; u8 ; unit ; end", "R | 020709 | seq ; unit ; u8 ; end",
        "W | seq 2 ; none ; variant 0 ; u8 7 ; end", "W | seq 2 ; variant 0 ; u8 7 ; none ; end",
        "W | seq 2 ; none ; variant 0 ; unit ; end", "W | seq 2 ; none ; variant 0 ; none ; end",
        "R | 02000007 | seq ; option ; variant ; u8 ; end",
        "W | seq 2 ; u8 7 ; bool 1 ; end", "W | seq 2 ; u8 7 ; i8 1 ; end", "W | seq 2 ; tuple 0 ; end ; tuple 2 ; unit ; unit ; end ; end",
        "R | 020709 | seq ; u8 ; i8 ; end", "R | 020709 | seq ; u8 ; bool ; end", "R | 0207000900 | seq ; i16 ; u16 ; end",
        "R | 020700000009000000 | seq ; f32 ; u32 ; end",
        "R | 02 | seq ; tuple 0 ; end ; tuple 2 ; unit ; unit ; end ; end",
        # indices
        "W | variant 255 ; unit", "W | variant 256 ; unit", "W | variant 4294967295 ; unit", "R | ff | variant ; unit",
        "W | seq 2 ; u8 7 ; variant 256 ; unit ; end", "W | seq 2 ; variant 256 ; unit ; u8 7 ; end",
    ]]


def chosen(lines, most, count, chance):
    """So many of the lines that are no longer than this, in their order."""
    short = [i for i, line in enumerate(lines) if len(line) <= most]
    keep = set(chance.sample(short, min(count, len(short))))
    return [line for i, line in enumerate(lines) if i in keep]


def gate(reference, generator):
    chance = random.Random(20)
    documents = generated(generator, "docs", 11, 900)
    groups = [
        ("documents, damaged copies and random inputs", chosen(documents, 260, 2400, chance)),
        ("longer ones", chosen([line for line in documents if len(line) > 260], 900, 200, chance)),
        ("documents 9 to 32 places deep", chosen(generated(generator, "deep", 12, 150), 900, 160, chance)),
        ("one call changed", chosen(generated(generator, "twist", 13, 600), 220, 500, chance)),
        ("early ends, and values too many", chosen(unfinished(chance, generated(generator, "docs", 14, 400)), 220, 150, chance)),
        ("texts at the edges of the table of well-formed UTF-8", chosen(generated(generator, "utf8", 3), 80, 700, chance)),
        ("edges", edges()),
        ("all inputs of at most one byte", generated(generator, "exhaustive", 1)),
    ]
    with open(DATA, "w") as out:
        out.write(HEAD)
        for title, lines in groups:
            out.write("group %s\n" % title)
            for pair in answered(reference, lines):
                try:
                    out.write(converted(pair) + "\n")
                except Skipped as skipped:
                    print("left out, %s: %s" % (skipped, pair[:80]))
            print("%s: %d lines" % (title, len(lines)))


def big():
    """Documents that just fill a table, and that pass it by one."""
    lines = []
    for count in (1048573, 1048574):
        long = "ff" + count.to_bytes(8, "little").hex()
        numbers = " ; ".join(["u8"] * count)
        lines += ["W | seq %d ; %s ; end" % (count, numbers.replace("u8", "u8 7"))]
        lines += ["R | %s%s | seq ; %s ; end" % (long, "07" * count, numbers)]
    for count in (65534, 65535, 70000):
        units = " ; ".join(["unit"] * count)
        lines += ["W | tuple %d ; %s ; end" % (count, units), "R | - | tuple %d ; %s ; end" % (count, units)]
    for count in (16777216, 16777217):
        lines += ["W | text %s" % ("61" * count), "R | ff%s%s | text" % (count.to_bytes(8, "little").hex(), "61" * count)]
    return [line + "\n" for line in lines]


# How many documents the generator makes at a time, and how often, for each of its kinds.
LARGE = [("docs", 20000, 55), ("deep", 2000, 10), ("twist", 20000, 10), ("unfinished", 20000, 10)]


def compared(program, lines):
    """What the program counts for these lines, and what it prints before the total."""
    with tempfile.TemporaryDirectory() as folder:
        with open(os.path.join(folder, "part.txt"), "w") as out:
            out.write("# a part\ngroup part\n")
            out.writelines(line + "\n" for line in lines)
        run = subprocess.run([os.path.abspath(program), "part.txt"], cwd=folder, stdout=subprocess.PIPE, stderr=subprocess.STDOUT, text=True)
    total = [line for line in run.stdout.splitlines() if line.startswith("total: ")]
    if len(total) != 1:
        sys.exit("the program ended early:\n" + run.stdout)
    counts = collections.Counter()
    for item in total[0][len("total: ") :].split(", "):
        number, name = item.split(" ", 1)
        counts[name] += int(number)
    found = [line for line in run.stdout.splitlines() if line.startswith(("differs: ", "   came: "))]
    return counts, found


def kinds(pair, counts):
    """Counts a line of the reference by what it is."""
    asked, answer = pair.split(" => ", 1)
    if asked[0] in "WL":
        counts["lists of calls"] += 1
    else:
        counts["inputs"] += 1
        word = answer.split(" ", 1)[0]
        counts["inputs, " + {"values": "answered to the end", "err": "an Err", "diverged": "questions that do not fit", "panic": "a panic"}[word]] += 1


def large(reference, generator, program, seed, only):
    sum_of_all = collections.Counter()
    tasks = [(kind, count, seed * 1000 + number) for kind, count, times in LARGE for number in range(times)]
    tasks += [("exhaustive", 2, None), ("utf8", 4, None), ("big", 0, None)]
    for kind in only or [kind for kind, _, _ in LARGE] + ["exhaustive", "utf8", "big"]:
        counts = collections.Counter()
        for _, count, part in [task for task in tasks if task[0] == kind]:
            chance = random.Random(part)
            if kind == "big":
                lines = big()
            elif part is None:
                lines = generated(generator, kind, count)
            elif kind == "unfinished":
                lines = unfinished(chance, [line for line in generated(generator, "docs", part, count)])
            else:
                lines = generated(generator, kind, part, count)
            for start in range(0, len(lines), 200000):
                converts = []
                for pair in answered(reference, lines[start : start + 200000]):
                    try:
                        converts.append(converted(pair))
                    except Skipped:
                        counts["left out"] += 1
                        continue
                    kinds(pair, counts)
                more, found = compared(program, converts)
                counts.update(more)
                for line in found:
                    print(line[:2000])
        print("%s: %s" % (kind, ", ".join("%d %s" % (number, name) for name, number in counts.items())), flush=True)
        sum_of_all.update(counts)
    print("total: %s" % ", ".join("%d %s" % (number, name) for name, number in sum_of_all.items()))


# A word of an answer, and another one.
OTHERS = {"whole": "left", "left": "whole", "error": "unfit", "unfit": "error", "changed": "error", "none": "some", "some": "none"}
OTHERS.update({"bytes -": "bytes 00", "type changed": "error", "length mismatch": "error"})


def other(text):
    """Another value, or bytes: the last digit is changed."""
    if text in OTHERS:
        return OTHERS[text]
    return text[:-1] + ("1" if text[-1] == "0" else "0")


def changed(chance, line):
    """The line with one value, one byte or the word of its answer changed."""
    asked, answer = line.split(" = ")
    word, _, said = answer.partition(" ")
    if line.startswith("write "):
        if answer in OTHERS or answer == "error":
            return "%s = %s" % (asked, "bytes -" if answer == "error" else OTHERS[answer])
        place = 2 * chance.randrange(1, len(said) // 2 + 1)
        return "%s = bytes %s%s" % (asked, other(said[:place]), said[place:])
    values = said.split(";")
    places = [i for i, value in enumerate(values) if value not in ("-", "")]
    if not places:
        return "%s = %s%s" % (asked, OTHERS[word], " " + said if said else "")
    i = chance.choice(places)
    return "%s = %s %s" % (asked, word, ";".join(values[:i] + [other(values[i])] + values[i + 1 :]))


def altered(program):
    """Changes each line of the gate's data, one value, byte or word of its answer, and counts what the program finds."""
    with open(DATA) as data:
        lines = [line.rstrip("\n") for line in data if line.startswith(("write ", "read "))]
    chance = random.Random(1)
    counts, _ = compared(program, [changed(chance, line) for line in lines])
    print(", ".join("%d %s" % (number, name) for name, number in counts.items()))


if __name__ == "__main__":
    if len(sys.argv) == 4 and sys.argv[1] == "gate":
        gate(sys.argv[2], sys.argv[3])
    elif len(sys.argv) in (6, 7) and sys.argv[1] == "large":
        large(sys.argv[2], sys.argv[3], sys.argv[4], int(sys.argv[5]), sys.argv[6:])
    elif len(sys.argv) == 3 and sys.argv[1] == "altered":
        altered(sys.argv[2])
    else:
        sys.exit(__doc__)
