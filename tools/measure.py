#!/usr/bin/env python3
"""Measures writing and reading: python3 tools/measure.py [--beside PROGRAM] [--core N] [--runs N] [--no-time] [--where]

Wants valgrind, and crates/bench/out/bench (`cd crates/bench && rt run`). --beside names the reference's program, built from
tools/bench/beside.rs as docs/PERFORMANCE.md says. Instructions of a phase are the difference of two runs that differ only in how often
they do it, counted by callgrind. The time is such a difference too: of user time, on one core, the median of several runs.
--where prints instead in which functions of this side the instructions of a call are.
"""
import argparse, collections, os, re, resource, statistics, subprocess, sys, tempfile

HERE = os.path.dirname(os.path.abspath(__file__))
BENCH = os.path.join(HERE, "..", "crates", "bench", "out", "bench")

# title, shape, items, how often more for instructions, how often more for time
WORKLOADS = [
    ("a small state", "seats", 4, 100, 100000),
    ("a state", "seats", 4000, 4, 100),
    ("a large state", "seats", 40000, 1, 10),
    ("rows of numbers", "numbers", 14286, 4, 100),
    ("many rows of numbers", "numbers", 142857, 1, 10),
    ("texts in ASCII", "plain", 4000, 4, 100),
    ("many texts in ASCII", "plain", 40000, 1, 10),
    ("texts of many scripts", "scripts", 4000, 4, 100),
    ("many texts of many scripts", "scripts", 40000, 1, 10),
]


class Side:
    """A program, and its arguments for a workload."""

    def __init__(self, name, words, core):
        self.name, self.words, self.core = name, words, core

    def command(self, phase, times):
        return [str(times) if w == "TIMES" else phase if w == "PHASE" else w for w in self.words]

    def output(self, phase, times):
        return subprocess.run(self.command(phase, times), capture_output=True, text=True, check=True).stdout

    def instructions(self, phase, times):
        with tempfile.TemporaryDirectory() as place:
            command = ["valgrind", "--tool=callgrind", f"--callgrind-out-file={place}/out", *self.command(phase, times)]
            log = subprocess.run(command, capture_output=True, text=True, check=True).stderr
        return int(re.search(r"Collected : (\d+)", log).group(1))

    def functions(self, phase, times):
        """The instructions of each function."""
        with tempfile.TemporaryDirectory() as place:
            out = f"{place}/out"
            command = ["valgrind", "--tool=callgrind", f"--callgrind-out-file={out}", *self.command(phase, times)]
            subprocess.run(command, capture_output=True, check=True)
            told = subprocess.run(["callgrind_annotate", "--threshold=100", out], capture_output=True, text=True, check=True).stdout
        found = re.findall(r"^ *([\d,]+) \([^)]*\)  [^\n:]*:(.*?)(?: \[[^\n]*)?$", told, re.M)
        counts = collections.Counter()
        for count, name in found:
            counts[name] += int(count.replace(",", ""))
        return counts

    def seconds(self, phase, times):
        before = resource.getrusage(resource.RUSAGE_CHILDREN).ru_utime
        subprocess.run(["taskset", "-c", str(self.core), *self.command(phase, times)], stdout=subprocess.DEVNULL, check=True)
        return resource.getrusage(resource.RUSAGE_CHILDREN).ru_utime - before


def per_phase(measure, phase, more):
    return (measure(phase, 1 + more) - measure(phase, 1)) / more


def where(side, title, calls, few):
    for phase in ("write", "read"):
        many, one = side.functions(phase, 1 + few), side.functions(phase, 1)
        print(f"{title}, {phase}: instructions for each of {calls:,} calls")
        for name, count in sorted(((n, (many[n] - one[n]) / few / calls) for n in many), key=lambda it: -it[1]):
            if count >= 0.5:
                print(f"  {count:8.1f} {name}", flush=True)


def main():
    parser = argparse.ArgumentParser()
    parser.add_argument("--beside")
    parser.add_argument("--core", type=int, default=3)
    parser.add_argument("--runs", type=int, default=7)
    parser.add_argument("--no-time", action="store_true")
    parser.add_argument("--where", action="store_true")
    parser.add_argument("--only", default="")
    options = parser.parse_args()
    if not options.where:
        print("| workload | calls | phase | instructions here | a call | of the Rust | a call | ratio | time here | ratio of times |")
        print("|-|-|-|-|-|-|-|-|-|-|")
    for title, shape, items, few, many in WORKLOADS:
        if options.only not in f"{shape} {items}":
            continue
        with tempfile.NamedTemporaryFile("w") as lines:
            here = Side("here", [BENCH, shape, str(items), "PHASE", "TIMES"], options.core)
            sides = [here]
            text = here.output("calls", 0)
            lines.write(text)
            lines.flush()
            calls = text.count("\n")
            if options.where:
                where(here, title, calls, few)
                continue
            if options.beside:
                sides.append(Side("beside", [options.beside, lines.name, "PHASE", "TIMES"], options.core))
                for phase in ("write", "read"):
                    one, other = (set(l.strip() for l in s.output(phase, 1).splitlines()[1:]) for s in sides)
                    if not one <= other:
                        sys.exit(f"{shape} {items}: the two sides do not say the same: {one} and {other}")
            for phase in ("write", "read"):
                counts = [per_phase(s.instructions, phase, few) for s in sides]
                row = [title, f"{calls:,}", phase, f"{counts[0]:,.0f}", f"{counts[0] / calls:.1f}"]
                row += [f"{counts[1]:,.0f}", f"{counts[1] / calls:.1f}", f"{counts[0] / counts[1]:.2f}"] if options.beside else ["", "", ""]
                if options.no_time:
                    row += ["", ""]
                else:
                    times = [[per_phase(s.seconds, phase, many) for s in sides] for _ in range(options.runs)]
                    row.append(f"{statistics.median(t[0] for t in times) * 1e6:,.1f} µs")
                    row.append(f"{statistics.median(t[0] / t[1] for t in times):.2f}" if options.beside else "")
                print("| " + " | ".join(row) + " |", flush=True)


main()
