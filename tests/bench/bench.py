#!/usr/bin/env python3
"""Counts the instructions of all rows of the benchmark and writes the tables.

Usage: bench.py TARGET ARCHIVE [--markdown FILE] [--svg FILE]

TARGET is the folder with the built programs bench and stack, ARCHIVE the
product's, for its size. Tables go to standard output; --markdown replaces the
part of FILE between the two bench lines, or makes FILE of that part alone;
--svg draws the picture.
"""
import argparse
import glob
import os
import platform
import subprocess
import sys

sys.dont_write_bytecode = True  # all that is built stands in the target

import picture  # noqa: E402

HERE = os.path.dirname(os.path.abspath(__file__))
BEGIN, END = "<!-- bench: begin -->", "<!-- bench: end -->"
# The programs are x86-64 ones; on another machine qemu-user runs them.
AT_HOME = platform.machine() == "x86_64"
RUNNER = [] if AT_HOME else ["qemu-x86_64"]
SIZE = "size" if AT_HOME else "x86_64-linux-gnu-size"
EVENTS = 100  # in a list
IMPLEMENTATIONS = ["product", "quick"]
RECORDS = (8, 16, 32, 64, 128, 256)
LEVELS = (1, 2, 5, 10, 20, 50)

# Row of the driver, its work, and what the table calls it. rows.inc says what
# a row does, work.c what a work contains. A list counts for each of its 100
# events, so that a hundredth of its tests is in it.
ROWS = (
    ("check", "small", "check, 10 records"),
    ("check", "medium", "check, 65 records"),
    ("check", "full", "check, 256 records"),
    ("react", "small", "react, 10 records"),
    ("react", "medium", "react, 65 records"),
    ("react", "full", "react, 256 records"),
    ("list", "small", "event in a list, 10 records"),
    ("list", "medium", "event in a list, 65 records"),
    ("list", "full", "event in a list, 256 records"),
    ("react", "small-ignored", "react, ignored event, 10 records"),
    ("react", "medium-ignored", "react, ignored event, 65 records"),
    ("react", "full-ignored", "react, ignored event, 256 records"),
    ("list", "small-ignored", "ignored event in a list, 10 records"),
    ("list", "medium-ignored", "ignored event in a list, 65 records"),
    ("list", "full-ignored", "ignored event in a list, 256 records"),
    ("query", "medium", "query, 65 records"),
    ("query", "full", "query, 256 records"),
    ("react", "chain", "react, chain of 50 levels"),
    ("list", "chain", "event in a list, chain of 50 levels"),
    ("react", "scenario", "react, contact scenario"),
    ("list", "scenario", "event in a list, contact scenario"),
)

# Times that a row is performed: all events once, where they come in turn.
TIMES = {"check": 10, "query": 10, "react": EVENTS, "list": 2}


class Counter:
    """Counts rows with the driver, each once."""

    def __init__(self, target):
        self.target = target
        self.known = {}

    def run(self, row, work, implementation, times):
        command = [os.path.join(HERE, "count"),
                   os.path.join(self.target, "bench"), row, work,
                   implementation, str(times)]
        environment = dict(os.environ, COUNT_TARGET=self.target)
        done = subprocess.run(command, capture_output=True, text=True,
                              env=environment, check=False)
        if not done.stdout.strip().isdigit():
            sys.exit(f"bench: no count from {' '.join(command)}\n"
                     f"{done.stderr}")
        return int(done.stdout)

    def cost(self, row, work, implementation):
        """Instructions per call, or per event of a list."""
        key = row, work, implementation
        if key not in self.known:
            times = TIMES[row]
            once = self.run(row, work, implementation, times)
            twice = self.run(row, work, implementation, 2 * times)
            per_call = (twice - once) / times
            self.known[key] = per_call / (EVENTS if row == "list" else 1)
        return self.known[key]


def shown(number):
    """A count as the tables show it."""
    if number is None:
        return ""
    return f"{number:,.0f}" if number >= 100 else f"{number:.1f}"


def table(head, lines):
    """A table in Markdown; all columns but the first stand to the right."""
    parts = ["| " + " | ".join(head) + " |",
             "|---" + "|---:" * (len(head) - 1) + "|"]
    parts += ["| " + " | ".join(line) + " |" for line in lines]
    return "\n".join(parts)


def same_answers(target):
    """All implementations must answer alike on all works."""
    def show(work, implementation):
        command = RUNNER + [os.path.join(target, "bench"), "show", work,
                            implementation, "1"]
        return subprocess.run(command, capture_output=True, text=True,
                              check=True).stdout
    works = sorted({work for _, work, _ in ROWS})
    works += [f"records-{n}" for n in RECORDS]
    works += [f"records-{n}-ignored" for n in RECORDS]
    works += [f"levels-{n}" for n in LEVELS]
    for work in works:
        answers = {show(work, name) for name in IMPLEMENTATIONS}
        if len(answers) != 1:
            sys.exit(f"bench: the implementations differ on {work}")
    by_hand = show("scenario", "machine")
    if show("scenario", "quick").split("\n", 1)[1] != by_hand:
        sys.exit("bench: the state machine differs")


def main_rows(counter):
    """For each row its name and its cost by implementation."""
    rows = []
    for row, work, name in ROWS:
        costs = {i: counter.cost(row, work, i) for i in IMPLEMENTATIONS}
        if work == "scenario":
            costs["machine"] = counter.cost(row, work, "machine")
        rows.append((name, costs))
    return rows


def main_table(rows):
    names = IMPLEMENTATIONS + ["machine"]
    head = ["instructions per call"] + names + ["product / quick"]
    lines = [[name] + [shown(costs.get(i)) for i in names]
             + [f"{costs['product'] / costs['quick']:.2f}"]
             for name, costs in rows]
    return table(head, lines)


def growth(counter, sizes, rows):
    """rows: (row of the driver, its work with {} for the size, its name).
    Gives (name, implementation, costs by size)."""
    return [(name, i, [counter.cost(row, work.format(n), i) for n in sizes])
            for row, work, name in rows for i in IMPLEMENTATIONS]


def growth_table(what, sizes, lines):
    return table([what] + [str(n) for n in sizes],
                 [[f"{name}, {implementation}"] + [shown(c) for c in costs]
                  for name, implementation, costs in lines])


def sizes_of(files):
    """Bytes of code with constants, and of static data."""
    done = subprocess.run([SIZE] + files, capture_output=True, text=True,
                          check=True)
    lines = [line.split() for line in done.stdout.splitlines()[1:]]
    code = sum(int(line[0]) for line in lines)
    return code, sum(int(line[1]) + int(line[2]) for line in lines)


def most_stack(target, implementation):
    command = RUNNER + [os.path.join(target, "stack"), implementation]
    done = subprocess.run(command, capture_output=True, text=True, check=True)
    return int(done.stdout.splitlines()[-1].split()[0])


def memory_table(target, archive):
    files = {"quick": sorted(glob.glob(os.path.join(target, "quick*.o"))),
             "product": [archive]}
    lines = []
    for name in IMPLEMENTATIONS:
        code, data = sizes_of(files[name])
        on_disk = sum(os.path.getsize(f) for f in files[name])
        lines.append([name, shown(most_stack(target, name)), f"{code:,}",
                      f"{data:,}", f"{on_disk:,}"])
    return table(["bytes", "stack, deepest nesting", "code and constants",
                  "static data", "files"], lines)


def write_part(path, text):
    """Replaces the part of a file between the two bench lines."""
    part = f"{BEGIN}\n{text}\n{END}"
    old = ""
    if os.path.exists(path):
        with open(path, encoding="utf-8") as file:
            old = file.read()
    if BEGIN in old and END in old:
        part = old[:old.index(BEGIN)] + part + old[old.index(END) + len(END):]
    else:
        part += "\n"
    os.makedirs(os.path.dirname(os.path.abspath(path)), exist_ok=True)
    with open(path, "w", encoding="utf-8") as file:
        file.write(part)


def main():
    parser = argparse.ArgumentParser(description=__doc__.splitlines()[0])
    parser.add_argument("target")
    parser.add_argument("archive")
    parser.add_argument("--markdown")
    parser.add_argument("--svg")
    options = parser.parse_args()
    same_answers(options.target)
    counter = Counter(options.target)
    rows = main_rows(counter)
    records = growth(counter, RECORDS, (
        ("check", "records-{}", "check"),
        ("react", "records-{}", "react"),
        ("list", "records-{}", "event in a list"),
        ("list", "records-{}-ignored", "ignored event in a list")))
    levels = growth(counter, LEVELS, (
        ("react", "levels-{}", "react"),
        ("list", "levels-{}", "event in a list")))
    tool = "callgrind" if AT_HOME else "qemu-user"
    text = "\n\n".join((
        f"x86-64 instructions, counted by {tool}. \"quick\" is an equally "
        "general interpreter in plain C, \"machine\" the contact scenario "
        "written by hand. A list has 100 events; its tests are shared out "
        "among them.",
        main_table(rows),
        "Instructions against the number of records; the event wakes one "
        "trail in all of them:",
        growth_table("records", RECORDS, records),
        "Instructions against the number of levels, in 256 records:",
        growth_table("levels", LEVELS, levels),
        memory_table(options.target, options.archive)))
    print(text)
    if options.markdown:
        write_part(options.markdown, text)
    if options.svg:
        picture.write(options.svg, rows, ("records", RECORDS, records),
                      ("levels", LEVELS, levels))


if __name__ == "__main__":
    main()
