#!/usr/bin/env python3
"""Writes what showsource must print.

It follows docs/RULES.md and none of the code: each answer is counted over the list itself, with no layer and no
arithmetic on answers.

    python3 tools/source_answers.py > crates/showsource/stdout
"""

MOST_INSTANCES = 65535

# Operator, written cell, cells read.
ROWS = [(0, 0, [1]), (1, 1, [1, 1, 2]), (2, 0, [0, 1]), (3, 2, [])]
LAST = [(15, 3, [0, 1, 2, 0, 3])]


def rounds(cells, below, times):
    turns = min(times, MOST_INSTANCES // len(below)) if below else 0
    return cells, below * turns


def after(first, second):
    both = first[1] + second[1]
    return max(first[0], second[0]), both if len(both) <= MOST_INSTANCES else first[1]


def earlier(instances, cell, position):
    return sum(1 for i in instances[:position] if i[1] == cell)


def writer(instances, cell, count):
    for p, i in enumerate(instances):
        if i[1] == cell and earlier(instances, cell, p) == count:
            return str(p)
    return "-"


def readers(instances, cell, version):
    return sum(i[2].count(cell) for p, i in enumerate(instances) if earlier(instances, cell, p) == version)


def show_instance(instances, p):
    if p >= len(instances):
        return f"  {p}: no instance, slots - - - - - -"
    operator, written, reads = instances[p]
    text = f"op {operator}, {written} <-" + "".join(f" {c}" for c in reads)
    slots = [str(c) for c in [written] + reads]
    slots += ["-"] * (6 - len(slots))
    count = earlier(instances, written, p)
    parts = f"operator {operator}, writes {written} at count {count}, reads {len(reads)}"
    return f"  {p}: {text}; {parts}, slots {' '.join(slots)}"


def show_cell(instances, cell):
    writes = earlier(instances, cell, len(instances))
    writers = " ".join(writer(instances, cell, k) for k in range(writes + 1))
    before = " ".join(str(earlier(instances, cell, p)) for p in range(len(instances) + 1))
    read = " ".join(str(readers(instances, cell, v)) for v in range(writes + 1))
    slots = sum(i[2].count(cell) for i in instances)
    return f"  cell {cell}: written {writes} times, at {writers}; earlier {before}; readers {read}, in all {slots}"


def show(name, source):
    cells, instances = source
    print(f"{name}: {cells} cells, {len(instances)} instances")
    for p in range(len(instances) + 1):
        print(show_instance(instances, p))
    for c in range(cells):
        print(show_cell(instances, c))


def main():
    rows = (3, ROWS)
    twice = rounds(3, ROWS, 2)
    show("list", rows)
    show("rounds of 2", twice)
    show("after that another", after(twice, (4, LAST)))


main()
