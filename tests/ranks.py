#!/usr/bin/env python3
"""Holds the ranks and orders in the tests of p21_test_numbering against a reading of their definitions that stands here alone.

Ranks are `final_rank` of crates/p21_spec_numbering/specs/Fresh.antt: colour refinement by rounds that look at fresh nodes alone.
What is decided is `IsDecided` of specs/Copies.antt there, and the orders are all permutations in which no rank falls and of two that
share ranks, where one refers to the other, both are the same copy (`IsAligned`). The tables stand in
crates/p21_test_numbering/src/tests: in graphs.rt
of each graph the labels, the uses as user, used and place, and the ranks; in orders.rt of each instance its name, rank, what it says,
whom it hangs together with and who is loose, and the orders of all; in files.rt of each instance its name, section, entity, and the
names in a list, in a set, and in the lists of a set, and the orders of all.

    tests/ranks.py             compares, and says how many rows there are
    tests/ranks.py --random N  prints N further rows of graphs by chance, for the table
    tests/ranks.py --files N   prints N small files by chance, each with its orders: of each instance its name, section, entity, and the
                               names in a list, in a set, and in the lists of a set
"""

import ast
import itertools
import pathlib
import random
import re
import sys

TABLES = pathlib.Path(__file__).resolve().parent.parent / "crates/p21_test_numbering/src/tests"


def rank_by(keys: list) -> list:
    """How many keys are below each."""
    return [sum(key < own for key in keys) for own in keys]


def entry(side: int, rank: int, place: list) -> list:
    """A use as a node sees it."""
    return [side, *(1 + step for step in place), 0, rank]


def final_ranks(labels: list, uses: list) -> list:
    """The ranks once no node is fresh, or after a round for each node."""
    nodes = range(len(labels))
    uses = sorted(set((user, used, tuple(place)) for user, used, place in uses))
    rank, fresh = rank_by(labels), [True for _ in nodes]
    for _ in nodes:
        if not any(fresh):
            break
        seen: list = [[] for _ in nodes]
        for user, used, place in uses:
            if fresh[used]:
                seen[user].append(entry(0, rank[used], place))
            if fresh[user]:
                seen[used].append(entry(1, rank[user], place))
        part = rank_by([[[rank[n]], *sorted(seen[n])] for n in nodes])
        # of the parts of each rank the first of the largest
        best = {old: min((-part.count(p), p) for p, r in zip(part, rank) if r == old)[1] for old in rank}
        fresh = [best[rank[n]] != part[n] for n in nodes]
        rank = part
    return rank


def rows(name: str, constant: str) -> list:
    """The rows of a table in the tests."""
    text = (TABLES / f"{name}.rt").read_text()
    table = re.search(rf"const {constant}: [^=]* = (&\[.*?\]);\n", text, re.S)
    assert table, "the table has another form"
    return list(ast.literal_eval(table.group(1).replace("&", "").replace("Some(", "(")))


def copies(order: tuple, rank: dict) -> dict:
    """Which copy of its rank each is."""
    seen: dict = {}
    found = {}
    for name in order:
        found[name] = seen.get(rank[name], 0)
        seen[rank[name]] = found[name] + 1
    return found


def aligned(rank: dict, beside: list) -> list:
    """All orders in which no rank falls, and each two beside one another are the same copy."""
    found = []
    for order in itertools.permutations(sorted(rank)):
        if any(rank[one] > rank[other] for one, other in zip(order, order[1:])):
            continue
        copy = copies(order, rank)
        if all(copy[one] == copy[other] for one, other in beside):
            found.append(list(order))
    return found


def orders(instances: list) -> list:
    """The orders of instances by their ranks, none where one is loose or two of a rank say different things."""
    rank = {name: r for name, r, _, _, _ in instances}
    said: dict = {}
    for _, r, what, _, _ in instances:
        said.setdefault(r, set()).add(tuple(what))
    shared = {r for r in rank.values() if list(rank.values()).count(r) > 1}
    if any(loose is not None for *_, loose in instances) or any(len(said[r]) > 1 for r in shared):
        return []
    return aligned(rank, [(name, other) for name, _, _, beside, _ in instances for other in beside])


def label(section: int, entity: int, row: list, some: list, lists: list) -> list:
    """The heading and the text of an instance, where each reference is `#0`."""
    def text(parts: list) -> str:
        return "(" + ",".join(parts) + ")"
    values = [text(["#0"] * len(row)), text(["#0"] * len(some)), text(sorted(text(["#0"] * len(one)) for one in lists))]
    return [("ONE", "TWO")[section], "S", ("A", "B")[entity] + text(values)]


def references(row: list, some: list, lists: list) -> list:
    """The references of an instance, each with its place."""
    return [*(((0, 0, 1 + k), t) for k, t in enumerate(row)), *(((0, 1, 0), t) for t in some),
            *(((0, 2, 0, 1 + k), t) for one in lists for k, t in enumerate(one))]


def by_ranks(rank: dict, row: list, some: list, lists: list) -> tuple:
    """The values, where each reference is to a rank: lists in order, sets without order."""
    return (tuple(rank[t] for t in row), frozenset(rank[t] for t in some), frozenset(tuple(rank[t] for t in one) for one in lists))


def file_orders(instances: list) -> list:
    """All orders of a file that is decided."""
    names = [name for name, *_ in instances]
    uses = [(names.index(name), names.index(t), place) for name, _, _, *values in instances for place, t in references(*values)]
    rank = dict(zip(names, final_ranks([label(*rest) for _, *rest in instances], uses)))
    many = {name: sum(r == rank[name] for r in rank.values()) for name in names}
    said: dict = {}
    for name, section, entity, *values in instances:
        said.setdefault(rank[name], set()).add((section, entity, by_ranks(rank, *values)))
    if any(len(what) > 1 for what in said.values()):
        return []
    beside = []
    for name, _, _, row, some, lists in instances:
        for _, t in references(row, some, lists):
            if many[name] > 1 and many[t] > 1:
                beside.append((name, t))
                if many[name] != many[t]:
                    return []
        if many[name] == 1:
            whole = {t for t in some if all(other in some for other in names if rank[other] == rank[t])}
            left = [*row, *(t for t in some if t not in whole), *(t for one in lists for t in one)]
            if any(many[t] > 1 for t in left):
                return []
    return aligned(rank, beside)


def written(thing: object) -> str:
    """As the table has it."""
    if isinstance(thing, list):
        return "&[" + ", ".join(map(written, thing)) + "]"
    if isinstance(thing, tuple):
        return "(" + ", ".join(map(written, thing)) + ")"
    return str(thing)


def by_chance() -> tuple:
    """A graph of up to 24 nodes with about as many uses."""
    count = random.randrange(2, 25)
    labels = [[random.randrange(random.choice((1, 1, 2)))] for _ in range(count)]
    places = ([0], [0, 0], [0, 1], [1])
    uses = [(random.randrange(count), random.randrange(count), random.choice(places)) for _ in range(count)]
    return labels, uses, final_ranks(labels, uses)


def file_by_chance() -> tuple:
    """A file of up to seven instances, often with parts that are there twice, and its orders."""
    count = random.choice((1, 2, 3, 3))
    times = random.choice((1, 2, 2, 3)) if count < 3 else random.choice((1, 2))
    def some() -> list:
        return random.sample(range(count), random.choice((0, 0, 1, min(2, count))))
    def row() -> list:
        return [random.randrange(count) for _ in range(random.choice((0, 1, 1, 2)))]
    part = [(random.choice((0, 0, 0, 1)), random.choice((0, 0, 1)), row(), some(), [row()] if random.random() < 0.2 else []) for _ in range(count)]
    instances = [(section, entity, [count * k + t for t in one], [count * k + t for t in group], [[count * k + t for t in inner] for inner in lists])
                 for k in range(times) for section, entity, one, group, lists in part]
    if random.random() < 0.7:
        whole = list(range(count * times))
        chosen = [t for t in whole if t % count == random.randrange(count)] if random.random() < 0.7 else random.sample(whole, len(whole) // 2)
        last = random.choice((([], chosen, []), ([], chosen, []), (chosen[:1], chosen, []), ([], [], [[t] for t in chosen])))
        instances.append((random.choice((0, 1)), random.choice((0, 1)), *last))
    names = random.sample(range(1, 90), len(instances))
    file = [(names[k], section, entity, [names[t] for t in one], [names[t] for t in group], [[names[t] for t in inner] for inner in lists])
            for k, (section, entity, one, group, lists) in enumerate(instances)]
    random.shuffle(file)
    return file, file_orders(file)


def table(name: str, wrong: list, count: int) -> bool:
    """Says what was found of a table."""
    for row, found in wrong:
        print(f"{name}: {row}, and by the definition {found}")
    print(f"{name}: {count} rows, of which {len(wrong)} differ")
    return not wrong


def main() -> int:
    if sys.argv[1:2] == ["--random"]:
        for _ in range(int(sys.argv[2])):
            print("    " + written(by_chance()) + ",")
        return 0
    if sys.argv[1:2] == ["--files"]:
        for _ in range(int(sys.argv[2])):
            print("    " + written(file_by_chance()) + ",")
        return 0
    graphs = rows("graphs", "GRAPHS")
    right = table("graphs", [(row, final_ranks(*row[:2])) for row in graphs if final_ranks(*row[:2]) != row[2]], len(graphs))
    ordered = rows("orders", "ORDERS")
    wrong = [(row, orders(row[0])) for row in ordered if sorted(orders(row[0])) != sorted(map(list, row[1]))]
    right = table("orders", wrong, len(ordered)) and right
    files = rows("files", "FILES")
    wrong = [(row, file_orders(row[0])) for row in files if sorted(file_orders(row[0])) != sorted(map(list, row[1]))]
    right = table("files", wrong, len(files)) and right
    return 0 if right else 1


if __name__ == "__main__":
    sys.exit(main())
