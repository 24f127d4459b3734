#!/usr/bin/env python3
"""Measures how the program's time and memory grow with its input.

  tests/growth.sh [--second SECONDS] [--jobs N] [--table] [NAME..]

For each input a size is looked for at which a run takes as long as `--second` says (0.12 seconds of a processor, so that the
last of three doublings takes one); then it is doubled three times, and the exponent of the growth of time over bytes is fitted.
Each run is held against what its input may cost (docs/PERFORMANCE.md): for each byte 40 times what sha256sum takes for one, and 45
bytes of memory; for each pair of an entity and a supertype, and each thing that a select offers, 20 ns and 4 bytes; for each
entity of a set that a file uses 50 ns and 8 bytes; for each word that is printed 20 ns and no memory. Memory is that of the program
alone (alone.c).

An input that is over its bounds today has a mark in OPEN, with how many times over the bounds it is. The status is 1 where one
without a mark is over the bounds, and where one with a mark is worse than its mark says. `--table` prints the marks as they
would have to be. With `--jobs` so many inputs are measured side by side, and what is over its bounds then is measured alone, three times
at most.
The program is that of the environment variable P21, else ./p21.
"""
import argparse
import concurrent.futures
import contextlib
import math
import os
import pathlib
import shutil
import subprocess
import sys
import tempfile
import time
from collections import namedtuple

sys.path.append(str(pathlib.Path(__file__).resolve().parents[1]))
import inputs  # noqa: E402
import needs  # noqa: E402

ROOT = pathlib.Path(__file__).resolve().parent.parent.parent
PROGRAM = os.environ.get("P21", str(ROOT / "p21"))

# What every run may take: seconds and bytes.
SECONDS_ALWAYS, BYTES_ALWAYS = 0.02, 4_000_000
SHA_TIMES, BYTES_A_BYTE = 40, 45
SECONDS_A_PAIR, BYTES_A_PAIR = 20e-9, 4
SECONDS_OF_USE, BYTES_OF_USE = 50e-9, 8
SECONDS_A_WORD = 20e-9
# What is over its bounds beside others is measured alone so often at most.
ATTEMPTS = 3
# A machine at work measures up to so many times what it does alone; a mark says what was seen once.
NOISE = 1.5
# A run ends after so many seconds. No larger one is tried behind one that took so many seconds, or read or took so many bytes.
MOST_SECONDS = 60
LONG, LARGE, MUCH = 4, 150_000_000, 1_000_000_000

# An input from its smallest size on; a greater size than the second isn't a text of its kind, or one of too many bytes.
Row = namedtuple("Row", "name least most", defaults=(100_000_000,))
# How many times over the bounds an input was seen in time and in memory, at texts of so many megabytes at most, and what the
# largest run took.
Open = namedtuple("Open", "time memory megabytes seen")
Run = namedtuple("Run", "size bytes seconds peak time memory")

# What the schema of an input holds is limited in number; a text of a schema has at most 16 MB.
ENTITIES = 60_000
MOST_OF_TEXT = {
    "a_long_name_of_a_schema": 16_000_000,
    "attributes_of_one_type": 1_500_000,
    "attributes_one_by_one": 1_000_000,
    "items": 1_500_000,
    "rules_of_one_entity": 4_000_000,
    "remarks_in_remarks": 4_000_000,
    "derived_attributes": 800_000,
}
ROWS = [
    *(Row(name, 1_000) for name in inputs.LINES if name not in ("long_lines_one_after_another", "parentheses_that_stay_open")),
    Row("long_lines_one_after_another", 8),
    Row("parentheses_that_stay_open", 1_000_000, 8_000_000),
    *(Row(name, 500) for name in inputs.WHOLE),
    *(Row(name, 500, MOST_OF_TEXT.get(name, ENTITIES)) for name in inputs.TEXTS),
    *(Row(name, 2_000) for name in ("rising", "falling", "shuffled", "references_ahead", "set_of_references")),
    Row("colliding", 2_000, 400_000),
    *(Row(name, 2_000) for name in ("one_far_name", "names_a_page_apart", "kept_a_page_apart", "falling_by_many")),
    *(Row(name, 2_000) for name in ("from_ten_million", "shuffled_from_ten_million")),
    *(Row(name, 2_000) for name in ("bag_of_numbers", "lists_of_one", "list_of_digits", "lists_of_two", "records_of_one_keyword")),
    Row("sections", 1_000),
    Row("sections_with_long_names", 50),
    *(Row(name, 1_000) for name in ("same_section_with_a_long_name", "same_sections_in_turn")),
    Row("lists_in_lists", 200),
    Row("lists_nested_with_a_second_element", 50),
    Row("parts_of_one_instance", 500, ENTITIES),
    Row("last_item", 500),
    Row("renamed_types", 500, ENTITIES),
    Row("records_in_many_oneof_lists", 100),
    *(Row(name, 100, ENTITIES // 2) for name in ("chain", "diamonds", "selects")),
    Row("chain_with_oneof_lists", 20, ENTITIES // 21),
    Row("chain_that_redeclares", 50, ENTITIES),
    *(Row(name, 200, ENTITIES // 2) for name in ("sections_with_a_large_set", "chain_in_use", "large_sets_in_turn")),
    *(Row(name, 200, ENTITIES // 2) for name in ("references_by_a_select", "references_to_a_large_set", "references_ahead_by_a_select")),
    Row("references_to_large_sets_in_turn", 200, ENTITIES // 2),
    *(Row(name, 200, ENTITIES // 2) for name in ("refused_references_to_a_large_set", "refused_references_by_a_select")),
    *(Row(name, 200, ENTITIES // 2) for name in ("refused_records_of_an_abstract_set", "refused_records_of_a_set_that_clashes")),
    *(Row(name, 200, ENTITIES // 2) for name in ("refused_records_of_a_set_left_open", "refused_records_of_another_count")),
    Row("refused_records_of_another_kind", 200, ENTITIES // 2),
    *(Row(name, 200, 400_000) for name in ("refused_records_without_many_values", "refused_records_left_open_at_the_last_place")),
    Row("sets_that_take_turns", 200),
    Row("sets_of_four", 1_000, 600_000),
    Row("colliding_sets", 500),
    *(Row(name, 100, ENTITIES // 2) for name in ("record_of_many_parts", "parts_that_redeclare", "chain_that_redeclares_one_place")),
    Row("records_under_oneof_lists", 50, ENTITIES // 17),
    *(Row(name, 50, ENTITIES // 3) for name in ("wide_subtypes", "redeclared_fan", "one_redeclared", "redeclared_by_many")),
    Row("attributes_in_the_line_of_each_subtype", 100, ENTITIES // 3),
    Row("wide_subtypes_behind_their_own", 50, ENTITIES // 4),
    *(Row(name, 50, ENTITIES // 3) for name in ("redeclared_of_many", "owners_by_a_lower_name", "owners_by_a_lower_name_each")),
    *(Row(name, 200, 400_000) for name in ("all_redeclared", "all_derived", "deep_attributes", "deep_redeclared")),
    Row("oneof_lists_above_many", 50, ENTITIES // 17),
    Row("deep_attributes_in_use", 20, ENTITIES // 2),
    *(Row(name, 100, ENTITIES // 2) for name in ("selects_of_a_wide_one", "chain_of_a_wide_select", "ladder_of_selects")),
    Row("renamed_types_alone", 500, ENTITIES),
    *(Row(name, 1_000, 1_500_000) for name in ("colliding_attributes", "colliding_items")),
    Row("colliding_entities", 1_000, ENTITIES),
    Row("schema_with_rules_in_parentheses", 1_000, 8_000_000),
    *(Row(name, 200, ENTITIES // 2) for name in ("values_by_a_chain_of_selects", "values_typed_by_renamed_types")),
    *(Row(name, 200, ENTITIES // 3) for name in ("references_by_a_select_of_each_entity", "references_ahead_to_each_entity")),
    *(Row(name, 100) for name in ("sections_of_other_sets", "texts_that_begin_alike", "sets_32_deep", "instances_of_one_long_chain")),
    Row("names_that_begin_alike", 100, 15_000),
    Row("layers_that_share_all", 5, 500),
    Row("constraints_of_one_entity", 100, ENTITIES // 2),
    *(Row(name, 500, 400_000) for name in ("inverse_attributes", "functions_in_functions")),
    *(Row(name, 1_000) for name in ("same_in_one_order", "same_in_another_order", "different_at_the_end", "different_at_the_beginning")),
    *(Row(name, 1_000) for name in ("one_instance_shown", "records_listed", "names_given_twice_listed", "references_listed")),
    *(Row(name, 1_000) for name in ("references_to_refused_instances", "few_listed_of_many", "few_references_listed_of_many")),
    *(Row(name, 1_000) for name in ("broken_statements_listed", "statements_without_ends_listed", "lost_apostrophes_listed")),
    Row("remarks_without_ends_listed", 20_000),
    Row("broken_statements_alone", 100_000),
    Row("remarks_without_ends_alone", 20_000),
    *(Row(name, 1_000) for name in ("names_given_twice_alone", "references_alone")),
    *(Row(name, 1_000) for name in ("landmarks_in_a_string_listed", "one_broken_statement_of_many_lines")),
    *(Row(name, 1_000) for name in ("canonical_references", "canonical_texts")),
    *(Row(name, 1_000) for name in ("numbers_of_points", "numbers_of_equal_pairs", "numbers_along_a_path", "numbers_along_a_ruler")),
    *(Row(name, 1_000) for name in ("numbers_on_a_circle", "numbers_of_a_de_bruijn_graph", "numbers_of_a_grid", "numbers_of_a_random_graph")),
    *(Row(name, 1_000) for name in ("numbers_on_a_comb", "numbers_below_hubs")),
    *(Row(name, 1_000) for name in ("differences_at_the_end", "differences_of_each_instance")),
    *(Row(name, 1_000) for name in ("pairs_in_another_order", "pairs_of_equal_instances", "pairs_along_a_path")),
    Row("canonical_sections", 500),
    *(Row(name, 1_000, 8_000_000) for name in ("parameter_of_letters", "parameter_of_digits")),
    *(Row(name, 1_000) for name in ("values_of_each_kind", "values_with_remarks", "references_ahead_to_small_sets", "records_of_two_leaves")),
    Row("references_to_a_small_set", 500),
]
# Seen with the proved program on a machine that did nothing else, 28 November 2026.
OPEN = {
    "chain_that_redeclares": Open(0.6, 1.5, 2.35, "4.4 s, 2125 MB"),
    "large_sets_in_turn": Open(1.4, 0.2, 5.11, "1.5 s, 33 MB"),
    "lists_of_lists": Open(0.9, 1.0, 1.79, "0.4 s, 86 MB"),
    "lists_in_lists": Open(1.0, 0.7, 1.60, "0.4 s, 55 MB"),
    "sets_32_deep": Open(1.0, 0.7, 0.86, "0.2 s, 31 MB"),
    "attributes_one_by_one": Open(0.5, 1.1, 6.55, "0.7 s, 328 MB"),
    # Seen with a program without a proof, beside other work, 30 November 2026.
    "numbers_of_points": Open(1.7, 0.6, 7.00, "1.9 s, 194 MB"),
    "numbers_of_equal_pairs": Open(1.5, 0.7, 5.98, "1.8 s, 192 MB"),
    "numbers_along_a_path": Open(97.0, 0.8, 0.78, "17.9 s, 30 MB"),
    "numbers_along_a_ruler": Open(50.0, 0.8, 0.78, "9.2 s, 30 MB"),
    "numbers_on_a_circle": Open(81.8, 0.8, 0.78, "15.1 s, 30 MB"),
    "numbers_of_a_de_bruijn_graph": Open(4.7, 0.8, 1.93, "2.0 s, 69 MB"),
    "numbers_of_a_grid": Open(4.1, 0.8, 3.87, "3.5 s, 129 MB"),
    "numbers_of_a_random_graph": Open(2.6, 0.8, 3.89, "2.0 s, 131 MB"),
    "numbers_on_a_comb": Open(6.0, 0.8, 3.23, "4.2 s, 113 MB"),
    "numbers_below_hubs": Open(27.0, 0.8, 1.39, "8.4 s, 52 MB"),
    # The same, 1 December 2026.
    "pairs_in_another_order": Open(1.5, 0.7, 7.00, "2.2 s, 213 MB"),
    "pairs_of_equal_instances": Open(14.3, 0.8, 0.73, "2.4 s, 27 MB"),
    "pairs_along_a_path": Open(139.4, 0.9, 0.36, "13.3 s, 18 MB"),
}


def seconds_of_sha(launcher):
    """The seconds that `sha256sum` takes for a byte, the least of some runs."""
    with tempfile.NamedTemporaryFile() as file:
        size = 32_000_000
        file.write(bytes(size))
        file.flush()
        return min(run(launcher, [shutil.which("sha256sum"), file.name])[0] for _ in range(3)) / size


def run(launcher, words):
    """The seconds and the bytes of a run; None where it was ended, or failed."""
    done = subprocess.run([launcher, str(MOST_SECONDS), *words], stdout=subprocess.PIPE, check=True, text=True)
    status, seconds, kilobytes = done.stdout.split()
    return (float(seconds), int(kilobytes) * 1024) if status in ("0", "1") else None


def least(launcher, words, bound):
    """A run; where it takes longer than its bound, the shortest of three, since other work on the machine makes runs longer."""
    found = run(launcher, words)
    for _ in range(2):
        if found and bound < found[0] <= LONG:
            found = min(found, run(launcher, words) or found)
    return found


@contextlib.contextmanager
def input_of(row, size):
    """An input at a size, in a folder that is gone behind it."""
    with tempfile.TemporaryDirectory(dir="/dev/shm" if os.path.isdir("/dev/shm") else None) as name:
        made = getattr(inputs, row.name)(size, pathlib.Path(name))
        yield made if isinstance(made, inputs.Input) else inputs.Input(made)


def built_launcher(folder):
    """The program that runs another one alone."""
    launcher = f"{folder}/alone"
    subprocess.run([needs.compiler(), "-O2", pathlib.Path(__file__).with_name("alone.c"), "-o", launcher], check=True)
    return launcher


def measured(launcher, row, size, a_byte):
    """An input at a size: what a run takes, and how many times its bounds."""
    with input_of(row, size) as made:
        read = sum(os.path.getsize(word) for word in made.arguments[1:] if os.path.isfile(word))
        pairs = made.pairs + made.offered
        time_bound = SECONDS_ALWAYS + SHA_TIMES * a_byte * read + SECONDS_A_PAIR * pairs + SECONDS_OF_USE * made.used + SECONDS_A_WORD * made.printed
        memory_bound = BYTES_ALWAYS + BYTES_A_BYTE * read + BYTES_A_PAIR * pairs + BYTES_OF_USE * made.used
        found = least(launcher, [PROGRAM, *made.arguments], time_bound)
    if found is None:
        return None
    seconds, peak = found
    return Run(size, read, seconds, peak, seconds / time_bound, peak / memory_bound)


def exponent(runs):
    """The exponent of the growth of time over bytes, fitted by least squares; None where no run takes long enough."""
    points = [(math.log(it.bytes), math.log(it.seconds)) for it in runs if it.seconds >= 0.02]
    if len(points) < 2:
        return None
    across, up = (sum(values) / len(points) for values in zip(*points))
    spread = sum((x - across) ** 2 for x, _ in points)
    return sum((x - across) * (y - up) for x, y in points) / spread if spread else None


def runs_of(launcher, row, a_byte, second):
    """The runs of an input: from the size on at which one takes as long as wanted, three doublings. None if one was ended."""
    size = row.least
    runs = []
    while size <= row.most and len(runs) < 4:
        found = measured(launcher, row, size, a_byte)
        if found is None:
            return None
        runs.append(found)
        if found.seconds > LONG or found.bytes > LARGE or found.peak > MUCH:
            break
        # A run that is too short isn't kept, where three doublings are left.
        if found.seconds < second and 8 * size <= row.most:
            runs.clear()
        size *= 2
    return runs


def runs_of_all(launcher, rows, a_byte, second, jobs):
    """Each input with its runs, side by side in so many processes. Other work makes runs longer, so what is over its bounds beside others
    comes last, and is measured alone."""
    over = []
    with concurrent.futures.ProcessPoolExecutor(jobs) as processes:
        begun = [processes.submit(runs_of, launcher, row, a_byte, second) for row in rows]
        for row, ended in zip(rows, begun):
            if jobs > 1 and judged(row, ended.result())[1]:
                over.append(row)
            else:
                yield row, ended.result()
    for row in over:
        yield row, runs_alone(launcher, row, a_byte, second)


def runs_alone(launcher, row, a_byte, second):
    """An input alone, until it is within its bounds: what else a machine does makes a run longer, and none shorter."""
    for _ in range(ATTEMPTS):
        runs = runs_of(launcher, row, a_byte, second)
        if not judged(row, runs)[1]:
            break
    return runs


def judged(row, runs):
    """What is wrong with an input, and what there is to say of it."""
    if not runs:
        return "was ended, or failed", True
    mark = OPEN.get(row.name)
    compared = [it for it in runs if mark and it.bytes <= 1.01e6 * mark.megabytes] or runs[: 1 if mark else len(runs)]
    time_over, memory_over = max(it.time for it in compared), max(it.memory for it in compared)
    over = any(max(it.time, it.memory) > 1 for it in runs)
    if mark is None:
        return (f"OVER: {time_over:.1f} times in time, {memory_over:.1f} in memory" if over else "good"), over
    if time_over > NOISE * max(mark.time, 1) or memory_over > NOISE * max(mark.memory, 1):
        return f"WORSE than its mark: {time_over:.1f} times in time, {memory_over:.1f} in memory", True
    return (f"open ({time_over:.1f} times in time, {memory_over:.1f} in memory)" if over else "good: its mark can go"), False


def main():
    parser = argparse.ArgumentParser(prog="tests/growth.sh", description=__doc__.splitlines()[0])
    parser.add_argument("names", metavar="NAME", nargs="*", help="inputs; all without one")
    parser.add_argument("--second", type=float, default=0.12, help="the seconds that the first of four runs takes")
    parser.add_argument("--jobs", type=int, default=1, help="how many inputs are measured side by side")
    parser.add_argument("--table", action="store_true", help="print the marks of what is over its bounds")
    given = parser.parse_args()
    known = {row.name: row for row in ROWS}
    unknown = [name for name in given.names if name not in known]
    if unknown:
        parser.error(f"no input has the name {unknown[0]}; there are {', '.join(sorted(known))}")
    marks, counts, begun = [], {"good": 0, "open": 0, "failed": 0}, time.monotonic()
    with tempfile.TemporaryDirectory() as folder:
        launcher = built_launcher(folder)
        a_byte = seconds_of_sha(launcher)
        print(f"sha256sum: {a_byte * 1e9:.2f} ns a byte, so at most {SHA_TIMES * a_byte * 1e6:.2f} s a megabyte", flush=True)
        rows = [known[name] for name in given.names] or ROWS
        for row, runs in runs_of_all(launcher, rows, a_byte, given.second, given.jobs):
            said, failed = judged(row, runs)
            fitted = exponent(runs or ())
            grown = f"exponent {fitted:.2f}" if fitted is not None else "too short for an exponent"
            shown = "; ".join(f"{it.bytes / 1e6:.2f} MB {it.seconds:.2f} s {it.peak / 1e6:.0f} MB" for it in runs or ())
            print(f"{row.name}: {shown}: {grown}: {said}", flush=True)
            counts["failed" if failed else "open" if said.startswith("open") else "good"] += 1
            if runs and max(max(it.time, it.memory) for it in runs) > 1:
                last = runs[-1]
                numbers = f"{max(it.time for it in runs):.1f}, {max(it.memory for it in runs):.1f}, {last.bytes / 1e6:.2f}"
                marks.append(f'    "{row.name}": Open({numbers}, "{last.seconds:.1f} s, {last.peak / 1e6:.0f} MB"),')
    if given.table:
        print("\n".join(marks))
    print(f"{counts['good']} passed, {counts['open']} open, {counts['failed']} failed, {time.monotonic() - begun:.0f} s")
    return int(counts["failed"] > 0)


if __name__ == "__main__":
    sys.exit(main())
