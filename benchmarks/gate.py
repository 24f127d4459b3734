#!/usr/bin/env python3
"""Runs the gate from nothing over a clone of what is committed, and writes docs/dev/GATE.md: what each crate's proof, tests
and wrong bodies cost.

Times are processor seconds, read from /proc each second, so each check loses half a second at its end. Nothing else
should run beside it. The gate's log is left in the folder of temporary files, as gate.log.
"""
import collections, datetime, os, shutil, subprocess, tempfile, threading, time

TICKS = os.sysconf("SC_CLK_TCK")
ROOT = os.path.dirname(os.path.dirname(os.path.realpath(__file__)))
KINDS = ("proof", "tests", "wrong bodies")


def text(path):
    try:
        with open(path, "rb") as file:
            return file.read()
    except OSError:
        return b""


def processes():
    """The checks that run now, by process and its start: crate, words, folder, parent, seconds of a processor."""
    found = {}
    for process in filter(str.isdigit, os.listdir("/proc")):
        words = text(f"/proc/{process}/cmdline").split(b"\0")
        if not words[0].endswith(b"/rattle") or b"--crate-name" not in words:
            continue
        numbers = text(f"/proc/{process}/stat").decode(errors="replace").rpartition(")")[2].split()
        try:
            folder = os.readlink(f"/proc/{process}/cwd")
        except OSError:
            continue
        if len(numbers) < 20:
            continue
        crate = words[words.index(b"--crate-name") + 1].decode()
        # Its own time, and that of the children that it has waited for.
        own, ended = (sum(map(int, numbers[at : at + 2])) / TICKS for at in (11, 13))
        found[int(process), int(numbers[19])] = (crate, words, folder, int(numbers[1]), own, ended)
    return found


class Watch(threading.Thread):
    """Adds up what checks cost, until it is told that the gate has ended."""

    def __init__(self, folder):
        super().__init__(daemon=True)
        self.folder, self.ended, self.costs = folder, threading.Event(), {}

    def kind(self, words, folder):
        if b"--test" in words:
            return "tests"
        # A wrong body is tried in a folder of its own.
        return "proof" if folder.startswith(self.folder) else "wrong bodies"

    def run(self):
        while not self.ended.wait(1):
            now = processes()
            pids = {process for process, _ in now}
            for key, (crate, words, folder, parent, own, ended) in now.items():
                if parent in pids:
                    continue
                # Copies of itself that do a part of the work count when they end; until then they are added here.
                running = sum(it[4] for it in now.values() if it[3] == key[0])
                cost = own + ended + running
                _, _, before = self.costs.get(key, (None, None, 0))
                self.costs[key] = (crate, self.kind(words, folder), max(cost, before))

    def table(self):
        sums = collections.defaultdict(lambda: collections.Counter())
        for crate, kind, cost in self.costs.values():
            sums[crate][kind] += cost
        return sums


def write(sums, clock, last, edits, commit):
    total = collections.Counter()
    for row in sums.values():
        total.update(row)
    whole = sum(total.values())
    busy = whole / (clock * os.cpu_count())
    lines = [
        "# What the gate costs",
        "",
        f"Made by `benchmarks/gate.py` on {datetime.date.today():%-d %B %Y}, on {os.cpu_count()} processors, over commit {commit}:"
        " `rt ci` from nothing took",
        f"{clock / 60:.0f} minutes by the clock and {whole:,.0f} seconds of a processor, and ended with `{last}`.",
        f"The processors were busy for {100 * busy:.0f} per cent of that time. Two take {whole / 120:.0f} minutes at least,"
        f" and {whole / 120 / busy:.0f} where they are no busier.",
        "",
        "Seconds of a processor. The first wrong body of a crate costs the crate's proof once more.",
        "",
        "| Crate | Proof | Tests | Wrong bodies | of these | All |",
        "|---|---|---|---|---|---|",
    ]
    row = lambda name, costs, count: (
        f"| {name} | " + " | ".join(f"{costs[it]:,.0f}" if costs[it] else "" for it in KINDS) + f" | {count or ''} | {sum(costs.values()):,.0f} |"
    )
    for crate, costs in sorted(sums.items(), key=lambda it: -sum(it[1].values())):
        lines.append(row(f"`{crate}`", costs, edits.get(crate, 0)))
    lines.append(row("all", total, sum(edits.values())))
    with open(f"{ROOT}/docs/dev/GATE.md", "w") as file:
        print("\n".join(lines), file=file)


def edits_in(folder):
    crates = f"{folder}/crates"
    counted = lambda crate: sum(it.endswith(".edit") for it in os.listdir(f"{crates}/{crate}/must-fail"))
    return {it: counted(it) for it in os.listdir(crates) if os.path.isdir(f"{crates}/{it}/must-fail")}


def main():
    clone = tempfile.mkdtemp()
    folder = f"{clone}/p21"
    subprocess.run(["git", "clone", "--quiet", ROOT, folder], check=True)
    commit = subprocess.run(["git", "rev-parse", "--short", "HEAD"], cwd=folder, capture_output=True, text=True, check=True).stdout.strip()
    watch = Watch(folder)
    watch.start()
    begun = time.monotonic()
    log = f"{tempfile.gettempdir()}/gate.log"
    with open(log, "w") as file:
        # A toolchain that keeps what it proved is told to leave that out; one that keeps nothing knows no such word.
        keeps = b"--anew" in subprocess.run(["rt", "help"], capture_output=True).stderr
        words = ["rt", "ci", *["--anew"] * keeps]
        subprocess.run(words, cwd=folder, stdin=subprocess.DEVNULL, stdout=file, stderr=subprocess.STDOUT)
    clock = time.monotonic() - begun
    watch.ended.set()
    watch.join()
    last = text(log).decode(errors="replace").rstrip().rpartition("\n")[2]
    write(watch.table(), clock, last, edits_in(folder), commit)
    shutil.rmtree(clone)
    print(f"{last}; {clock:.0f} s; docs/dev/GATE.md is written")


if __name__ == "__main__":
    main()
