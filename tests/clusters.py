#!/usr/bin/env python3
"""Runs the recipes of docs/RECIPES.md for Slurm and Dask on real clusters of this machine: two nodes, or two workers, on the
loopback addresses. In each, one of the two is killed in the middle of its work, one file of the list takes more memory than a
process is given, and one names a schema that isn't on the shelf. Each file of the list must have its row at the end, and none two.

    tests/clusters.py [slurm | dask] [--files COUNT]

It wants root, and Debian's packages slurm-wlm, munge and python3-distributed; the status is 77 where one is missing. What it
starts are processes of its own, ended by their ids; nothing of the system's own daemons or settings is read or changed. P21
names another program than ./p21.
"""

# No recipe without the real thing. The recipes for Slurm and Dask run in a test on Debian's own packages. Spark had a
# recipe over a stand-in; it went, since no Spark was to be had to try it with.
#
# On a cluster a table is made whole or not at all: a job writes `.part` and renames it at the end, so that a job that
# Slurm runs again leaves no row twice. A limit on memory is set for each process by `ulimit`, since the managers' own
# limits end a whole job, or don't see what a worker starts.

import argparse
import collections
import contextlib
import json
import os
import pathlib
import re
import shutil
import signal
import socket
import subprocess
import sys
import tempfile
import time

import exchange

ROOT = pathlib.Path(__file__).resolve().parent.parent
PROGRAM = os.path.abspath(os.environ.get("P21", ROOT / "p21"))
PYTHON = "/usr/bin/python3"
LIMIT = "ulimit -v 4000000"
# Kilobytes for each process in the test, and a string that takes more: a character takes four bytes while it is read.
LESS = "ulimit -v 400000"
LONG = 100_000_000
SECONDS = 400

CONF = """ClusterName=p21
SlurmctldHost={host}(127.0.0.1)
SlurmUser=root
SlurmdUser=root
AuthType=auth/munge
AuthInfo=socket={folder}/munge/socket,cred_expire=5
CredType=cred/munge
SlurmctldPort={controller}
SlurmctldPidFile={folder}/slurmctld.pid
SlurmdPidFile={folder}/slurmd.%n.pid
SlurmdSpoolDir={folder}/spool.%n
StateSaveLocation={folder}/state
ProctrackType=proctrack/linuxproc
TaskPlugin=task/none
SelectType=select/cons_tres
SelectTypeParameters=CR_CPU
MpiDefault=none
SwitchType=switch/none
ReturnToService=2
SlurmdParameters=config_overrides
SlurmdTimeout=6
NodeName=one NodeHostname={host} NodeAddr=127.0.0.1 Port={first} CPUs=4
NodeName=two NodeHostname={host} NodeAddr=127.0.0.2 Port={second} CPUs=4
PartitionName=all Nodes=one,two Default=YES MaxTime=60 State=UP
"""


class Missing(Exception):
    """What this machine lacks."""


def recipe(name):
    """The script of this name in docs/RECIPES.md, with less memory for each process."""
    text = (ROOT / "docs" / "RECIPES.md").read_text()
    found = re.search(rf"^    \$ cat > {re.escape(name)} <<'END'\n((?:    >.*\n)+?)    > END\n", text, re.M)
    script = re.sub(r"^    > ?", "", found[1], flags=re.M)
    assert script.count(LIMIT) == 1, script
    return script.replace(LIMIT, LESS)


def until(what, found, seconds=SECONDS):
    """What comes true within so many seconds."""
    end = time.monotonic() + seconds
    while not (answer := found()):
        if time.monotonic() > end:
            raise TimeoutError(what)
        time.sleep(0.02)
    return answer


def free_ports(count):
    """Ports that nothing listens on."""
    with contextlib.ExitStack() as stack:
        sockets = [stack.enter_context(socket.create_server(("127.0.0.1", 0))) for _ in range(count)]
        return [each.getsockname()[1] for each in sockets]


def environment_of(process):
    """The environment that a process was started with."""
    with contextlib.suppress(OSError):
        words = pathlib.Path(f"/proc/{process}/environ").read_bytes().split(b"\0")
        return dict(word.partition(b"=")[::2] for word in words)
    return {}


def processes():
    """The ids of all processes."""
    return [int(path.name) for path in pathlib.Path("/proc").iterdir() if path.name.isdigit()]


def children(parent):
    """The processes that a process started and that still run."""
    found = []
    for process in processes():
        with contextlib.suppress(OSError):
            fields = pathlib.Path(f"/proc/{process}/stat").read_text().rpartition(")")[2].split()
            if fields[0] != "Z" and int(fields[1]) == parent:
                found.append(process)
    return found


def kill(process):
    """Ends a process at once."""
    with contextlib.suppress(ProcessLookupError):
        os.kill(process, signal.SIGKILL)


class Place:
    """A folder with the examples, the tools in the path, a list of files, and the processes that are started there."""

    def __init__(self, folder, count, with_long):
        self.folder = folder
        self.daemons = {}
        # munge wants a folder that others may enter.
        folder.chmod(0o711)
        (folder / "examples").symlink_to(ROOT / "examples")
        (folder / "bin").mkdir()
        for tool in ROOT.glob("tools/p21-*"):
            (folder / "bin" / tool.name).symlink_to(tool)
        self.environment = {
            **os.environ,
            "P21": PROGRAM,
            "PATH": f"{folder}/bin:{os.environ['PATH']}:/usr/sbin",
            "SLURM_CONF": f"{folder}/slurm.conf",
        }
        self.files = list(self.made(count, with_long))
        (folder / "list").write_text("".join(f"{file}\n" for file in self.files))

    def made(self, count, with_long):
        """Files of one point each, a refused one, one of another schema, and in the middle, where it is wanted, the one that takes its
        memory."""
        (self.folder / "files").mkdir()
        for number in range(count):
            name = f"files/{number:05}.step"
            text = "x" * LONG if with_long and number == count // 2 else str(number)
            values = "0." if number == 3 else f"'{text}',(0.,1.,{number}.)"
            schema = "ANOTHER" if number == 5 else "PRODUCT_MODEL"
            (self.folder / name).write_text(exchange.file_of(schema, f"#1=CARTESIAN_POINT({values});\n"))
            yield name

    def wanted(self):
        """The answers that there must be, with how many files have each."""
        return {"accepted": len(self.files) - 3, "refused 45 Count in #1": 1, "no schema": 1, "out of memory": 1}

    def run(self, *words, **options):
        """A command that ends by itself."""
        return subprocess.run(words, cwd=self.folder, env=self.environment, check=True, timeout=SECONDS, **options)

    def start(self, name, *words, output=None):
        """A process that goes on until it is ended; what it says stands in a file."""
        with open(self.folder / f"{name}.log", "wb") as log:
            run = subprocess.Popen(
                words, cwd=self.folder, env=self.environment, stdin=subprocess.DEVNULL, stdout=output or log, stderr=log
            )
        self.daemons[name] = run
        return run

    def own(self):
        """The processes that came out of this folder, besides those that were started by hand: they have its settings."""
        conf = os.fsencode(self.environment["SLURM_CONF"])
        return [process for process in processes() if process != os.getpid() and environment_of(process).get(b"SLURM_CONF") == conf]

    def end(self):
        """Ends all that was started, by its ids."""
        for run in reversed(self.daemons.values()):
            if run.poll() is None:
                run.terminate()
                with contextlib.suppress(subprocess.TimeoutExpired):
                    run.wait(10)
        for process in self.own():
            kill(process)
        for run in self.daemons.values():
            run.kill()
            run.wait()


@contextlib.contextmanager
def place(count, with_long=True):
    """A place that is gone afterwards, with all that runs there."""
    with tempfile.TemporaryDirectory() as folder:
        there = Place(pathlib.Path(folder), count, with_long)
        try:
            yield there
        finally:
            there.end()


# --- Slurm ---


def start_slurm(there):
    """Starts munge, a controller and two nodes."""
    folder = there.folder
    for name in ("munge", "state"):
        (folder / name).mkdir(mode=0o711)
    (folder / "munge" / "key").write_bytes(os.urandom(128))
    (folder / "munge" / "key").chmod(0o600)
    controller, first, second = free_ports(3)
    host = socket.gethostname().partition(".")[0]
    (folder / "slurm.conf").write_text(CONF.format(folder=folder, host=host, controller=controller, first=first, second=second))
    paths = {"key-file": "key", "socket": "socket", "pid-file": "pid", "log-file": "log", "seed-file": "seed"}
    there.start("munged", "munged", "--foreground", *(f"--{option}={folder}/munge/{name}" for option, name in paths.items()))
    until("munge", (folder / "munge" / "socket").exists)
    there.start("slurmctld", "slurmctld", "-D", "-c", "-i")
    for node in ("one", "two"):
        there.start(node, "slurmd", "-D", "-N", node)
    until("the nodes", lambda: states(there) == ["idle", "idle"])


def states(there):
    """The state of each node."""
    run = subprocess.run(["sinfo", "-h", "-N", "-o", "%T"], env=there.environment, capture_output=True, text=True, check=False)
    return run.stdout.split()


def kill_node(there, task):
    """Kills the node that runs a task, with all that it runs: as a machine does whose power is cut. Its name."""

    def at_work():
        for process in there.own():
            found = environment_of(process)
            if found.get(b"SLURM_ARRAY_TASK_ID") == task and b"SLURMD_NODENAME" in found:
                return found[b"SLURMD_NODENAME"].decode(), found[b"SLURM_JOB_ID"].decode()
        return None

    node, job = until("the task at work", at_work)
    there.daemons[node].kill()
    steps = [process for process in there.own() if f"[{job}.batch]" in command_of(process)]
    jobs = [process for process in there.own() if environment_of(process).get(b"SLURM_ARRAY_TASK_ID") == task]
    for process in steps + jobs:
        kill(process)
    return node


def command_of(process):
    """The command line of a process."""
    with contextlib.suppress(OSError):
        return pathlib.Path(f"/proc/{process}/cmdline").read_bytes().replace(b"\0", b" ").decode("utf-8", "replace")
    return ""


def slurm(count):
    """The recipe for Slurm."""
    needed = [name for name in ("slurmctld", "slurmd", "sbatch", "munged") if not shutil.which(name, path=f"{os.environ['PATH']}:/usr/sbin")]
    if needed or os.geteuid() != 0:
        raise Missing(" ".join(needed) or "root")
    with place(count) as there:
        (there.folder / "table.sh").write_text(recipe("table.sh"))
        there.run("split", "-d", "-n", "l/2", "list", "shard.")
        start_slurm(there)
        batch = there.start("sbatch", "sbatch", "--wait", "table.sh")
        until("the second shard", (there.folder / "shard.01.part").exists)
        node = kill_node(there, b"1")
        is_whole = (there.folder / "shard.01.tsv").exists()
        assert not is_whole, "the node died too late"
        print(f"slurm: node {node} killed in the middle", flush=True)
        batch.wait(SECONDS)
        assert batch.returncode == 0, (there.folder / "sbatch.log").read_text()
        tables = [(there.folder / f"shard.{shard}.tsv").read_text().splitlines()[1:] for shard in ("00", "01")]
        return there, [tuple(line.split("\t")[:2]) for table in tables for line in table]


# --- Dask ---


def start_dask(there, names):
    """Starts a scheduler, and a worker of each name."""
    here = ("--host", "127.0.0.1", "--dashboard-address", "127.0.0.1:0", "--scheduler-file", "cluster.json")
    there.start("scheduler", "dask", "scheduler", *here, "--port", "0")
    until("the scheduler", (there.folder / "cluster.json").exists)
    for name in names:
        options = ("--nthreads", "1", "--no-nanny", "--memory-limit", "0", "--local-directory", str(there.folder), "--name", name)
        there.start(name, "dask", "worker", *here, *options)
    for name in names:
        until("the worker", lambda log=there.folder / f"{name}.log": "Registered to" in log.read_text())


def dask(count):
    """The recipe for Dask."""
    if not shutil.which("dask") or subprocess.run([PYTHON, "-c", "import distributed"], capture_output=True, check=False).returncode:
        raise Missing("python3-distributed")
    with place(count) as there:
        (there.folder / "table.py").write_text(recipe("table.py"))
        start_dask(there, ("one", "two"))
        with open(there.folder / "table.json", "wb") as output:
            client = there.start("client", PYTHON, "table.py", "cluster.json", output=output)
        rows = there.folder / "table.json"
        worker = there.daemons["two"]
        until("rows, and a worker at work", lambda: rows.read_text() and children(worker.pid))
        worker.kill()
        done = len(rows.read_text().splitlines())
        assert done < count, "the worker died too late"
        print(f"dask: a worker killed after {done} of {count} rows", flush=True)
        client.wait(SECONDS)
        assert client.returncode == 0, (there.folder / "client.log").read_text()
        return there, [(row["file"], row["answer"]) for row in map(json.loads, rows.read_text().splitlines())]


CLUSTERS = {"slurm": slurm, "dask": dask}


def judged(name, count):
    """Does each file have its row, and no file two?"""
    there, rows = CLUSTERS[name](count)
    answers = dict(collections.Counter(answer for _, answer in rows))
    is_right = sorted(file for file, _ in rows) == there.files and answers == there.wanted()
    print(f"{name}: {'passed' if is_right else 'FAILED'}, {len(there.files)} files, {len(rows)} rows: {answers}", flush=True)
    return is_right


def main():
    """Runs the recipes."""
    parser = argparse.ArgumentParser(description=__doc__, formatter_class=argparse.RawDescriptionHelpFormatter)
    parser.add_argument("clusters", nargs="*", choices=[*CLUSTERS, []], help="slurm or dask; both without one")
    parser.add_argument("--files", type=int, default=600, help="how many files the list has")
    given = parser.parse_args()
    # What was started is ended too where this is asked to end.
    signal.signal(signal.SIGTERM, lambda *_: sys.exit(1))
    failed, missing = 0, []
    for name in given.clusters or CLUSTERS:
        try:
            failed += not judged(name, given.files)
        except Missing as what:
            missing.append(f"{name} without {what}")
    without = f"; left out: {', '.join(missing)}" if missing else ""
    print(f"{len(given.clusters or CLUSTERS) - failed - len(missing)} passed, {failed} failed{without}")
    return 1 if failed else 77 if missing else 0


if __name__ == "__main__":
    sys.exit(main())
