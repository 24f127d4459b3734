#!/usr/bin/env python3
"""Runs a tool as Python does on Windows, as far as a Python for Linux can: as_windows.py TOOL WORD..

To the modules of the tools the system is Windows, and `os` and `signal` have only what they have there, by the documentation of
Python's library; the modules that aren't there can't be imported. So a tool that takes what Windows lacks ends with an error. What
else is otherwise there: no path below /dev and /proc leads anywhere; no descriptor is inherited by another program but its three
streams; no process begins as a copy of another; a file that is removed when it is closed can't be opened a second time by a tool;
texts are written in an old page with line ends of two bytes, where nothing else is said; and a file is locked by a byte of it.
Names of files are those of Linux.
"""

import builtins
import errno
import fcntl
import multiprocessing
import os
import pathlib
import runpy
import signal
import subprocess
import sys
import tempfile
import types
import weakref

TOOLS = pathlib.Path(__file__).resolve().parents[2] / "tools"
# What these modules have on Windows. Of `os` all that is documented for Unix alone is missing.
ON_WINDOWS = {
    os: """DirEntry F_OK O_APPEND O_BINARY O_CREAT O_EXCL O_NOINHERIT O_RANDOM O_RDONLY O_RDWR O_SEQUENTIAL O_SHORT_LIVED O_TEMPORARY
        O_TEXT O_TRUNC O_WRONLY PathLike R_OK SEEK_CUR SEEK_END SEEK_SET W_OK X_OK _exit abort access altsep chdir chmod close closerange
        cpu_count curdir device_encoding devnull dup dup2 environ error execl execle execlp execlpe execv execve execvp execvpe extsep
        fdopen fsdecode fsencode fspath fstat fsync ftruncate get_exec_path get_inheritable get_terminal_size getcwd getcwdb getenv
        getlogin getpid getppid isatty kill linesep link listdir lseek lstat makedirs mkdir open pardir path pathsep pipe popen putenv
        read readlink remove removedirs rename renames replace rmdir scandir sep set_inheritable spawnl spawnle spawnv spawnve stat
        stat_result strerror symlink system terminal_size times truncate umask unlink unsetenv urandom utime waitpid
        waitstatus_to_exitcode walk write""",
    signal: """Handlers SIGABRT SIGFPE SIGILL SIGINT SIGSEGV SIGTERM SIG_DFL SIG_IGN Signals default_int_handler getsignal raise_signal
        set_wakeup_fd signal strsignal valid_signals""",
}
MISSING = ("crypt", "fcntl", "grp", "nis", "posix", "pty", "pwd", "resource", "spwd", "syslog", "termios", "tty")
# The device that takes everything has a name on each system.
NAMED = (os.devnull,)
# The files that are removed when they are closed, by their names.
REMOVED_LATER = weakref.WeakValueDictionary()


def of_windows(module, names, **other):
    """A module with what it has on Windows."""
    found = types.ModuleType(module.__name__, module.__doc__)
    vars(found).update({name: getattr(module, name) for name in names.split() if hasattr(module, name)}, **other)
    return found


def is_tool(names):
    """Are these the names of a module of the tools?"""
    return str((names or {}).get("__file__", "")).startswith(f"{TOOLS}/")


def importing(imported, known):
    """What an import finds: for the tools what is there on Windows."""

    def found(name, names=None, *words, **more):
        if is_tool(names) and name in MISSING:
            raise ModuleNotFoundError(f"No module named {name!r}", name=name)
        return known[name] if is_tool(names) and name in known else imported(name, names, *words, **more)

    return found


# --- Files ---


def is_lacking(path):
    """Is this a path that Windows doesn't have?"""
    return isinstance(path, (str, os.PathLike)) and str(path).startswith(("/dev/", "/proc/")) and str(path) not in (*NAMED, "/dev/shm")


def without(function, answer=None):
    """A function over paths, for which those that Windows doesn't have aren't there."""

    def found(path, *words, **more):
        if is_lacking(path) and not str(path).startswith("/dev/shm/"):
            if answer is not None:
                return answer
            raise FileNotFoundError(errno.ENOENT, "No such file or directory", str(path))
        return function(path, *words, **more)

    return found


def opening(opened):
    """How files are opened: by a tool none that is removed when it is closed, and texts in an old page."""

    def found(path, mode="r", *words, **more):
        if is_tool(sys._getframe(1).f_globals):
            held = REMOVED_LATER.get(path) if isinstance(path, str) else None
            if held is not None and not held.closed:
                raise PermissionError(errno.EACCES, "Permission denied", path)
            if "b" not in mode:
                more.setdefault("encoding", "cp1252")
                more.setdefault("newline", "\r\n" if set(mode) & set("wax+") else None)
        return opened(path, mode, *words, **more)

    return found


def naming(named):
    """A temporary file with a name."""

    def found(*words, **more):
        file = named(*words, **more)
        if more.get("delete", True):
            REMOVED_LATER[file.name] = file
        return file

    return found


def locking():
    """The module by which a byte of a file is locked."""
    found = types.ModuleType("msvcrt")
    found.LK_NBLCK = 2

    def locked(file, how, count):
        # Nobody could read what is locked.
        assert (how, count) == (found.LK_NBLCK, 1) and os.lseek(file, 0, os.SEEK_CUR) > os.fstat(file).st_size
        try:
            fcntl.flock(file, fcntl.LOCK_EX | fcntl.LOCK_NB)
        except BlockingIOError:
            raise PermissionError(errno.EACCES, "Permission denied") from None

    found.locking = locked
    return found


# --- Processes ---


def as_told(inherits):
    """How a program is started, which inherits no descriptor but its streams."""

    def started(*words, **more):
        assert not set(more) & {"pass_fds", "preexec_fn", "start_new_session", "process_group", "user", "group", "umask"}
        more["close_fds"] = True
        return inherits(*words, **more)

    return started


def context_of(contexts):
    """How processes are begun: anew."""

    def found(method=None):
        if method not in (None, "spawn"):
            raise ValueError(f"cannot find context for {method!r}")
        return contexts("spawn")

    return found


def main():
    """Runs the tool."""
    tool, sys.argv[:] = sys.argv[1], sys.argv[1:]
    sys.path.insert(0, str(TOOLS))
    tempfile.NamedTemporaryFile = naming(tempfile.NamedTemporaryFile)
    builtins.open, os.open, os.stat = opening(without(builtins.open)), without(os.open), without(os.stat)
    os.access = without(os.access, False)
    subprocess.Popen.__init__ = as_told(subprocess.Popen.__init__)
    multiprocessing.get_context = context_of(multiprocessing.get_context)
    known = {module.__name__: of_windows(module, names) for module, names in ON_WINDOWS.items()}
    known["os"].name = "nt"
    builtins.__import__ = importing(builtins.__import__, known)
    sys.modules["msvcrt"] = locking()
    # A process of Windows isn't started with pages of another code.
    for stream in (sys.stdin, sys.stdout, sys.stderr):
        stream.reconfigure(encoding="cp1252", newline="\r\n" if stream is not sys.stdin else None)
    runpy.run_path(str(TOOLS / pathlib.Path(tool).name), run_name="__main__")


if __name__ == "__main__":
    main()
