"""Runs of the built program and of other commands, and what they need: folders, C libraries, databases of other
hands."""
import functools
import os
import sqlite3
import subprocess
import tempfile
import threading
from contextlib import closing

from support.places import TOP


def new_folder():
    """A folder for one run, in memory if there is a file system for that: a sync takes no time there, and a kill loses
    none."""
    memory = "/dev/shm"
    return tempfile.TemporaryDirectory(dir=memory if os.access(memory, os.W_OK) else None)


def write_below(folder, path, text):
    """Writes a file below a folder, and makes the folders that lead to it."""
    os.makedirs(os.path.dirname(f"{folder}/{path}"), exist_ok=True)
    with open(f"{folder}/{path}", "w") as made:
        made.write(text)


@functools.cache
def compiled(name):
    """The bytes of the library of tests/support/NAME.c, which is compiled once in a run."""
    with new_folder() as folder:
        words = ["cc", "-std=gnu11", "-shared", "-fPIC", "-O1", "-o", f"{folder}/made", f"{TOP}/tests/support/{name}.c"]
        subprocess.run([*words, "-ldl"], check=True, timeout=60)
        with open(f"{folder}/made", "rb") as made:
            return made.read()


def built(name, folder):
    """The path in this folder of the library of tests/support/NAME.c, which is preloaded before the program."""
    with open(f"{folder}/{name}.so", "wb") as library:
        library.write(compiled(name))
    return library.name


def run(program, *words, given=b"", setting=None, patience=60, **streams):
    """The end of the program on these words: its status, standard output and standard error. It reads the bytes
    `given`, unless `streams` has a standard input; `setting` is added to its environment."""
    if "stdin" not in streams:
        streams["input"] = given
    streams = {"stdout": subprocess.PIPE, "stderr": subprocess.PIPE, **streams}
    return subprocess.run([program, *words], timeout=patience, env={**os.environ, **(setting or {})}, **streams)


def run_command(words, seconds=60, **setting):
    """The end of another command: its status, and its output with its errors. It finds nothing in its environment that
    changes pip, Python, proxies or `indexctl`, but what `setting` has. One that takes too long has status
    -1."""
    def is_kept(name):
        return not name.startswith(("pip_", "python", "index_")) and not name.endswith(("_proxy", "_ca_bundle"))

    clean = {name: value for name, value in os.environ.items() if is_kept(name.lower())}
    clean.update(PIP_CONFIG_FILE=os.devnull, NO_PROXY="*", LC_ALL="C.UTF-8", PYTHONDONTWRITEBYTECODE="1", **setting)
    try:
        return subprocess.run(words, stdin=subprocess.DEVNULL, stdout=subprocess.PIPE, stderr=subprocess.STDOUT,
                              timeout=seconds, env=clean, text=True, errors="replace")
    except (subprocess.TimeoutExpired, OSError) as end:
        return subprocess.CompletedProcess(words, -1, f"{end}")


def new_repository(folder, paths):
    """The short names of the commits of a new repository of git, each of which adds one of these files."""
    git = ["git", "-C", str(folder), "-c", "user.name=ann", "-c", "user.email=ann@example.org"]
    assert run_command([*git, "init"]).returncode == 0
    names = []
    for path in paths:
        write_below(folder, path, "a text")
        for words in (["add", path], ["commit", "--message", "a change"]):
            assert run_command([*git, *words]).returncode == 0
        names.append(run_command([*git, "rev-parse", "--short", "HEAD"]).stdout.strip())
    return names


def kill_after(program, path, lines):
    """Applies these lines to a database, and kills the program when all are answered. So its log has them."""
    with subprocess.Popen([program, "apply", "--db", path], stdin=subprocess.PIPE, stdout=subprocess.PIPE) as applying:
        late = threading.Timer(60, applying.kill)
        late.start()
        applying.stdin.write(b"".join(lines))
        applying.stdin.flush()
        for _ in lines:
            applying.stdout.readline()
        applying.kill()
        late.cancel()
    return path


def goes_on(pid: int) -> bool:
    """Whether a process does. One that has ended may stay in the table, without words."""
    try:
        with open(f"/proc/{pid}/cmdline", "rb") as words:
            return words.read() != b""
    except OSError:
        return False


def by_sqlite(path, *statements):
    """Runs statements on a database by Python's sqlite3, and returns its path."""
    with closing(sqlite3.connect(path)) as database:
        for statement in statements:
            database.execute(statement)
        database.commit()
    return path
