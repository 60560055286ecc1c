"""What checks of the built program share: trees, runs of the program, and how checks are named and made."""
import os
import pathlib
import random
import re
import resource
import shutil
import signal
import socket
import stat
import subprocess
import sys
import tempfile
import time

TOP = pathlib.Path(__file__).resolve().parent.parent
RUNS = TOP / "tests" / "runs"
PATIENCE = 60
LITTLE_PATIENCE = 5  # where a run might wait for what never comes
NOBODY = 65534
SCRATCH = ".distcp.scratch"
SECRET = b"what stands outside of the folders"
CHECKS = []


class Wrong(Exception):
    """What was seen is not what is wanted."""


class Skipped(Exception):
    """The check cannot be made here."""


def check(name):
    """Makes a function a check of this name. It is given an empty folder."""

    def add(function):
        CHECKS.append((name, function))
        return function

    return add


def find_program():
    named = os.environ.get("DISTCP")
    if named:
        return os.path.abspath(named)
    built, command = TOP / "crates" / "distcp" / "out" / "distcp", TOP / "bin" / "distcp"
    if not built.exists():
        subprocess.run([command, "--version"], stdout=subprocess.DEVNULL, check=False)  # proves and builds it
    if not built.exists():
        raise SystemExit("the program was not built")
    return str(built)


PROGRAM = find_program()


# Trees, and what is seen of them.


def write(path, data=b"bytes"):
    """Writes a file, with the directories on the way to it."""
    os.makedirs(os.path.dirname(path), exist_ok=True)
    with open(path, "wb") as file:
        file.write(data)


def two_folders(room):
    """Two folders, of which the first has the directory `/docs`."""
    write(f"{room}/from/docs/a", b"one")
    write(f"{room}/from/docs/sub/b", b"two")
    os.mkdir(f"{room}/to")
    return f"{room}/from", f"{room}/to"


def entries(folder):
    """What stands under a folder: for each path its bytes if it is a file, the text of a link, or else what it is."""
    found = {}
    for place, directories, names in os.walk(os.fsencode(folder)):
        for name in directories + names:
            path = os.path.join(place, name)
            mode = os.lstat(path).st_mode
            if stat.S_ISREG(mode):
                with open(path, "rb") as file:
                    found[os.path.relpath(path, os.fsencode(folder))] = file.read()
            elif stat.S_ISLNK(mode):
                found[os.path.relpath(path, os.fsencode(folder))] = "link to", os.readlink(path)
            else:
                found[os.path.relpath(path, os.fsencode(folder))] = stat.S_IFMT(mode)
    return found


def want_empty(folder):
    left = sorted(entries(folder))
    if left:
        raise Wrong(f"{len(left)} entries are left in the target, as {left[0]!r}")


def want_same(source, copy):
    """Two trees are the same, byte by byte."""
    told = subprocess.run(["diff", "-r", "--no-dereference", source, copy], stdout=subprocess.PIPE, stderr=subprocess.STDOUT)
    if told.returncode != 0:
        raise Wrong(f"diff -r has found: {told.stdout[:200]!r}")


def want_swept(folder):
    if os.path.lexists(f"{folder}/{SCRATCH}"):
        raise Wrong(f"{SCRATCH} is left")


# Runs of the program.


def run(words, status, lines, program=PROGRAM, patience=PATIENCE, **how):
    """Runs the program, and wants this exit status and these lines. A pattern stands for lines that are not known to the letter."""
    how = {"stdout": subprocess.PIPE, "stderr": subprocess.PIPE, "stdin": subprocess.DEVNULL, **how}
    try:
        done = subprocess.run([program, *words], timeout=patience, **how)
    except subprocess.TimeoutExpired:
        raise Wrong(f"it has not ended after {patience} seconds") from None
    seen = done.stdout or b""
    if done.stderr:
        raise Wrong(f"on the standard error stands {done.stderr[:200]!r}")
    fits = lines.fullmatch(seen) if isinstance(lines, re.Pattern) else seen == lines
    if done.returncode != status or not fits:
        raise Wrong(f"status {done.returncode}, printed {seen[:300]!r}; wanted {status} and {getattr(lines, 'pattern', lines)[:300]!r}")


def committed(files, directories, size, skipped=0, skipped_size=0, without=()):
    """What a run prints that has committed, maybe without some paths."""
    counts = ("COPY", files), ("DIR_COPY", directories), ("SKIP", skipped), ("FAIL", len(without)), ("BYTESCOPIED", size), ("BYTESSKIPPED", skipped_size)
    lines = [f"{name}={number}" for name, number in counts] + [f"WITHOUT {path}" for path in without]
    return "\n".join([*lines, f"committed without {len(without)}" if without else "committed", ""]).encode()


def committed_of(tree):
    """What a run prints that has copied this directory."""
    found = entries(tree).values()
    files = [data for data in found if isinstance(data, bytes)]
    return committed(len(files), len(found) - len(files), sum(map(len, files)))


DOCS = committed(2, 1, 6)
SOURCE_FAULT = b"distcp: source fault\n"
CHECK_FAULT = b"distcp: target fault in check after 0\n"
DECIDE_FAULT = b"distcp: target fault in decide after 0\n"
COPY_FAULT = b"distcp: target fault in copy after 0\n"


def copies(source, target, path="/docs", to="/x", **how):
    """A copy that commits and is whole."""
    run([source, target, path, to], 0, committed_of(source + path), **how)
    want_same(source + path, target + to)
    want_swept(target)


def as_user(room):
    """How the program is run as a plain user, who owns all that stands in the room."""
    if os.geteuid() != 0:
        return {}
    how = {"user": NOBODY, "group": NOBODY, "extra_groups": []}
    os.chmod(room, 0o755)
    for place, directories, names in os.walk(room):
        for name in directories + names:
            os.lchown(os.path.join(place, name), NOBODY, NOBODY)
    try:
        subprocess.run([PROGRAM, "--version"], stdout=subprocess.DEVNULL, check=True, **how)
        return how
    except (OSError, subprocess.CalledProcessError):
        pass
    if open(PROGRAM, "rb").read(4) != b"\x7fELF":
        raise Skipped("a plain user may not run the program here")
    shutil.copy(PROGRAM, f"{room}/program")
    os.chmod(f"{room}/program", 0o755)
    return {"program": f"{room}/program", **how}


class Disk:
    """A small disk in memory, mounted at a folder."""

    def __init__(self, folder, how):
        self.folder, self.how = folder, how

    def __enter__(self):
        told = subprocess.run(["mount", "-t", "tmpfs", "-o", self.how, "none", self.folder], stderr=subprocess.PIPE, check=False)
        if told.returncode != 0:
            raise Skipped("no disk may be mounted here")

    def __exit__(self, *_):
        subprocess.run(["umount", self.folder], check=True)


def outside(room):
    """A folder outside of the two, whose times tell whether it was read."""
    write(f"{room}/outside/file", SECRET)
    write(f"{room}/outside/docs/file", SECRET)
    unread(room)
    return f"{room}/outside"


def unread(room):
    for path in outside_paths(room):
        os.utime(path, (0, 1))


def outside_paths(room):
    return [f"{room}/outside/{name}" for name in ("docs/file", "file", "docs", "")]


def want_untouched(room, target):
    """Nothing outside was read or written, and none of its bytes is in the target."""
    read = [path for path in outside_paths(room) if os.stat(path).st_atime > 0]
    if read:
        raise Wrong(f"{read} were read")
    if set(entries(f"{room}/outside")) != {b"file", b"docs", b"docs/file"}:
        raise Wrong(f"outside stands {sorted(entries(room + '/outside'))}")
    if any(data != SECRET for path, data in entries(f"{room}/outside").items() if path.endswith(b"file")):
        raise Wrong("bytes outside are others")
    if any(SECRET in data for data in entries(target).values() if isinstance(data, bytes)):
        raise Wrong("bytes of outside are in the target")


def put_socket(place, _outside):
    with socket.socket(socket.AF_UNIX) as made:
        before = os.getcwd()
        os.chdir(os.path.dirname(place))
        made.bind(os.path.basename(place))
        os.chdir(before)


# The checks one by one.


def open_up(folder):
    """Makes all directories of a tree such that they can be removed."""
    for place, directories, _ in os.walk(folder):
        for name in directories:
            path = os.path.join(place, name)
            if not os.path.islink(path):
                os.chmod(path, 0o755)


def one(name, function, home):
    """Makes a check in a folder of its own, and answers how it ended."""
    room = tempfile.mkdtemp(dir=home)
    try:
        function(room)
        print(f"ok {name}", flush=True)
        return "ok"
    except Skipped as why:
        print(f"skipped {name}: {why}", flush=True)
        return "skipped"
    except Exception as seen:  # whatever goes wrong in a check is its own failure
        print(f"FAIL {name}: {seen if isinstance(seen, Wrong) else repr(seen)}", flush=True)
        return "FAIL"
    finally:
        open_up(room)
        shutil.rmtree(room)


def main():
    chosen = [(name, function) for name, function in CHECKS if not sys.argv[1:] or any(word in name for word in sys.argv[1:])]
    home = os.path.realpath(tempfile.mkdtemp(prefix="distcp-folders-"))
    os.chmod(home, 0o755)
    try:
        ends = [one(name, function, home) for name, function in chosen]
    finally:
        shutil.rmtree(home)
    print(f"folders: {ends.count('ok')} ok, {ends.count('FAIL')} failed, {ends.count('skipped')} skipped")
    return 1 if "FAIL" in ends or not ends else 0
