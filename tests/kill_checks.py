"""Checks of runs that are cut off."""
import os
import random
import re
import shutil
import signal
import stat
import subprocess
import tempfile
import time

from driving import *

KILLS = 100
FEW_KILLS = 20
MEMORY = "/dev/shm"  # a disk in memory, on which the many copies that are killed take less time


# Runs that are cut off.


def kill_tree(folder):
    draw = random.Random(13)
    for number in range(300):
        write(f"{folder}/d{number % 12}/e{number % 5}/f{number}", draw.randbytes(draw.choice([0, 1, 100, 5000, 9000])))
    for number in range(3):
        write(f"{folder}/d{number}/large", draw.randbytes(2 << 20))


def start(source, target):
    return subprocess.Popen([PROGRAM, source, target, "/docs", "/x"], stdout=subprocess.DEVNULL, stderr=subprocess.DEVNULL)


def length_of_run(source, target):
    """How many seconds a whole run takes, as the middle of five."""
    taken = []
    for _ in range(5):
        begin = time.monotonic()
        start(source, target).wait()
        taken.append(time.monotonic() - begin)
        shutil.rmtree(f"{target}/x")
    return sorted(taken)[2]


def want_whole_or_absent(wanted, target):
    """Each file at a final path is whole, and nothing else stands there."""
    landed = entries(f"{target}/x")
    for path, data in landed.items():
        if wanted.get(path) != data:
            raise Wrong(f"{path!r} is not whole")
    if set(os.listdir(target)) - {"x", SCRATCH}:
        raise Wrong(f"in the target stand {os.listdir(target)}")


def want_next_run(source, target, wanted, lines):
    """After what stands at the final path is removed, the next run copies all, and nothing else is left."""
    if os.path.lexists(f"{target}/x"):
        shutil.rmtree(f"{target}/x")
    run([source, target, "/docs", "/x"], 0, lines)
    if entries(target) != {b"x": stat.S_IFDIR, **{b"x/" + path: data for path, data in wanted.items()}}:
        raise Wrong("the next run has not copied all, or has left something else")


def kill_many(source, target):
    """Kills runs, looks at what each leaves, and runs again. Answers how many were killed before they had ended."""
    kill_tree(f"{source}/docs")
    os.mkdir(target)
    wanted, lines = entries(f"{source}/docs"), committed_of(f"{source}/docs")
    whole = length_of_run(source, target)
    draw, killed = random.Random(14), 0
    for _ in range(3 * KILLS):
        child = start(source, target)
        time.sleep(draw.uniform(whole / 4, whole))
        child.send_signal(signal.SIGKILL)
        in_time = child.wait() == -signal.SIGKILL
        whole *= 1.05 if in_time else 0.9  # so that some kills come near the end, when files land
        want_whole_or_absent(wanted, target)
        if in_time:
            want_next_run(source, target, wanted, lines)
            killed += 1
        shutil.rmtree(f"{target}/x")
        if killed == KILLS:
            break
    return killed


@check(f"{KILLS} kills")
def kills(room):
    with tempfile.TemporaryDirectory(prefix="distcp-kills-", dir=MEMORY if os.access(MEMORY, os.W_OK) else room) as folder:
        killed = kill_many(f"{folder}/from", f"{folder}/to")
    if killed < KILLS // 2:
        raise Wrong(f"{killed} kills alone came before a run had ended")


def start_with(source, target, words):
    return subprocess.Popen([PROGRAM, source, target, *words], stdout=subprocess.DEVNULL, stderr=subprocess.DEVNULL)


@check(f"{FEW_KILLS} kills of an update: each file is the old one or the new one, and the next run goes on")
def kills_of_updates(room):
    source, target = f"{room}/from", f"{room}/to"
    kill_tree(f"{source}/docs")
    draw, killed = random.Random(17), 0
    wanted, lines = entries(f"{source}/docs"), re.compile(rb"COPY=\d+\n(.*\n)*committed\n")
    words = ["-update", "-delete", "-m", "4", "/docs", "/x"]
    for _ in range(3 * FEW_KILLS):
        shutil.rmtree(target, ignore_errors=True)
        older = {path: data[::-1] if isinstance(data, bytes) else data for path, data in wanted.items()}
        for path, data in older.items():
            if isinstance(data, bytes):
                write(os.path.join(os.fsencode(f"{target}/x"), path), data)
        write(f"{target}/x/gone/c", b"c")
        killed += killed_after(source, target, words, draw)
        for path, data in entries(f"{target}/x").items():
            if path not in (b"gone", b"gone/c") and data not in (wanted.get(path), older.get(path)):
                raise Wrong(f"{path!r} is neither the old one nor the new one")
        run([source, target, *words], 0, lines)
        if entries(target) != {b"x": stat.S_IFDIR, **{b"x/" + path: data for path, data in wanted.items()}}:
            raise Wrong("the next run has not finished the update, or has left something else")
        if killed == FEW_KILLS:
            break
    if killed < FEW_KILLS // 2:
        raise Wrong(f"{killed} kills alone came before a run had ended")


def killed_after(source, target, words, draw):
    """Kills a run at some time between its start and its end. Says whether it had not ended."""
    whole = whole_time(source, target, words)
    child = start_with(source, target, words)
    time.sleep(draw.uniform(whole / 8, whole))
    child.send_signal(signal.SIGKILL)
    return child.wait() == -signal.SIGKILL


TIMES = {}


def whole_time(source, target, words):
    """How many seconds a whole run takes, as a copy of the target shows it."""
    key = tuple(words)
    if key not in TIMES:
        shutil.copytree(target, f"{target}-tried", symlinks=True)
        begin = time.monotonic()
        start_with(source, f"{target}-tried", words).wait()
        TIMES[key] = time.monotonic() - begin
        shutil.rmtree(f"{target}-tried")
    return TIMES[key]


@check(f"{FEW_KILLS} kills of -atomic: the final path is absent or whole")
def kills_of_atomic(room):
    source, target = f"{room}/from", f"{room}/to"
    kill_tree(f"{source}/docs")
    os.mkdir(target)
    draw, killed = random.Random(18), 0
    words, lines = ["-atomic", "-m", "4", "/docs", "/x"], committed_of(f"{source}/docs")
    for _ in range(3 * FEW_KILLS):
        killed += killed_after(source, target, words, draw)
        if os.path.lexists(f"{target}/x"):
            want_same(f"{source}/docs", f"{target}/x")
            shutil.rmtree(f"{target}/x")
        if os.path.lexists(f"{target}/.distcp.work"):
            run([source, target, *words], 25, b"distcp: work path exists /.distcp.work\n")
            shutil.rmtree(f"{target}/.distcp.work")
        run([source, target, *words], 0, lines)
        want_same(f"{source}/docs", f"{target}/x")
        if os.listdir(target) != ["x"]:
            raise Wrong(f"in the target stand {os.listdir(target)}")
        shutil.rmtree(f"{target}/x")
        if killed == FEW_KILLS:
            break
    if killed < FEW_KILLS // 2:
        raise Wrong(f"{killed} kills alone came before a run had ended")


@check("temporaries of a run that was killed")
def old_temporaries(room):
    source, target = two_folders(room)
    write(f"{target}/{SCRATCH}/0-0/0", b"old")
    write(f"{target}/{SCRATCH}/whole", b"old")
    copies(source, target)
