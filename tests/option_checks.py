"""Checks of options, over targets that exist too."""
import os
import random
import re
import shutil
import stat
import subprocess

from driving import *


# Options.


def want_tree(folder, wanted):
    """Under a folder stand exactly these: for each path the bytes of a file, or None for a directory."""
    seen = {os.fsdecode(path): None if data == stat.S_IFDIR else data for path, data in entries(folder).items()}
    if seen != wanted:
        raise Wrong(f"there stands {seen!r:.300}, wanted {wanted!r:.300}")


def merged_folders(room):
    """Two folders: the target has an older copy of `/docs` at `/x`, with what the source lacks."""
    source, target = two_folders(room)
    write(f"{target}/x/a", b"old")
    write(f"{target}/x/sub/b", b"two")
    write(f"{target}/x/gone/c", b"c")
    write(f"{target}/x/gone/d/e", b"e")
    write(f"{target}/x/sub/.snapshot/s1/b", b"kept")
    write(f"{target}/beside", b"as it was")
    return source, target


OLDER = {"beside": b"as it was", "x": None, "x/a": b"old", "x/sub": None, "x/sub/b": b"two", "x/sub/.snapshot": None, "x/sub/.snapshot/s1": None}
OLDER |= {"x/sub/.snapshot/s1/b": b"kept"}
GONE = {"x/gone": None, "x/gone/c": b"c", "x/gone/d": None, "x/gone/d/e": b"e"}


@check("a target that exists gets the source by its name, and what stands there is skipped")
def merges(room):
    source, target = merged_folders(room)
    write(f"{target}/x/docs/a", b"not read")
    run([source, target, "/docs", "/x"], 0, committed(1, 2, 3, 1, 3))
    want_tree(target, {**OLDER, **GONE, "x/docs": None, "x/docs/a": b"not read", "x/docs/sub": None, "x/docs/sub/b": b"two"})


@check("-update copies what differs and skips what is the same")
def updates(room):
    source, target = merged_folders(room)
    run([source, target, "-update", "/docs", "/x"], 0, committed(1, 1, 3, 1, 3))
    want_tree(target, {**OLDER, **GONE, "x/a": b"one"})
    run([source, target, "-update", "/docs", "/x"], 0, committed(0, 1, 0, 2, 6))
    want_tree(target, {**OLDER, **GONE, "x/a": b"one"})
    want_swept(target)


@check("-update -delete removes what the source lacks, and no snapshot")
def deletes(room):
    source, target = merged_folders(room)
    run([source, target, "-update", "-delete", "/docs", "/x"], 0, committed(1, 1, 3, 1, 3))
    want_tree(target, {**OLDER, "x/a": b"one"})


@check("-overwrite copies every file again")
def overwrites(room):
    source, target = merged_folders(room)
    run([source, target, "-overwrite", "/docs", "/x"], 0, DOCS)
    want_tree(target, {**OLDER, **GONE, "x/a": b"one"})


@check("-skipcrccheck takes files of one length for the same")
def skips_checks(room):
    source, target = merged_folders(room)
    run([source, target, "-update", "-skipcrccheck", "/docs", "/x"], 0, committed(0, 1, 0, 2, 6))
    want_tree(target, {**OLDER, **GONE})


@check("-append adds to a file that begins as the source's, and replaces another")
def appends(room):
    source, target = two_folders(room)
    draw = random.Random(15)
    log, other = draw.randbytes(100_000), draw.randbytes(50_000)
    write(f"{source}/docs/log", log)
    write(f"{source}/docs/other", other)
    write(f"{target}/x/log", log[:70_000])
    write(f"{target}/x/other", b"begins in another way")
    run([source, target, "-update", "-append", "/docs", "/x"], 0, committed(4, 1, 30_000 + 50_000 + 6))
    want_same(f"{source}/docs", f"{target}/x")
    want_swept(target)


@check("a file goes into a directory, and becomes what does not exist")
def files(room):
    source, target = merged_folders(room)
    run([source, target, "/docs/a", "/x/gone"], 0, committed(1, 0, 3))
    run([source, target, "/docs/a", "/y"], 0, committed(1, 0, 3))
    run([source, target, "-update", "/docs/a", "/x/a"], 0, committed(1, 0, 3))
    want_tree(target, {**OLDER, **GONE, "x/a": b"one", "x/gone/a": b"one", "y": b"one"})


@check("several sources")
def several(room):
    source, target = two_folders(room)
    write(f"{source}/more/c", b"three")
    run([source, target, "/docs", "/more", "/docs/a", "/x"], 0, committed(4, 3, 14))
    want_tree(target, {"x": None, "x/a": b"one", "x/docs": None, "x/docs/a": b"one", "x/docs/sub": None, "x/docs/sub/b": b"two", "x/more": None, "x/more/c": b"three"})


@check("two sources that list one path")
def twice(room):
    source, target = two_folders(room)
    write(f"{source}/more/a", b"three")
    run([source, target, "-update", "/docs", "/more", "/x"], 254, b"distcp: duplicate ./a from /docs/a and /more/a\n")
    run([source, target, "/docs/a", "/more/a", "/x"], 254, b"distcp: duplicate ./a from /docs/a and /more/a\n")
    want_empty(target)


@check("-f takes the sources from a file")
def from_list(room):
    source, target = two_folders(room)
    write(f"{source}/list", b"/docs/a\n\n/docs/sub")
    run([source, target, "-f", "/list", "/x"], 0, committed(2, 1, 6))
    want_tree(target, {"x": None, "x/a": b"one", "x/sub": None, "x/sub/b": b"two"})
    write(f"{source}/list", b"/docs\ndocs\n")
    run([source, target, "-f", "/list", "/y"], 255, b"distcp: bad list in line 2\n")
    write(f"{source}/list", b"\n")
    run([source, target, "-f", "/list", "/y"], 255, b"distcp: bad list in line 0\n")
    run([source, target, "-f", "/docs", "/y"], 255, b"distcp: no file /docs\n")


@check("-filters leaves out what a pattern matches")
def filters(room):
    source, target = two_folders(room)
    write(f"{source}/docs/sub/deep/d", b"four")
    write(f"{source}/docs/x.tmp", b"no")
    write(f"{source}/filters", b".*\\.tmp\n.*/deep\n")
    run([source, target, "-filters", "/filters", "/docs", "/x"], 0, DOCS)
    want_tree(target, {"x": None, "x/a": b"one", "x/sub": None, "x/sub/b": b"two"})
    write(f"{source}/filters", b".*\n(\n")
    run([source, target, "-filters", "/filters", "/docs", "/y"], 255, b"distcp: bad pattern in line 2\n")
    run([source, target, "-filters", "/none", "/docs", "/y"], 255, b"distcp: no file /none\n")


@check("-delete spares nothing that a pattern leaves out")
def filters_and_deletes(room):
    source, target = merged_folders(room)
    write(f"{source}/filters", b".*/sub\n")
    run([source, target, "-update", "-delete", "-filters", "/filters", "/docs", "/x"], 0, committed(1, 0, 3))
    want_tree(target, {**{path: data for path, data in OLDER.items() if path != "x/sub/b"}, "x/a": b"one"})


SOURCE_ATTRS = "=\t/docs/a\t2\t4096\tetl\tops\t0640\tacl\tuser.k=v\t7\n=\t/docs/sub\t0\t0\tetl\tops\t0700\t\t\t9\n"


def preserves(word, file, directory):
    """A check of what the target's catalogue tells of a file and of a directory after this word."""

    def of_room(room):
        source, target = two_folders(room)
        write(f"{source}/.distcp.attrs", SOURCE_ATTRS.encode())
        run([source, target, *word, "/docs", "/x"], 0, DOCS)
        told = entries(target).get(b".distcp.attrs", b"").decode().splitlines()
        for path, wanted in ("/x/a", file), ("/x/sub", directory):
            lines = [line for line in told if line.split("\t")[1] == path]
            seen = "\t".join(lines[-1].split("\t")[2:]) if lines and lines[-1].startswith("=") else None
            if seen != wanted:
                raise Wrong(f"of {path} is told {seen!r}, wanted {wanted!r}")

    check(f"attributes after {' '.join(word) or 'no option'}")(of_room)


preserves([], None, None)
preserves(["-p"], "2\t4096\tetl\tops\t0640\t\t\t7", "0\t0\tetl\tops\t0700\t\t\t9")
preserves(["-pug"], "3\t134217728\tetl\tops\t0644\t\t\t0", "0\t0\tetl\tops\t0755\t\t\t0")
preserves(["-pax"], "3\t134217728\t\t\t0640\tacl\tuser.k=v\t0", "0\t0\t\t\t0700\t\t\t0")


@check("attributes of files that are skipped")
def skipped_attributes(room):
    source, target = two_folders(room)
    copies(source, target)
    write(f"{source}/.distcp.attrs", SOURCE_ATTRS.encode())
    run([source, target, "-update", "-pu", "/docs", "/x"], 0, committed(0, 1, 0, 2, 6))
    if b"=\t/x/a\t3\t134217728\tetl\t\t0644\t\t\t0\n" not in entries(target)[b".distcp.attrs"]:
        raise Wrong(f"the catalogue is {entries(target)[b'.distcp.attrs']!r}")


@check("a catalogue stays right over a second run and a removal")
def second_catalogue(room):
    source, target = two_folders(room)
    write(f"{source}/.distcp.attrs", SOURCE_ATTRS.encode())
    run([source, target, "-update", "-delete", "-pu", "/docs", "/x"], 0, DOCS)
    shutil.rmtree(f"{source}/docs/sub")
    run([source, target, "-update", "-delete", "-pu", "/docs", "/x"], 0, committed(0, 0, 0, 1, 3))
    if b"-\t/x/sub\n" not in entries(target)[b".distcp.attrs"] or os.path.lexists(f"{target}/x/sub"):
        raise Wrong("the directory or its lines are left")
    run([target, source, "/x", "/back"], 0, committed(1, 0, 3))


@check("many files over workers, bundles and pieces")
def crews(room):
    draw = random.Random(16)
    for number in range(400):
        write(f"{room}/from/docs/d{number % 7}/f{number}", draw.randbytes(draw.choice([0, 1, 300, 9000])))
    write(f"{room}/from/docs/large", draw.randbytes(3_000_000))
    write(f"{room}/from/.distcp.attrs", b"=\t/docs/large\t1\t65536\t\t\t0644\t\t\t0\n")
    os.mkdir(f"{room}/to")
    for number, words in enumerate((["-m", "1"], ["-m", "8"], ["-m", "64", "-strategy", "dynamic"], ["-m", "8", "-blocksperchunk", "3", "-copybuffersize", "1000"])):
        run([f"{room}/from", f"{room}/to", *words, "/docs", f"/{number}"], 0, committed_of(f"{room}/from/docs"))
        want_same(f"{room}/from/docs", f"{room}/to/{number}")
        want_swept(f"{room}/to")


@check("attempts that a plan stops are made again")
def kill_plan(room):
    source, target = two_folders(room)
    write(f"{source}/plan", b"0 1 0\n0 2 2 worker\n1 1 1 worker\n")
    run([source, target, "-kills", "/plan", "-m", "2", "/docs", "/x"], 0, DOCS)
    want_same(f"{source}/docs", f"{target}/x")
    want_swept(target)
    write(f"{source}/plan", b"0 1 0\n0 0 0\n")
    run([source, target, "-kills", "/plan", "/docs", "/y"], 255, b"distcp: bad kill plan in line 2\n")


# A move at the end.


@check("-atomic builds under a work path and moves")
def atomic(room):
    source, target = two_folders(room)
    run([source, target, "-atomic", "/docs", "/p/x"], 0, DOCS)
    want_tree(target, {"p": None, "p/x": None, "p/x/a": b"one", "p/x/sub": None, "p/x/sub/b": b"two"})
    run([source, target, "-atomic", "/docs", "/p/x"], 255, b"distcp: bad target: exists under -atomic\n")
    run([source, target, "-atomic", "/docs/a", "/y"], 0, committed(1, 0, 3))
    want_same(f"{source}/docs/a", f"{target}/y")
    want_swept(target)


@check("-atomic with -tmp")
def atomic_with_tmp(room):
    source, target = two_folders(room)
    run([source, target, "-atomic", "-tmp", "/work", "/docs", "/x"], 255, b"distcp: bad target: no folder for -tmp\n")
    os.mkdir(f"{target}/work")
    run([source, target, "-atomic", "-tmp", "/work", "/docs", "/work/.distcp.work/x"], 255, b"distcp: bad target: work path and target overlap\n")
    run([source, target, "-atomic", "-tmp", "/work", "/docs", "/x"], 0, DOCS)
    want_tree(target, {"work": None, "x": None, "x/a": b"one", "x/sub": None, "x/sub/b": b"two"})


@check("a work path that an earlier run has left")
def work_path(room):
    source, target = two_folders(room)
    write(f"{target}/.distcp.work/a", b"left")
    run([source, target, "-atomic", "/docs", "/x"], 25, b"distcp: work path exists /.distcp.work\n")
    want_tree(target, {".distcp.work": None, ".distcp.work/a": b"left"})


@check("-atomic to a disk that is full leaves the final path alone")
def atomic_full(room):
    source, target = two_folders(room)
    write(f"{source}/docs/big", bytes(2_000_000))
    with Disk(target, "size=1m"):
        run([source, target, "-atomic", "/docs", "/x"], 25, b"distcp: copy failed ./big\n")
        want_empty(target)


# Clashes, and what a run goes on without.


def clashing_folders(room):
    """A file of the source where the target has a directory, and the other way round."""
    source, target = two_folders(room)
    write(f"{target}/x/a/inner", b"i")
    write(f"{target}/x/sub", b"a file")
    return source, target, {"x": None, "x/a": None, "x/a/inner": b"i", "x/sub": b"a file"}


@check("a clash")
def clash(room):
    source, target, before = clashing_folders(room)
    run([source, target, "-update", "/docs", "/x"], 25, b"distcp: clash at ./a\n")
    want_tree(target, before)


@check("-i goes on without what clashes and what is under it")
def clash_left_out(room):
    source, target, before = clashing_folders(room)
    write(f"{source}/docs/c", b"new")
    run([source, target, "-update", "-i", "/docs", "/x"], 29, committed(1, 0, 3, without=["./a", "./sub", "./sub/b"]))
    want_tree(target, {**before, "x/c": b"new"})


@check("-i goes on without an unreadable file, as a plain user")
def unreadable_left_out(room):
    source, target = two_folders(room)
    how = as_user(room)
    os.chmod(f"{source}/docs/sub/b", 0)
    run([source, target, "-i", "/docs", "/x"], 29, committed(1, 1, 3, without=["./sub/b"]), **how)
    want_tree(target, {"x": None, "x/a": b"one", "x/sub": None})
    want_swept(target)


@check("-i with a link in the source still names the fault")
def link_with_ignore(room):
    source, target = two_folders(room)
    os.symlink(outside(room), f"{source}/docs/link")
    run([source, target, "-i", "/docs", "/x"], 25, SOURCE_FAULT, patience=LITTLE_PATIENCE)
    want_empty(target)
    want_untouched(room, target)


# What stands in a target that is merged into, and is neither a file nor a directory.


def in_the_target(name, put):
    """A check that what is put where a file is to land ends the run, and stays."""

    def of_room(room):
        source, target = two_folders(room)
        outside(room)
        os.mkdir(f"{target}/x")
        put(f"{target}/x/a", f"{room}/outside")
        before = entries(target)
        for words in (["-update"], ["-overwrite"], ["-update", "-i"]):
            run([source, target, *words, "/docs", "/x"], 25, DECIDE_FAULT, patience=LITTLE_PATIENCE)
        if entries(target) != before:
            raise Wrong("the target is another")
        want_untouched(room, target)

    check(f"{name} in the target")(of_room)


in_the_target("a link to a file", lambda place, far: os.symlink(f"{far}/file", place))
in_the_target("a link to a directory", lambda place, far: os.symlink(f"{far}/docs", place))
in_the_target("a link to nothing", lambda place, far: os.symlink(f"{far}/nothing", place))
in_the_target("a FIFO", lambda place, far: os.mkfifo(place))
in_the_target("a socket", put_socket)


@check("-delete removes a directory with a link in it, or stops, and follows none")
def delete_link(room):
    source, target = merged_folders(room)
    os.symlink(outside(room), f"{target}/x/gone/link")
    how = re.compile(rb"(COPY=1\n(.*\n)*committed\n|distcp: target fault in (decide|delete) after \d+\n)")
    run_either([source, target, "-update", "-delete", "/docs", "/x"], (0, 25), how)
    want_untouched(room, target)


def run_either(words, statuses, lines):
    """Runs the program, and wants one of these statuses and these lines."""
    done = subprocess.run([PROGRAM, *words], stdout=subprocess.PIPE, stderr=subprocess.PIPE, timeout=PATIENCE)
    if done.returncode not in statuses or not lines.fullmatch(done.stdout) or done.stderr:
        raise Wrong(f"status {done.returncode}, printed {done.stdout[:300]!r}")


# Words that are refused.


def refuses(reason, *words):
    """A check that words are refused for this reason, and nothing is done."""

    def of_room(room):
        source, target = two_folders(room)
        run([source, target, *words], 255, f"distcp: bad option: {reason}\n".encode())
        want_empty(target)

    check(f"words: {reason}")(of_room)


refuses("unknown -direct", "-direct", "/docs", "/x")
refuses("unknown -", "/docs", "-", "/x")
refuses("repeated -update", "-update", "/docs", "-update", "/x")
refuses("repeated -pu", "-p", "-pu", "/docs", "/x")
refuses("no value for -tmp", "/docs", "/x", "-atomic", "-tmp")
refuses("bad number for -m", "-m", "0", "/docs", "/x")
refuses("bad number for -copybuffersize", "-copybuffersize", "16777217", "/docs", "/x")
refuses("bad letter at 1", "-puz", "/docs", "/x")
refuses("bad strategy", "-strategy", "static", "/docs", "/x")
refuses("bad snapshot for -diff", "-update", "-diff", "a", ".snapshot", "/docs", "/x")
refuses("bad path docs", "docs", "/x")
refuses("-update with -overwrite", "-update", "-overwrite", "/docs", "/x")
refuses("-update with -atomic", "-update", "-atomic", "/docs", "/x")
refuses("-overwrite with -atomic", "-overwrite", "-atomic", "/docs", "/x")
refuses("-delete needs -update or -overwrite", "-delete", "/docs", "/x")
refuses("-append needs -update", "-append", "/docs", "/x")
refuses("-append with -skipcrccheck", "-update", "-append", "-skipcrccheck", "/docs", "/x")
refuses("-tmp needs -atomic", "-tmp", "/", "/docs", "/x")
refuses("-f with source paths", "-f", "/list", "/docs", "/x")
refuses("no paths", "-update", "/docs")
refuses("a report needs one source", "-update", "-diff", "a", "b", "/docs", "/docs", "/x")


@check("reports are not built yet")
def unbuilt(room):
    source, target = two_folders(room)
    run([source, target, "-update", "-diff", "a", "b", "/docs", "/x"], 255, b"distcp: not built yet\n")
    run([source, target, "-update", "-rdiff", "b", "a", "/docs", "/x"], 255, b"distcp: not built yet\n")
    want_empty(target)
