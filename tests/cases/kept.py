"""No slip of the hand and no call of the system that fails costs a file: what OUT held is there until there is something to
write, and is written over only where it is a file of the same kind."""

import errno
import os
import stat
import subprocess
from functools import partial

from cases.dumps import lines
from cases.files import FAULTS, IN_PLACE, MANY, NOT_LAST, OLD_ROOT, ROOT, WRITE_BYTES, WRITERS, in_place_of_out, laid, refusal
from cases.scratch import ABC, numbered
from oracle.proof import proof_of
from oracle.trees import chunk_file, records, report, root_text, tree
from support.harness import Skipped
from support.place import NOBODY, all_of, begin, opened_for_writing, wait_until_read

TABLE = b"apple\t3\npear\t5\n"
"""A table of text, which is no chunk file, no proof and no record file."""

PICTURE = b"\x89PNG\r\n\x1a\n\0\0\0\rIHDR"
"""The first bytes of a picture, which are no lines."""

OLD_FILES = {
    "chunk file": chunk_file(ABC[:1], 0),
    "proof": proof_of(tree(ABC, 0, 1), b"a", 1),
    "record file": records(ABC[:1]),
    "file of lines": lines(ABC[:1]),
}
"""A file of each kind."""

KINDS = {
    "build": "chunk file",
    "apply": "chunk file",
    "scratch": "chunk file",
    "pack": "record file",
    "pack --sort": "record file",
    "dump": "record file",
    "dump --hex": "file of lines",
    "dump --root": "record file",
    "diff": "record file",
    "diff --stat": "record file",
    "diff by the roots": "record file",
    "diff --stat by the roots": "record file",
    "prove": "proof",
    "prove --root": "proof",
}
"""What each command writes."""

CALLS = ("statx", "open", "realpath", "readlink", "pread", "ftruncate", "flock", "fchmod", "fsync", "rename", "unlink")
"""The calls of the system that look at, open, make, lock, empty, rename or remove a file."""

ERRORS = (errno.EPERM, errno.EIO, errno.EINTR, errno.ENOMEM)


# ---- OUT is a file of another kind


def is_refused(place, command, before, flags):
    """OUT holds something else than what the command writes: it stays, and says so. With --force it is written over."""
    words, given, made, answer = WRITERS[command]
    files = laid(place)
    place.lay(out=before)
    line = f"OUT is not a {KINDS[command]}: out".encode()
    place.answers(place.run(*words, *flags, stdin=given or b""), refusal(line))
    place.holds(out=before, **files)
    place.answers(place.run(*words, *flags, "--force", stdin=given or b""), answer)
    place.holds(out=made, **files)


def is_written_over(place, command, before):
    """OUT is empty, or of the kind that the command writes."""
    words, given, made, answer = WRITERS[command]
    files = laid(place)
    place.lay(out=before)
    place.answers(place.run(*words, stdin=given or b""), answer)
    place.holds(out=made, **files)


def is_not_readable(place):
    """OUT can't be read, so that no one can tell what it holds. With --force it is written over, or replaced."""
    files = laid(place)
    words, _, made, answer = WRITERS["build"]
    for flags in ([], ["--atomic"]):
        place.lay(out=chunk_file(ABC[:1], 0))
        place.path("out").chmod(0o222)
        place.answers(place.run(*words, *flags, is_nobody=True), refusal(b"cannot open out"))
        place.answers(place.run(*words, *flags, "--force", is_nobody=True), answer)
        place.path("out").chmod(0o666)
        place.holds(out=made, **files)


def is_a_block_device(place):
    """A block device is a file of another kind, and is not opened. With --force it is, and this number is no driver's."""
    files = laid(place)
    node = place.path("out")
    try:
        os.mknod(node, stat.S_IFBLK | 0o600, os.makedev(120, 0))
    except PermissionError:
        raise Skipped("this user can make no block device") from None
    for command, (words, given, _, _) in WRITERS.items():
        given = given or b""
        place.answers(place.run(*words, stdin=given), refusal(f"OUT is not a {KINDS[command]}: out".encode()))
        line = b"cannot replace out" if command == "pack --sort" else b"cannot open out"
        place.answers(place.run(*words, "--force", stdin=given), refusal(line))
        place.answers(place.run(*words, "--force", "--atomic", stdin=given), refusal(b"cannot replace out"))
    place.answers(place.run("build", "out"), refusal(b"OUT is not a chunk file: out"))
    node.unlink()
    place.holds(**files)


def has_no_files(place):
    """A build of no files makes the empty tree in a new file or an empty one, and writes over nothing."""
    place.lay(a_rec=records(ABC), old_prl=OLD_FILES["chunk file"], none=b"")
    place.answers(place.run("build", "a.rec"), refusal(b"OUT is not a chunk file: a.rec"))
    place.answers(place.run("build", "old.prl"), refusal(b"OUT is not empty, and no files are named after it: old.prl"))
    place.answers(place.run("build", "--atomic", "old.prl"), refusal(b"OUT is not empty, and no files are named after it: old.prl"))
    place.holds(a_rec=records(ABC), old_prl=OLD_FILES["chunk file"], none=b"")
    for name in ("none", "new"):
        place.answers(place.run("build", name), (0, report([], 12), b""))
    place.answers(place.run("build", "--force", "old.prl"), (0, report([], 12), b""))
    empty = chunk_file([], 12)
    place.holds(a_rec=records(ABC), old_prl=empty, none=empty, new=empty)


def names_all_files(place):
    """`build *.rec`, where OUT was left out."""
    place.lay(a_rec=records(ABC[:1]), b_rec=records(ABC[1:]))
    place.answers(place.run("build", "a.rec", "b.rec"), refusal(b"OUT is not a chunk file: a.rec"))
    place.holds(a_rec=records(ABC[:1]), b_rec=records(ABC[1:]))


# ---- what OUT held stays until there is something to write


def stays_until_written(place, command, before):
    """After a fault of an input OUT is what it was, and is not there where it was not. A run by threads has begun by then, but
    writes over no byte."""
    words, given, status, line = FAULTS[command]
    files = laid(place)
    if before is not None:
        files["out"] = before
        place.lay(out=before)
    place.answers(place.run(*words, stdin=given or b""), (status, b"", line))
    if command in ("build", "apply") and not before:
        left = place.path("out").read_bytes()
        if not chunk_file([ABC[0], ABC[1]], 0).startswith(left) or len(left) < 6:
            place.note(f"OUT holds {len(left)} bytes")
        files["out"] = None
    place.holds(**files)


def stays_at_a_late_fault(place, words, before, answer):
    """A run by threads finds a fault: what OUT held is there still."""
    files = laid(place) | {"table": TABLE, "out": before}
    place.lay(table=TABLE, out=before)
    place.answers(place.run(*words), answer)
    place.holds(**files)


def goes_at_a_fault_behind_a_write(place):
    """A fault that is found when a part of the tree has been written: OUT is that part."""
    pairs = numbered(MANY)
    files = {"many_rec": records(pairs), "cut_rec": records([(b"\xfe", b""), (b"\xff", b"")])[:-1]}
    place.lay(out=OLD_FILES["chunk file"], **files)
    place.answers(place.run("build", "--bits", "2", "out", "many.rec", "cut.rec"), (3, b"", b"prolly: file 1: record 1 is cut\n"))
    left = place.path("out").read_bytes()
    if not chunk_file(pairs, 2).startswith(left) or len(left) < WRITE_BYTES:
        place.note(f"OUT holds {len(left)} bytes")
    place.holds(out=None, **files)


def stays_before_the_header(place):
    """A build that can't begin leaves OUT as it was, and takes away a file that it made."""
    place.lay(a_rec=records(ABC), old=OLD_FILES["chunk file"])
    place.path("old").chmod(0o666)
    for name in ("old", "new"):
        place.answers(place.run_without_threads("build", name, "a.rec"), (6, b"", b"prolly: a thread could not be started\n"))
    place.holds(a_rec=records(ABC), old=OLD_FILES["chunk file"])


def is_made_early(place):
    """An OUT that can't be made is told before anything is read."""
    for words in (["scratch", "--out", "none/out"], ["pack", "none/out"]):
        reader, writer = os.pipe()
        process = place.start(words, stdin=reader)
        os.close(reader)
        answer = place.finish(process)
        os.close(writer)
        place.answers(answer, refusal(b"cannot open none/out"))
    place.holds()


def is_not_read(place, words, line):
    """A file that is longer than commands read is refused before any of it is read."""
    place.lay(good_prl=chunk_file(ABC, 0))
    with open(place.path("long"), "wb") as long:
        long.write(b"PRLY\1\0")
        long.truncate(3_000_000_000)
    answer, calls = place.meddled(*words, stdin=subprocess.DEVNULL)
    place.answers(answer, line)
    if any(call.startswith("read ") for call in calls):
        place.note(f"calls {calls}")
    place.holds(good_prl=chunk_file(ABC, 0), long=None)


# ---- links, modes, other runs


def makes_what_a_link_names(place, command, flags):
    """A symbolic link to no file stays, and the file that it names is made; a link to itself is no file."""
    words, given, made, answer = WRITERS[command]
    files = laid(place)
    place.path("folder").mkdir()
    place.path("out").symlink_to("folder/next")
    place.path("folder/next").symlink_to("real")
    place.answers(place.run(*words, *flags, stdin=given or b""), answer)
    if not place.path("out").is_symlink() or not place.path("folder/next").is_symlink():
        place.note("a link is gone")
    if place.path("folder/real").read_bytes() != made:
        place.note("the file behind the links is another one")
    place.path("loop").symlink_to("loop")
    place.answers(place.run(*in_place_of_out(words, "loop"), *flags, stdin=given or b""), refusal(b"cannot open loop"))
    if not place.path("loop").is_symlink() or sorted(os.listdir(place.path("folder"))) != ["next", "real"]:
        place.note("a file was left behind")
    for name in ("out", "loop", "folder/next", "folder/real"):
        place.path(name).unlink()
    place.path("folder").rmdir()
    place.holds(**files)


def is_for_its_owner(place, command):
    """The file beside OUT is its owner's alone until it takes OUT's place, with OUT's mode."""
    words, given, made, wanted = WRITERS[command]
    files = laid(place)
    place.lay(out=OLD_FILES[KINDS[command]], given=given or b"")
    place.path("out").chmod(0o640)
    with open(place.path("given"), "rb") as stdin:
        answer, calls = place.meddled(*words, "--atomic", stdin=stdin)
    place.answers(answer, wanted)
    if [line for line in calls if line.startswith("open ")] != [f"open {0o600}"]:
        place.note(f"calls {calls}")
    if stat.S_IMODE(place.path("out").stat().st_mode) != 0o640:
        place.note("OUT has another mode")
    place.holds(out=made, given=None, **files)


def is_busy(place):
    """A build into a file that another build writes is refused, and the other one goes on."""
    place.lay(a_rec=records(ABC), out=OLD_FILES["chunk file"])
    os.mkfifo(place.path("wait"))
    for name in ("out", "new"):
        process = place.start(["build", "--bits", "0", name, "a.rec", "wait"])
        with opened_for_writing(place.path("wait"), process) as pipe:
            pipe.write(records(ABC[:1]))
            # A build has OUT before it reads.
            wait_until_read(pipe, process)
            for flags in ([], ["--atomic"]):
                line = refusal(b"another run writes OUT: " + name.encode())
                place.answers(place.run("build", *flags, name, "a.rec"), line)
                answer, _ = place.meddled("build", *flags, name, "a.rec", meddle={"network": "1"})
                place.answers(answer, line)
        place.answers(place.finish(process), (0, report(ABC, 0), b""))
    place.holds(a_rec=records(ABC), wait=None, out=chunk_file(ABC, 0), new=chunk_file(ABC, 0))


# ---- another file in OUT's place


def is_lost(place, flags):
    """A build in place says that another file took OUT's name, or that OUT was taken away, and touches nothing that came."""
    place.lay(a_rec=records(ABC), out=OLD_FILES["chunk file"])
    os.mkfifo(place.path("wait"))
    for name, comes, line in (("out", True, b"another run writes OUT: out"), ("new", True, b"another run writes OUT: new"), ("gone", False, b"cannot open gone")):
        process = place.start(["build", *flags, "--bits", "0", name, "a.rec", "wait"])
        with opened_for_writing(place.path("wait"), process) as pipe:
            pipe.write(records(ABC[:1]))
            # A build has OUT before it reads.
            wait_until_read(pipe, process)
            place.path(name).unlink()
            if comes:
                place.lay(**{name: PICTURE})
        place.answers(place.finish(process), refusal(line))
    place.holds(a_rec=records(ABC), wait=None, out=PICTURE, new=PICTURE)


def is_written_meanwhile(place):
    """Another program writes to OUT before a build in place does: OUT keeps that, also where the build has made OUT, or fails, and
    where OUT has the size that it had."""
    os.mkfifo(place.path("wait"))
    cut = records(ABC[:1])[:-1]
    old = OLD_FILES["chunk file"]
    for before, after in ((old, old + PICTURE), (old, old[::-1]), (b"", PICTURE), (None, PICTURE)):
        for given, answer in ((records(ABC[:1]), refusal(b"write failed")), (cut, (3, b"", b"prolly: file 1: record 0 is cut\n"))):
            place.lay(a_rec=records(ABC), **({} if before is None else {"out": before}))
            if before is not None:
                # Else the clock of the file system may not go on before OUT is written.
                os.utime(place.path("out"), (0, 0))
            process = place.start(["build", "--bits", "0", "out", "a.rec", "wait"])
            with opened_for_writing(place.path("wait"), process) as pipe:
                pipe.write(given)
                # A build has OUT before it reads.
                wait_until_read(pipe, process)
                with open(place.path("out"), "r+b") as out:
                    out.write(after)
            place.answers(place.finish(process), answer)
            place.holds(a_rec=records(ABC), wait=None, out=after)
            place.path("out").unlink()


def is_written_before_its_lock(place):
    """Another program writes to OUT before a build has locked it: OUT keeps that."""
    place.lay(a_rec=records(ABC), out=OLD_FILES["chunk file"], comes=PICTURE)
    answer, _ = place.meddled("build", "out", "a.rec", meddle={"before": "flock 1 cp comes out"})
    place.answers(answer, refusal(b"another run writes OUT: out"))
    place.holds(a_rec=records(ABC), out=PICTURE, comes=PICTURE)


def is_swapped(place, command, call, is_device):
    """Another file comes in OUT's place before a call, each call in turn, from the first look at OUT to the end of the run: it is
    never written, and where OUT was a file, the run is refused."""
    words, given, _, _ = WRITERS[command]
    for number in range(1, 100):
        files = {**laid(place), "given": given or b"", "comes": PICTURE}
        place.lay(given=given or b"", comes=PICTURE)
        if is_device:
            place.path("out").symlink_to("/dev/null")
        else:
            place.lay(out=OLD_FILES[KINDS[command]])
        meddle = {"before": f"{call} {number} ln -fT comes out"}
        with open(place.path("given"), "rb") as stdin:
            answer, calls = place.meddled(*words, stdin=stdin, meddle=meddle)
        is_met = sum(line.split()[0] == call for line in calls) >= number
        if is_met and not is_device and answer[0] != 5:
            place.note(f"{call} {number}: {answer}")
        place.holds(**files, out=PICTURE if is_met else None)
        place.path("out").unlink()
        if not is_met or place.differences:
            return
    place.note("too many calls")


def is_not_its_own(place):
    """A run that fails before it writes takes away the OUT that it made, and not the file that came in its place."""
    for comes in (False, True):
        process = place.start(["scratch", "--out", "out"], stdin=subprocess.PIPE)
        rest = begin(process, b"\0", place.path("out"))
        if comes:
            place.path("out").unlink()
            place.lay(out=OLD_FILES["chunk file"])
        place.answers(place.finish(process, rest), (3, b"", b"prolly: file 0: record 0 is cut\n"))
        place.holds(**({"out": OLD_FILES["chunk file"]} if comes else {}))


def is_not_its_own_beside(place, words, given, comes, answer):
    """What came in the place of the file beside OUT is neither renamed nor taken away, after a whole run and after a fault."""
    files = {"out": OLD_FILES["record file"]}
    place.lay(**files)
    process = place.start(words, stdin=subprocess.PIPE)
    beside = place.path("out.0.tmp")
    rest = begin(process, given, beside)
    beside.unlink()
    if comes:
        beside.write_bytes(PICTURE)
        files["out_0_tmp"] = PICTURE
    place.answers(place.finish(process, rest), answer)
    place.holds(**files)


def is_a_newcomer(place, before, force):
    """A file of another kind, or a folder, that came in OUT's place while a command ran is not written over."""
    if before is not None:
        place.lay(out=before)
    process = place.start(["pack", *(["--force"] if force else []), "out"], stdin=subprocess.PIPE)
    rest = begin(process, lines(ABC), place.path("out.0.tmp"))
    place.path("out").unlink(missing_ok=True)
    place.lay(out=PICTURE)
    place.answers(place.finish(process, rest), (0, b"3\n", b"") if force else refusal(b"OUT is not a record file: out"))
    place.holds(out=records(ABC) if force else PICTURE)


def is_behind_a_link(place):
    """What came in the place of the file behind a link is kept, also where the link was turned to another file meanwhile."""
    for comes, answer in ((PICTURE, refusal(b"OUT is not a record file: out")), (None, (0, b"3\n", b""))):
        place.lay(one=OLD_FILES["record file"], other=OLD_FILES["record file"])
        place.path("out").symlink_to("one")
        process = place.start(["pack", "out"], stdin=subprocess.PIPE)
        rest = begin(process, lines(ABC), place.path("one.0.tmp"))
        place.path("out").unlink()
        place.path("out").symlink_to("other")
        if comes is not None:
            place.path("one").unlink()
            place.lay(one=comes)
        place.answers(place.finish(process, rest), answer)
        place.path("out").unlink()
        place.holds(one=comes or records(ABC), other=OLD_FILES["record file"])


def is_a_new_folder(place):
    """So is a folder that came in OUT's place."""
    process = place.start(["pack", "--force", "out"], stdin=subprocess.PIPE)
    rest = begin(process, lines(ABC), place.path("out.0.tmp"))
    place.path("out").mkdir()
    place.answers(place.finish(process, rest), refusal(b"cannot replace out"))
    place.path("out").rmdir()
    place.holds()


def has_its_owner(place, command):
    """A file that replaces OUT is the same user's and group's, where the system allows that. Where it does not, OUT's group may
    not use it."""
    needs_root()
    words, given, made, wanted = WRITERS[command]
    flags = ["--atomic"] if command in IN_PLACE else []
    for is_nobody, mode, after in ((False, 0o640, (1234, 1235, 0o640)), (True, 0o666, (NOBODY, NOBODY, 0o606))):
        files = laid(place)
        place.lay(out=OLD_FILES[KINDS[command]])
        os.chown(place.path("out"), 1234, 1235)
        place.path("out").chmod(mode)
        place.answers(place.run(*words, *flags, stdin=given or b"", is_nobody=is_nobody), wanted)
        found = place.path("out").stat()
        if (found.st_uid, found.st_gid, stat.S_IMODE(found.st_mode)) != after:
            place.note(f"OUT is that of {found.st_uid}, {found.st_gid}, with {stat.S_IMODE(found.st_mode):o}")
        place.holds(out=made, **files)


def has_the_rights_of_now(place, before, mode):
    """What replaces OUT has the rights that OUT has by then: also those of an OUT that came meanwhile, and of one that is gone."""
    if before is not None:
        place.lay(out=before)
        place.path("out").chmod(0o644)
    process = place.start(["pack", "out"], stdin=subprocess.PIPE)
    rest = begin(process, lines(ABC), place.path("out.0.tmp"))
    if mode is None:
        place.path("out").unlink()
    else:
        place.lay(out=OLD_FILES["record file"])
        place.path("out").chmod(mode)
    place.answers(place.finish(process, rest), (0, b"3\n", b""))
    found = stat.S_IMODE(place.path("out").stat().st_mode)
    if found != (0o644 if mode is None else mode):
        place.note(f"mode {found:o}")
    place.holds(out=records(ABC))


def keeps_its_attributes(place):
    """A build in place keeps OUT's extended attributes, as its ACL is one; a file that replaces OUT has none of them."""
    words, _, made, wanted = WRITERS["build"]
    files = laid(place)
    for flags, kept in (([], ["user.kept"]), (["--atomic"], [])):
        place.lay(out=OLD_FILES["chunk file"])
        try:
            os.setxattr(place.path("out"), "user.kept", b"1")
        except OSError:
            raise Skipped("the file system has no extended attributes of users") from None
        place.answers(place.run(*words, *flags), wanted)
        found = [name for name in os.listxattr(place.path("out")) if name.startswith("user.")]
        if found != kept:
            place.note(f"attributes {found}")
        place.holds(out=made, **files)


def has_its_rights_already(place):
    """What the file beside OUT has already of OUT's owner, group and mode is not given to it: some file systems refuse that."""
    words, given, made, wanted = WRITERS["pack"]
    for call in ("fchmod", "fchown"):
        place.lay(out=OLD_FILES["record file"], given=given)
        place.path("out").chmod(0o600)
        with open(place.path("given"), "rb") as stdin:
            answer, calls = place.meddled(*words, stdin=stdin, meddle={"fail": f"{call} 1 {errno.EPERM}"})
        place.answers(answer, wanted)
        if any(line.startswith(call) for line in calls):
            place.note(f"calls {calls}")
    place.holds(out=made, given=None)


def keeps_its_group(place):
    """Where the owner of OUT can't be given to the file that replaces it, that has OUT's group."""
    needs_root()
    words, _, made, wanted = WRITERS["build"]
    files = laid(place)
    place.lay(out=OLD_FILES["chunk file"])
    os.chown(place.path("out"), 1234, 1235)
    place.path("out").chmod(0o640)
    answer, _ = place.meddled(*words, "--atomic", meddle={"fail": f"fchown 1 {errno.EPERM}"})
    place.answers(answer, wanted)
    found = place.path("out").stat()
    if (found.st_uid, found.st_gid, stat.S_IMODE(found.st_mode)) != (0, 1235, 0o640):
        place.note(f"OUT is that of {found.st_uid}, {found.st_gid}, with {stat.S_IMODE(found.st_mode):o}")
    place.holds(out=made, **files)


def needs_root():
    """Skips a test that gives files away, which only the system's own user may."""
    if os.geteuid() != 0:
        raise Skipped("this user can give no file away")


# ---- --atomic, where OUT is whole and the command is not done


def is_whole_without_its_line(place, command):
    """The answer's line can't be printed: OUT was replaced by then."""
    words, given, made, answer = WRITERS[command]
    files = laid(place)
    place.lay(out=OLD_FILES[KINDS[command]])
    with open("/dev/full", "wb") as full:
        found = place.run(*words, "--atomic", stdin=given or b"", stdout=full)
    place.answers(found, (5, b"", b"prolly: write failed\n") if answer[1] else answer)
    place.holds(out=made, **files)


def is_whole_without_its_folder(place, command):
    """The folder can't be brought to the disk after the rename: OUT was replaced by then. Before it come the file and its rights."""
    words, given, made, _ = WRITERS[command]
    files = laid(place)
    place.lay(out=OLD_FILES[KINDS[command]], given=given or b"")
    with open(place.path("given"), "rb") as stdin:
        answer, _ = place.meddled(*words, "--atomic", "--sync", stdin=stdin, meddle={"fail": f"fsync 3 {errno.EIO}"})
    place.answers(answer, (5, b"", b"prolly: write failed\n"))
    place.holds(out=made, given=None, **files)


# ---- calls of the system that fail


def each_call_fails(place, command, flags, before, call, error):
    """A call fails, each time that it is made in turn. The inputs stay; OUT is what it was, or is made, and only then the
    command is done; nothing else is left but what could not be removed. A build in place may leave a first part."""
    words, given, _, _ = WRITERS[command]
    for number in range(1, 100):
        files = laid(place)
        files["given"] = given or b""
        place.lay(given=given or b"")
        if before is not None:
            place.lay(out=before)
        meddle = {"fail": f"{call} {number} {error}"}
        with open(place.path("given"), "rb") as stdin:
            answer, calls = place.meddled(*words, *flags, stdin=stdin, meddle=meddle)
        is_met = sum(line.split()[0] == call for line in calls) >= number
        judge(place, f"{call} {number}", command, flags, before, answer, is_met)
        place.path("out").unlink(missing_ok=True)
        if call == "unlink":
            place.path("out.0.tmp").unlink(missing_ok=True)
        place.holds(**files)
        if not is_met or place.differences:
            return
    place.note("too many calls")


def judge(place, at, command, flags, before, answer, is_met):
    """Notes where an answer is not one that may come where a call fails, or OUT is not what the answer says."""
    _, _, made, wanted = WRITERS[command]
    left = place.path("out").read_bytes() if place.path("out").exists() else None
    is_done = answer == wanted
    if not is_met and not is_done:
        place.note(f"{at}: {answer}, wanted {wanted}")
    if is_done and left != made:
        place.note(f"{at}: done, and OUT is not made")
    if is_done:
        return
    status, out, err = answer
    if status not in (5, 6) or out or not err.startswith(b"prolly: ") or err.count(b"\n") != 1:
        place.note(f"{at}: {answer}")
    may_begin = command in IN_PLACE and "--atomic" not in flags
    if left not in (before, made) and not (may_begin and left is not None and made.startswith(left)):
        place.note(f"{at}: OUT holds {left}")


def guarded_call_fails(place, words, stdin, call, error):
    """A call fails where OUT is an input, each in turn: OUT is never touched."""
    for number in range(1, 100):
        place.lay(a_rec=records(ABC[:2]), b_rec=records(ABC[2:]), in_prl=chunk_file(ABC, 0), in_txt=lines(ABC))
        files = {name.replace(".", "_"): place.path(name).read_bytes() for name in ("a.rec", "b.rec", "in.prl", "in.txt")}
        with open(place.path(stdin) if stdin else os.devnull, "rb") as given:
            (status, out, err), calls = place.meddled(*words, stdin=given, meddle={"fail": f"{call} {number} {error}"})
        if status not in (5, 6) or out or not err.startswith(b"prolly: "):
            place.note(f"{call} {number}: {status} {out} {err}")
        place.holds(**files)
        if sum(line.split()[0] == call for line in calls) < number or place.differences:
            return
    place.note("too many calls")


GUARDED = [
    (["build", "--force", "a.rec", "a.rec", "b.rec"], None),
    (["build", "--force", "--atomic", "a.rec", "b.rec", "a.rec"], None),
    (["scratch", "--force", "--out", "a.rec"], "a.rec"),
    (["scratch", "--force", "--atomic", "--out", "a.rec"], "a.rec"),
    (["pack", "--force", "in.txt"], "in.txt"),
    (["dump", "--force", "in.prl", "in.prl"], None),
    (["prove", "--force", "in.prl", "61", "in.prl"], None),
    (["diff", "--force", "in.prl", "in.prl", "--out", "in.prl"], None),
]
"""Commands whose OUT is an input, and the file that they read from standard input."""


# ---- all


def tests():
    """All tests: for each a name and what it does."""
    yield from kinds()
    yield from stays()
    for command in WRITERS:
        for flags in ([], ["--atomic"], ["--sync"]):
            yield f"{command} {' '.join(flags)}: a link to no file", partial(makes_what_a_link_names, command=command, flags=flags)
        yield f"{command}: a file for its owner", partial(is_for_its_owner, command=command)
        yield f"{command}: whole without its line", partial(is_whole_without_its_line, command=command)
        yield f"{command}: whole without its folder", partial(is_whole_without_its_folder, command=command)
        yield f"{command}: a file for its owner and group", partial(has_its_owner, command=command)
    for before in (None, OLD_FILES["record file"]):
        for force in (False, True):
            yield f"a newcomer, {'forced' if force else 'not forced'}", partial(is_a_newcomer, before=before, force=force)
    for call in ("open", "statx", "flock", "ftruncate"):
        for command in IN_PLACE:
            yield f"{command}: OUT is swapped before {call}", partial(is_swapped, command=command, call=call, is_device=False)
        for command in KINDS:
            yield f"{command}: a device is swapped before {call}", partial(is_swapped, command=command, call=call, is_device=True)
    bad = (3, b"", b"prolly: line 0: not a pair in hexadecimal\n")
    for words in (["pack", "out"], ["pack", "--sync", "out"], ["pack", "--sort", "out"]):
        for comes in (False, True):
            for given, answer in ((lines(ABC), refusal(b"cannot replace out")), (b"6\n", bad)):
                name = f"{' '.join(words)}: the file beside is {'another' if comes else 'gone'}, status {answer[0]}"
                yield name, partial(is_not_its_own_beside, words=words, given=given, comes=comes, answer=answer)
    for before, mode in ((OLD_FILES["record file"], 0o600), (None, 0o600), (OLD_FILES["record file"], None)):
        yield f"the rights of now, {'new' if before is None else 'old'}, {mode}", partial(has_the_rights_of_now, before=before, mode=mode)
    for flags in ([], ["--sync"]):
        yield f"is lost {' '.join(flags)}", partial(is_lost, flags=flags)
    for test in (is_not_readable, is_a_block_device, has_no_files, names_all_files, stays_before_the_header, is_made_early, is_busy, is_written_meanwhile, is_written_before_its_lock, is_not_its_own, is_behind_a_link, is_a_new_folder, keeps_its_group, has_its_rights_already, keeps_its_attributes):
        yield test.__name__.replace("_", " "), test
    yield from failing()


def kinds():
    """Files of all kinds before each command."""
    others = {**OLD_FILES, "table": TABLE, "picture": PICTURE, "file of zeros": bytes(64), "record and more": records(ABC[1:2]) + TABLE, "file of numbers": b"".join(number.to_bytes(8, "big") for number in range(1, 20_000))}
    for command, kind in KINDS.items():
        for name, before in others.items():
            if name == kind or (kind, name) == ("file of lines", "table"):
                yield f"{command} over a {name}", partial(is_written_over, command=command, before=before)
                continue
            for flags in ([], ["--atomic"]):
                yield f"{command} {' '.join(flags)} refuses a {name}", partial(is_refused, command=command, before=before, flags=flags)
        yield f"{command} over an empty file", partial(is_written_over, command=command, before=b"")


LONG = [
    (["check", "long"], b"chunk file"),
    (["get", "long", "61"], b"chunk file"),
    (["scan", "long", "61", "1"], b"chunk file"),
    (["nth", "long", "0"], b"chunk file"),
    (["stat", "long"], b"chunk file"),
    (["dump", "long"], b"chunk file"),
    (["dump", "long", "out"], b"chunk file"),
    (["prove", "long", "61", "out"], b"chunk file"),
    (["diff", "long", "good.prl"], b"old chunk file"),
    (["diff", "good.prl", "long", "--out", "out"], b"new chunk file"),
]
"""Commands that read a chunk file whole, and how they name it."""


TALL = ["build", "--bits", "0", "--stages", "1", "out", "a.rec"]

LAST_OLD = 5
"""The number of the last chunk of the old tree, its root."""

LATE = [
    (["build", "out", "a.rec", "table"], (3, b"", b"prolly: file 1: record 0: key too long\n")),
    (["build", "--sync", "out", "table"], (3, b"", b"prolly: file 0: record 0: key too long\n")),
    (["build", "--max-records", "1", "out", "a.rec"], (3, b"", b"prolly: file 0: too many records\n")),
    (["build", "--bits", "0", "out", "a.rec", "."], (5, b"", b"prolly: file 1: read failed\n")),
    (["build", "--chunk-bytes", "1000", "out", "table"], (3, b"", b"prolly: --bits 12, since no record was seen\nprolly: file 0: record 0: key too long\n")),
    (TALL, (7, b"", b"prolly: tree too tall\n")),
    (["apply", "--root", OLD_ROOT, "old.prl", "out", "table"], (3, b"", b"prolly: file 0: record 0: key too long\n")),
    (["apply", *ROOT, "turned.prl", "out", "changes.rec"], (4, b"", b"prolly: old " + NOT_LAST.removeprefix(b"prolly: "))),
    (["apply", *ROOT, "old.prl", "out", "changes.rec"], (4, b"", b"prolly: old chunk file: chunk %d is not the one referred to\n" % LAST_OLD)),
]
"""Faults that are found while threads run: the words, and the answer."""


def stays():
    """What OUT held before a fault, and files that are not read."""
    for words, answer in LATE:
        yield f"a late fault: {' '.join(words)}", partial(stays_at_a_late_fault, words=words, before=OLD_FILES["chunk file"], answer=answer)
        forced = [words[0], "--force", *words[1:]]
        yield f"a late fault: {' '.join(forced)}", partial(stays_at_a_late_fault, words=forced, before=PICTURE, answer=answer)
    yield "a fault behind a write", goes_at_a_fault_behind_a_write
    for words, name in LONG:
        line = 4, b"", b"prolly: " + name + b": too long\n"
        yield f"not read: {' '.join(words)}", partial(is_not_read, words=words, line=line)
    verified = ["verify", root_text(ABC, 0).decode().strip(), "61", "long"]
    yield f"not read: {' '.join(verified)}", partial(is_not_read, words=verified, line=refusal(b"input too long"))
    for command, kind in KINDS.items():
        for before in (None, b"", OLD_FILES[kind]):
            yield f"{command}: a fault before the first byte", partial(stays_until_written, command=command, before=before)


def failing():
    """Calls of the system that fail."""
    for call in CALLS:
        for error in ERRORS:
            for command, kind in KINDS.items():
                for flags in ([], ["--atomic"], ["--sync"], ["--atomic", "--sync"]):
                    if command not in IN_PLACE and "--atomic" in flags:
                        continue
                    for before in (None, OLD_FILES[kind]):
                        name = f"{command} {' '.join(flags)}: {call} fails by {errno.errorcode[error]}"
                        yield name, partial(each_call_fails, command=command, flags=flags, before=before, call=call, error=error)
            for words, stdin in GUARDED:
                name = f"{' '.join(words)}: {call} fails by {errno.errorcode[error]}"
                yield name, partial(guarded_call_fails, words=words, stdin=stdin, call=call, error=error)


def all_runs(program, folder):
    """Runs all tests, and gives for each its name and its differences."""
    return all_of("kept", program, folder, tests())
