#!/usr/bin/env python3
"""try_sync.py PROGRAM: looks by strace at the calls of the system that the program makes on the state files.

- Each change of a state file, a write or a cut, is synced before the answer comes to standard output, and none comes after:
  of an image in box.a, of groups in box.tail, and of an image in box.b with the tail cleared.
- A call that the system refuses is a fault, and is not taken for an end, for an absent file or for a success. A run after it
  goes on from what is kept.

It needs strace, which is a package of Debian: apt-get install strace. It builds nothing, and prints a line for each run that
ends otherwise than it should. The status is 0 where there is none."""
import os
import re
import shutil
import subprocess
import sys
import tempfile

sys.dont_write_bytecode = True

from try_real_files import ANSWER, GROUP, KEPT, LIST, LONGEST_TAIL, end, expect, new_folder, old_group, run

CALL = re.compile(r"(?:\d+ +)?(\w+)\((\d+)<([^>]*)>")
CHANGES = {"write", "pwrite64", "writev", "ftruncate"}
SYNCS = {"fsync"}

READ_FAULT = (2, b"chats: read fault: mbox\n")
DISK_FAULT = (4, b"chats: disk fault\n")

# The calls that are refused in a run over an image and a full tail: of which file, which call, from which one on, and how the
# run ends. The first statx looks what stands there, and the second asks for the size.
REFUSED = [
    ("box.mbox", "statx", 1, "EACCES", READ_FAULT),
    ("box.mbox", "openat", 1, "EIO", READ_FAULT),
    ("box.mbox", "read", 1, "EIO", READ_FAULT),
    ("box.mbox", "read", 2, "EIO", READ_FAULT),
    ("box.a", "statx", 2, "EIO", DISK_FAULT),
    ("box.a", "openat", 1, "EMFILE", DISK_FAULT),
    ("box.a", "read", 1, "EIO", DISK_FAULT),
    ("box.a", "read", 2, "EIO", DISK_FAULT),
    ("box.a", "fsync", 1, "EIO", DISK_FAULT),
    ("box.b", "statx", 1, "EACCES", DISK_FAULT),
    ("box.b", "openat", 1, "ENOSPC", DISK_FAULT),
    ("box.b", "write", 1, "ENOSPC", DISK_FAULT),
    ("box.b", "fsync", 1, "EIO", DISK_FAULT),
    ("box.b", "fsync", 2, "EIO", DISK_FAULT),
    ("box.tail", "read", 1, "EIO", DISK_FAULT),
    ("box.tail", "lseek", 1, "EIO", DISK_FAULT),
    ("box.tail", "ftruncate", 1, "EIO", DISK_FAULT),
    ("box.tail", "fsync", 1, "EIO", DISK_FAULT),
]


def fill_tail(folder):
    """A tail in which one group more has place."""
    with open(f"{folder}/box.tail", "wb") as it:
        it.write(old_group(LONGEST_TAIL - GROUP))


def calls_of(strace, program, folder):
    """The calls of a run in order: what was called, on which file. What is no path of ours is the output."""
    log = f"{folder}/strace.log"
    traced = ",".join(sorted(CHANGES | SYNCS))
    expect("a traced run", run(strace, folder, ["-f", "-y", "-e", f"trace={traced}", "-o", log, program, *LIST]), (0, ANSWER))
    with open(log, encoding="utf-8", errors="replace") as it:
        found = [CALL.match(line) for line in it]
    os.remove(log)
    return [(call[1], os.path.basename(call[3]) if call[2] != "1" else "output") for call in found if call]


def try_order(what, calls, changed):
    """These files are changed, each of their changes is synced before the answer, and no change comes after it."""
    answers = [at for at, (name, file) in enumerate(calls) if file == "output"]
    expect(f"{what}: answers", len(answers), 1)
    first = answers[0] if answers else len(calls)
    last = {file: at for at, (name, file) in enumerate(calls) if name in CHANGES and file in KEPT}
    expect(f"{what}: changed files", sorted(last), changed)
    for file, at in last.items():
        synced = any(name in SYNCS and it == file for name, it in calls[at:first])
        expect(f"{what}: {file} is synced before the answer", synced, True)


def try_syncs(strace, program, room):
    """An image, a group, and an image after a full tail, which is cleared."""
    folder = new_folder(room)
    try_order("from nothing", calls_of(strace, program, folder), ["box.a"])
    try_order("over an image", calls_of(strace, program, folder), ["box.tail"])
    fill_tail(folder)
    try_order("the last group", calls_of(strace, program, folder), ["box.tail"])
    try_order("a full tail", calls_of(strace, program, folder), ["box.b", "box.tail"])


def refused(strace, program, folder, file, call, first, error):
    """How a run ends in which the system refuses this call on this file from the first of these on."""
    path = os.path.realpath(f"{folder}/{file}")
    return run(strace, folder, ["-f", "-o", "/dev/null", "-P", path, "-P", file, "-e", f"trace={call}",
                                "-e", f"inject={call}:error={error}:when={first}+", program, *LIST])


def try_refused(strace, program, room):
    """A call that the system refuses, where an image is due in box.b and the tail is cleared, and the run after it."""
    for file, call, first, error, ending in REFUSED:
        folder = new_folder(room)
        run(program, folder, LIST)
        fill_tail(folder)
        run(program, folder, LIST)
        what = f"{call} {first} of {file} refused"
        expect(what, refused(strace, program, folder, file, call, first, error), ending)
        expect(f"{what}: the next run", run(program, folder, LIST), (0, ANSWER))


def main():
    if len(sys.argv) != 2:
        sys.exit(__doc__)
    strace = shutil.which("strace")
    if not strace:
        sys.exit("try_sync.py needs strace, and it is not there: apt-get install strace")
    program = os.path.abspath(sys.argv[1])
    with tempfile.TemporaryDirectory() as room:
        try_syncs(strace, program, room)
        try_refused(strace, program, room)
    end("under strace")


main()
