#!/usr/bin/env python3
"""try_faults.py PROGRAM: runs the program over real files and devices that fail, which no proof can reach, and follows the
three state files over several runs.

- Which of box.a, box.b and box.tail is made, written and cut in each run: an absent one is made when it is due.
- With a steps file: what it says is done, also in the next run, and a line that is no step is told.
- With a file or a folder that may not be read or written, as another user; left out where the program can't be run as one.
- With a full standard output, /dev/full.
- With files that can't grow: by a limit on their size, whose signal is ignored or kills, and on a full disk, which is left out
  where none can be mounted.
- With a clock before 1970, by faketime; left out where there is none.

After each fault a run without it goes on from what is kept. It builds nothing, and prints a line for each run that ends
otherwise than it should, and for what was left out. The status is 0 where there is none."""
import os
import resource
import shutil
import signal
import subprocess
import sys
import tempfile

sys.dont_write_bytecode = True

from try_real_files import ANSWER, GROUP, LIST, LONGEST_TAIL, MAIL, ME, end, expect, kept, new_folder, old_group, run

NOBODY = 65534
CHAT = ["chat", "single:bob@x.org"]
DISK_FAULT = (4, b"chats: disk fault\n")
SEEN = ANSWER.replace(b"fresh 1", b"fresh 0")


def put(path, content, how="wb"):
    with open(path, how) as it:
        it.write(content)


def made(folder):
    """Which state files are there, and how they are empty."""
    return {name.removeprefix("box."): "some" if content else "none" for name, content in kept(folder).items()}


def goes_on(what, program, folder):
    expect(f"{what}: the next run", run(program, folder, LIST), (0, ANSWER))


def fill_tail(folder):
    """A tail in which one group more has place."""
    put(f"{folder}/box.tail", old_group(LONGEST_TAIL - GROUP))


def try_places(program, room):
    """The three files over several runs: an image in A, groups in the tail, an image in B, and again in an absent A."""
    folder = new_folder(room)
    goes_on("places: from nothing", program, folder)
    expect("places: an image", made(folder), {"a": "some"})
    goes_on("places: over A", program, folder)
    expect("places: a group", made(folder), {"a": "some", "tail": "some"})
    fill_tail(folder)
    goes_on("places: the last group", program, folder)
    expect("places: the last group", made(folder), {"a": "some", "tail": "some"})
    goes_on("places: a full tail", program, folder)
    expect("places: an image in an absent B", made(folder), {"a": "some", "b": "some", "tail": "none"})
    os.remove(f"{folder}/box.a")
    goes_on("places: over B", program, folder)
    fill_tail(folder)
    goes_on("places: the last group after B", program, folder)
    goes_on("places: a full tail after B", program, folder)
    expect("places: an image in an absent A", made(folder), {"a": "some", "b": "some", "tail": "none"})


def try_steps(program, room):
    """What a steps file says is done, from where the last run stopped."""
    folder = new_folder(room)
    steps = f"{folder}/box.steps"
    put(steps, b"at 1714564800\nnext\n")
    goes_on("steps", program, folder)
    put(steps, b"seen 1\n", "ab")
    expect("one step more", run(program, folder, LIST), (0, SEEN))
    put(steps, b"next\n", "ab")
    expect("a step with no mail", run(program, folder, LIST), (3, b"chats: steps line 4\n"))
    put(f"{folder}/box.mbox", MAIL.replace(b"<m1", b"<m2").replace(b"Hi", b"Ho"), "ab")
    expect("its mail", run(program, folder, LIST), (0, ANSWER.replace(b"Hi", b"Ho")))


def as_nobody():
    os.setgroups([])
    os.setgid(NOBODY)
    os.setuid(NOBODY)


def can_run_as_nobody(program, folder):
    try:
        return run(program, folder, [], before=as_nobody)[0] == 1
    except (OSError, subprocess.SubprocessError):
        return False


# What may not be done with a file or folder: its mode, and how a run over kept state ends.
FORBIDDEN = {
    "box.mbox": (0o000, (2, b"chats: read fault: mbox\n")),
    "box.a": (0o444, DISK_FAULT),
    "box.tail": (0o000, DISK_FAULT),
    ".": (0o555, DISK_FAULT),
}


def try_forbidden(program, room):
    """A file or a folder that may not be read or written. The folder is only in the way of a file that is to be made."""
    os.chmod(room, 0o755)
    ours = shutil.copy(program, f"{room}/chats")
    os.chmod(ours, 0o755)
    for name, (mode, ending) in FORBIDDEN.items():
        folder = new_folder(room)
        os.chmod(folder, 0o777)
        if not can_run_as_nobody(ours, folder):
            print("left out: the program can't be run as another user, so no file is forbidden to it")
            return
        for _ in range(0 if name == "." else 2):
            run(ours, folder, LIST, before=as_nobody)
        mode_before = os.stat(f"{folder}/{name}").st_mode
        os.chmod(f"{folder}/{name}", mode)
        expect(f"forbidden: {name}", run(ours, folder, LIST, before=as_nobody), ending)
        os.chmod(f"{folder}/{name}", mode_before)
        expect(f"forbidden: {name}: the next run", run(ours, folder, LIST, before=as_nobody), (0, ANSWER))


def try_full_output(program, room):
    """A standard output that takes nothing."""
    folder = new_folder(room)
    expect("a full output", run(program, folder, LIST, before=lambda: os.dup2(os.open("/dev/full", os.O_WRONLY), 1)), (5, b""))
    goes_on("a full output", program, folder)


def limited(action):
    """Lets no file grow past 100 bytes, which is less than an image."""
    signal.signal(signal.SIGXFSZ, action)
    resource.setrlimit(resource.RLIMIT_FSIZE, (100, 100))


def try_limit(program, room):
    """A limit on the size of files is a fault where its signal is ignored. Else it kills, which costs nothing that is kept."""
    for action, ending in (signal.SIG_IGN, DISK_FAULT), (signal.SIG_DFL, (-signal.SIGXFSZ, b"")):
        folder = new_folder(room)
        expect(f"a limit, {action.name}", run(program, folder, LIST, before=lambda: limited(action)), ending)
        goes_on(f"a limit, {action.name}", program, folder)


def fill(path):
    """Takes all that is free on its disk."""
    with open(path, "wb", buffering=0) as filler:
        try:
            while filler.write(bytes(512)):
                pass
        except OSError:
            pass


def try_full_disk(program, room):
    """A full disk is a fault, from nothing and over kept state, and with room made the next run goes on."""
    disk = tempfile.mkdtemp(dir=room)
    mount = subprocess.run(["mount", "-t", "tmpfs", "-o", "size=64k", "tmpfs", disk], capture_output=True)
    if mount.returncode:
        print("left out: no disk can be mounted, so none is full")
        return
    try:
        folder = new_folder(disk)
        for when in "from nothing", "over kept state":
            fill(f"{disk}/filler")
            expect(f"a full disk, {when}", run(program, folder, LIST), DISK_FAULT)
            os.remove(f"{disk}/filler")
            goes_on(f"a full disk, {when}", program, folder)
    finally:
        subprocess.run(["umount", disk], check=True)


def try_clock(program, room):
    """A clock before 1970 is at 0: a mail then is shown as a run at that moment shows it."""
    faketime = shutil.which("faketime")
    if not faketime:
        print("left out: there is no faketime, so the clock is not set")
        return
    folder, other = new_folder(room), new_folder(room)
    found = run(faketime, folder, ["1960-01-01 00:00:00 UTC", program, *ME, *CHAT])
    expect("a clock before 1970", found, run(program, other, [*ME, "--at", "0", *CHAT]))


def main():
    if len(sys.argv) != 2:
        sys.exit(__doc__)
    program = os.path.abspath(sys.argv[1])
    with tempfile.TemporaryDirectory() as room:
        for each in try_places, try_steps, try_forbidden, try_full_output, try_limit, try_full_disk, try_clock:
            each(program, room)
    end("over real files and devices that fail")


main()
