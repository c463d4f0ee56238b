#!/usr/bin/env python3
"""try_real_files.py PROGRAM: runs the program over real files, where no proof can say what the system does.

- With each set of closed standard descriptors, from nothing and over kept state: the answer comes to standard output or
  nowhere, and what is kept is what a run with none closed keeps.
- With a folder, a FIFO, a device or a symbolic link in the place of each file: what is no regular file is a fault at once.
- With words that follow no mailbox, where each file is a FIFO: no file is opened, since to open one would hang.
- With a tail in which one group more has place: that one is appended, and the next commit saves an image and clears the tail.
- With an mbox of which a byte was changed after it was followed: it is refused, and followed on where the byte is put back.

It builds nothing, and prints a line for each run that ends otherwise than it should. The status is 0 where there is none."""
import itertools
import os
import subprocess
import sys
import tempfile

ME = ["--me", "me@x.org"]
LIST = [*ME, "--at", "1714564800", "list"]
FILES = ["box.mbox", "box.steps", "box.a", "box.b", "box.tail"]
KEPT = FILES[2:]
LONGEST = 20  # seconds
LONGEST_TAIL = 8_388_608
IMAGE = 149  # the bytes of a slot of the empty mailbox
GROUP = 112  # the bytes of a group of one moment

MAIL = b"""From -
From: Bob <bob@x.org>
To: me@x.org
Date: Wed, 01 May 2024 10:00:00 +0000
Message-ID: <m1@x.org>
Chat-Version: 1.0

Hi

"""
ANSWER = b"single:bob@x.org | Bob | fresh 1 | 2024-05-01 10:00 | Hi\n"
USAGE = b"chats: usage: "

failures = []
runs = 0


def run(program, folder, words, closed=(), before=lambda: None):
    """How a run ends that begins with these descriptors closed: its status, and what came to standard output. Its process
    does what comes before."""
    global runs
    runs += 1
    with tempfile.TemporaryFile() as out:
        process = subprocess.Popen([program, *words], cwd=folder, stdin=subprocess.DEVNULL, stdout=out,
                                   stderr=subprocess.DEVNULL,
                                   preexec_fn=lambda: [before(), *(os.close(it) for it in closed)])
        try:
            status = process.wait(LONGEST)
        except subprocess.TimeoutExpired:
            process.kill()
            process.wait()
            status = "hangs"
        out.seek(0)
        return status, out.read()


def kept(folder):
    """The bytes of each file of what is kept, as far as it is there."""
    found = {}
    for name in KEPT:
        if os.path.isfile(f"{folder}/{name}"):
            with open(f"{folder}/{name}", "rb") as it:
                found[name] = it.read()
    return found


def expect(what, found, wanted):
    if found != wanted:
        failures.append(what)
        print(f"{what}: {shown(found)}, and not {shown(wanted)}")


def shown(value, longest=200):
    text = repr(value)
    return text if len(text) <= longest else f"{text[:longest]}.."


def new_folder(room, mails=1):
    folder = tempfile.mkdtemp(dir=room)
    with open(f"{folder}/box.mbox", "wb") as mbox:
        mbox.write(MAIL * mails)
    return folder


def try_closed(program, room, closed, runs_before):
    """A run with these descriptors closed, after so many runs with none closed, beside one with none closed."""
    one, other = new_folder(room), new_folder(room)
    for _ in range(runs_before):
        run(program, one, LIST)
        run(program, other, LIST)
    name = f"closed {closed or 'none'}, {'over kept state' if runs_before else 'from nothing'}"
    run(program, other, LIST)
    expect(name, run(program, one, LIST, closed), (5, b"") if 1 in closed else (0, ANSWER))
    expect(f"{name}: what is kept", kept(one), kept(other))
    expect(f"{name}: the next run", run(program, one, LIST), (0, ANSWER))


def try_closed_and_refused(program, room, closed):
    """A run with these descriptors closed that puts a line in place of an answer, over kept state."""
    folder = new_folder(room)
    run(program, folder, LIST)
    was = kept(folder)
    os.remove(f"{folder}/box.mbox")
    name = f"closed {closed or 'none'}, no mbox"
    expect(name, run(program, folder, LIST, closed), (2, b"" if 1 in closed else b"chats: read fault: mbox\n"))
    expect(f"{name}: what is kept", kept(folder), was)


def fault_of(name):
    """The status and the line where a file of this name is no regular file."""
    if name in KEPT:
        return 4, b"chats: disk fault\n"
    return 2, b"chats: read fault: %s\n" % name.removeprefix("box.").encode()


def replace(path, make):
    if os.path.lexists(path):
        os.remove(path)
    make(path)


# What may stand in the place of a regular file.
ODD = {
    "a folder": os.mkdir,
    "a FIFO": os.mkfifo,
    "a device": lambda path: os.symlink("/dev/zero", path),
    "a link to a folder": lambda path: os.symlink("/", path),
}


def try_odd(program, room, name, kind):
    """Something else in the place of one file, from nothing and over kept state."""
    for runs_before in (0, 1):
        folder = new_folder(room)
        for _ in range(runs_before):
            run(program, folder, LIST)
        replace(f"{folder}/{name}", ODD[kind])
        when = "over kept state" if runs_before else "from nothing"
        expect(f"{kind} as {name}, {when}", run(program, folder, LIST), fault_of(name))


def try_links(program, room):
    """Symbolic links to regular files are followed; one that leads nowhere is an absent file."""
    folder, far = new_folder(room), tempfile.mkdtemp(dir=room)
    os.rename(f"{folder}/box.mbox", f"{far}/mbox")
    os.symlink(f"{far}/mbox", f"{folder}/box.mbox")
    for name in KEPT:
        os.symlink(f"{far}/{name}", f"{folder}/{name}")
    expect("links to absent files", run(program, folder, LIST), (0, ANSWER))
    expect("links to files", run(program, folder, LIST), (0, ANSWER))
    expect("links: what is kept", sorted(os.listdir(far)), ["box.a", "box.tail", "mbox"])
    os.remove(f"{far}/mbox")
    expect("a link to an absent mbox", run(program, folder, LIST), fault_of("box.mbox"))


def try_words(program, room):
    """Words that follow no mailbox, where all files are FIFOs."""
    folder = tempfile.mkdtemp(dir=room)
    for name in FILES:
        os.mkfifo(f"{folder}/{name}")
    for words in [], ["--help"], [*ME, "lists"]:
        status, put = run(program, folder, words)
        expect(f"words {words}", (status, put[:len(USAGE)]), (1, USAGE))
    status, put = run(program, folder, [*ME, "trial", "7"])
    expect("trial 7", (status, put[:9]), (0, b"trial 7: "))


def old_group(size):
    """A group with base 0, which each slot holds already, of so many bytes."""
    rest = size - 13
    return b"\x01" + bytes(8) + rest.to_bytes(4, "big") + bytes(rest)


def sizes(folder):
    return [os.path.getsize(f"{folder}/{name}") for name in KEPT]


def try_full_tail(program, room):
    """A commit that makes the tail as long as it may be is appended, and the next one is saved."""
    folder = new_folder(room, mails=0)
    run(program, folder, LIST)
    for name, content in ("box.b", b""), ("box.tail", old_group(LONGEST_TAIL - GROUP)):
        with open(f"{folder}/{name}", "wb") as it:
            it.write(content)
    expect("a tail with place for a group", run(program, folder, LIST), (0, b""))
    expect("a tail with place for a group: sizes", sizes(folder), [IMAGE, 0, LONGEST_TAIL])
    expect("a full tail", run(program, folder, LIST), (0, b""))
    expect("a full tail: sizes", sizes(folder), [IMAGE, IMAGE, 0])


def try_changed_mbox(program, room):
    """An mbox that was rewritten is not followed, and what is kept stays; put back, it is followed on."""
    folder = new_folder(room)
    run(program, folder, LIST)
    was = kept(folder)
    for text, answer in (b"Ho", (13, b"chats: other mbox\n")), (b"Hi", (0, ANSWER)):
        with open(f"{folder}/box.mbox", "wb") as it:
            it.write(MAIL.replace(b"Hi", text))
        expect(f"an mbox that says {text}", run(program, folder, LIST), answer)
        if answer[0]:
            expect(f"an mbox that says {text}: what is kept", kept(folder), was)


def main():
    if len(sys.argv) != 2:
        sys.exit(__doc__)
    program = os.path.abspath(sys.argv[1])
    with tempfile.TemporaryDirectory() as room:
        for closed in itertools.chain.from_iterable(itertools.combinations((0, 1, 2), n) for n in range(4)):
            for runs_before in (0, 1):
                try_closed(program, room, closed, runs_before)
            try_closed_and_refused(program, room, closed)
        for name, kind in itertools.product(FILES, ODD):
            try_odd(program, room, name, kind)
        try_links(program, room)
        try_full_tail(program, room)
        try_changed_mbox(program, room)
        try_words(program, room)
    end("over real files")


def end(what):
    """Says how many runs there were, and ends with status 0 where each was as it should be."""
    print(f"{runs} runs {what}; {len(failures)} things were otherwise than they should be")
    sys.exit(bool(failures))


if __name__ == "__main__":
    main()
