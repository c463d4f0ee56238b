#!/usr/bin/env python3
"""stop_at_random.py PROGRAM [TIMES]: kills the program at random moments, runs it again, and looks whether it prints the same.

It makes a mailbox of 5,000 mails and has the program follow it to the end. Then, TIMES times (200 where it is left out), it
starts the program in a fresh folder with the same mailbox, kills it with SIGKILL at a random moment within the time that a
whole run takes, runs it again to the end, and compares what it prints and its status with those of the whole run. It builds
nothing. The status is 0 where all agreed."""
import os
import random
import shutil
import statistics
import subprocess
import sys
import tempfile
import time

MAILS = 5_000
# So long are the texts that the tail is full once on the way, and a second image is saved.
TEXT = "and so on " * 200
WORDS = ["--me", "me@x.org", "--at", "1714564800", "list"]
KEPT = ["box.a", "box.b", "box.tail"]


def mail(number, chance):
    """A mail from one of 60 senders: of a group, a reply, an edit, a deletion, or a plain one, each now and then a copy."""
    sender = f"p{chance.randrange(60)}@x.org"
    earlier = f"<m{chance.randrange(1, number + 1)}@x.org>"
    group = chance.randrange(40)
    form = chance.choice([
        f"Chat-Version: 1.0\nChat-Group-ID: group{group:06}\nChat-Group-Name: Group {group}",
        f"In-Reply-To: {earlier}\nSubject: Note {number}",
        f"Chat-Version: 1.0\nChat-Edit: {earlier}",
        f"Chat-Version: 1.0\nChat-Delete: {earlier}",
        "Chat-Version: 1.0",
    ])
    own = number if chance.randrange(20) else chance.randrange(1, number + 1)
    moment = f"{chance.randrange(1, 29):02} Apr 2024 {chance.randrange(24):02}:{chance.randrange(60):02}:00 +0000"
    return (f"From -\nFrom: {sender}\nTo: me@x.org, p{number % 7}@x.org\nDate: {moment}\n"
            f"Message-ID: <m{own}@x.org>\n{form}\n\ntext {number} {TEXT}\n\n")


def make_mailbox(path):
    chance = random.Random(MAILS)
    with open(path, "w") as mailbox:
        for number in range(1, MAILS + 1):
            mailbox.write(mail(number, chance))


def start(program, folder):
    return subprocess.Popen([program, *WORDS], cwd=folder, stdout=subprocess.PIPE, stderr=subprocess.DEVNULL)


def run(program, folder):
    """What a run to the end prints, and its status."""
    process = start(program, folder)
    put, _ = process.communicate()
    return put, process.returncode


def kept(folder):
    """The sizes of the files of what is kept, as far as they are there."""
    return {name: os.path.getsize(f"{folder}/{name}") for name in KEPT if os.path.exists(f"{folder}/{name}")}


def fresh(room, mailbox):
    folder = tempfile.mkdtemp(dir=room)
    shutil.copyfile(mailbox, f"{folder}/box.mbox")
    return folder


def whole_run(program, room, mailbox):
    """What a whole run prints with its status, and the seconds that it takes as a rule."""
    ends, seconds = [], []
    for _ in range(5):
        folder = fresh(room, mailbox)
        begin = time.monotonic()
        ends.append(run(program, folder))
        seconds.append(time.monotonic() - begin)
        sizes = kept(folder)
        shutil.rmtree(folder)
    if ends != [ends[0]] * len(ends):
        sys.exit("two whole runs differ")
    (put, status), middle = ends[0], statistics.median(seconds)
    print(f"a whole run: status {status}, {len(put.splitlines())} lines, {middle:.3f} s; it keeps {sizes}")
    return ends[0], middle


def stopped_run(program, folder, moment):
    """Whether a run was killed at that moment, before it ended."""
    process = start(program, folder)
    time.sleep(moment)
    process.kill()
    process.communicate()
    return process.returncode < 0


def main():
    if len(sys.argv) not in (2, 3):
        sys.exit(__doc__)
    program, times = os.path.abspath(sys.argv[1]), int((sys.argv + [200])[2])
    killed = begun = agreed = 0
    with tempfile.TemporaryDirectory() as room:
        mailbox = f"{room}/mailbox"
        make_mailbox(mailbox)
        wanted, seconds = whole_run(program, room, mailbox)
        for _ in range(times):
            folder = fresh(room, mailbox)
            moment = random.uniform(0, seconds)
            on_its_way = stopped_run(program, folder, moment)
            killed += on_its_way
            sizes = kept(folder)
            begun += on_its_way and bool(sizes)
            found = run(program, folder)
            agreed += found == wanted
            if found != wanted:
                print(f"killed after {moment:.3f} s, with {sizes}: status {found[1]}, {found[0][:200]!r}")
            shutil.rmtree(folder)
    print(f"{killed} of {times} kills came while it ran, {begun} of them after it had begun to keep; {agreed} of {times} agreed")
    sys.exit(agreed != times)


main()
