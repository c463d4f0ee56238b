#!/usr/bin/env python3
"""try_memory.py CHATS TOLD: refuses memory to the built programs `chats` and `told`, one allocation at a time.

- A run of `chats` over the five mails of three chats, from nothing and over kept state: it ends with the status of memory and
  its line, or none, or else with the very answer; and the next run, to which none is refused, gives the answer.
- `told` over scripts of late mails and acting ones. An engine to which memory is refused is built anew and makes the change
  then, so where the script goes on its pages are those of an engine to which none was refused.

It needs a C compiler, for the few lines that stand between a program and the C library, builds nothing else, and takes some
minutes. It prints how many runs ended in which way, and a line for each that ends otherwise than it should. The status is 0
where there is none."""
import os
import re
import shutil
import subprocess
import sys
import tempfile

sys.dont_write_bytecode = True

from try_real_files import ME, end, expect, new_folder, run

TOP = os.path.dirname(os.path.dirname(os.path.abspath(__file__)))
ROWS = f"{TOP}/crates/rows/data"
TOLD = f"{TOP}/crates/told/data"
LIST = [*ME, "--at", "1714665600", "list"]
NAMES = ["H1", "H2", "H3", "G5", "C1"]
SCRIPTS = ["mails.told", "late.told", "groups.told", "acting.told"]
OUT_OF_MEMORY = (b"", b"chats: out of memory\n")

# The allocation with the number REFUSED is refused, and the file MARK is made then.
LIBRARY = r"""
#include <errno.h>
#include <fcntl.h>
#include <stdlib.h>

void *__libc_malloc(size_t size);
void *__libc_realloc(void *old, size_t size);

static long left;

__attribute__((constructor)) static void begin(void) {
    const char *number = getenv("REFUSED");
    left = number ? atol(number) : 0;
}

static int is_refused(void) {
    if (left == 0 || --left > 0) return 0;
    open(getenv("MARK"), O_CREAT | O_WRONLY, 0600);
    errno = ENOMEM;
    return 1;
}

void *malloc(size_t size) { return is_refused() ? NULL : __libc_malloc(size); }
void *realloc(void *old, size_t size) { return is_refused() ? NULL : __libc_realloc(old, size); }
"""


def built(room):
    source, library = f"{room}/refuse.c", f"{room}/refuse.so"
    with open(source, "w", encoding="utf-8") as it:
        it.write(LIBRARY)
    subprocess.run(["cc", "-shared", "-fPIC", "-O1", "-fno-builtin", "-o", library, source], check=True)
    return library


def refused(program, folder, words, library, number):
    """How a run ends to which this allocation is refused, and whether there was one with this number."""
    mark = f"{folder}/mark"
    env = ["env", f"LD_PRELOAD={library}", f"REFUSED={number}", f"MARK={mark}", program]
    ended = run(env[0], folder, [*env[1:], *words])
    was = os.path.exists(mark)
    if was:
        os.remove(mark)
    return ended, was


def worked_mails():
    """The mails of three chats as an mbox, of those that the scripts of `rows` name."""
    mails = {}
    for script in sorted(os.listdir(ROWS)):
        with open(f"{ROWS}/{script}", encoding="utf-8") as it:
            mails.update(re.findall(r"^mail (\w+)\n(.*?)^\.\n", it.read(), re.S | re.M))
    return "".join(f"From -\n{mails[name]}\n" for name in NAMES).encode()


def folder_of(room, mbox, program, runs_before):
    folder = new_folder(room)
    with open(f"{folder}/box.mbox", "wb") as it:
        it.write(mbox)
    for _ in range(runs_before):
        run(program, folder, LIST)
    return folder


def try_chats(program, room, library, runs_before):
    when = "over kept state" if runs_before else "from nothing"
    mbox = worked_mails()
    answer = run(program, folder_of(room, mbox, program, runs_before), LIST)
    number, ways = 1, {}
    while True:
        folder = folder_of(room, mbox, program, runs_before)
        (status, out), was = refused(program, folder, LIST, library, number)
        if not was:
            break
        ways[status] = ways.get(status, 0) + 1
        if status != 6 or out not in OUT_OF_MEMORY:
            expect(f"chats {when}, allocation {number}", (status, out), answer)
        expect(f"chats {when}, allocation {number}: the next run", run(program, folder, LIST), answer)
        number += 1
    print(f"chats {when}: {number - 1} allocations, by status {ways}")


def try_told(program, room, library):
    folder = tempfile.mkdtemp(dir=room)
    for script in SCRIPTS:
        shutil.copy(f"{TOLD}/{script}", folder)
    whole = run(program, folder, SCRIPTS)
    number, ways = 1, {}
    while True:
        ended, was = refused(program, folder, SCRIPTS, library, number)
        if not was:
            break
        ways[ended[0]] = ways.get(ended[0], 0) + 1
        if ended[0] == 0:
            expect(f"told, allocation {number}", ended, whole)
        number += 1
    print(f"told: {number - 1} allocations, by status {ways}")


def main():
    if len(sys.argv) != 3:
        sys.exit(__doc__)
    chats, told = (os.path.abspath(it) for it in sys.argv[1:])
    with tempfile.TemporaryDirectory() as room:
        library = built(room)
        try_chats(chats, room, library, 0)
        try_chats(chats, room, library, 1)
        try_told(told, room, library)
    end("to which memory was refused")


main()
