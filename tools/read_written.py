#!/usr/bin/env python3
"""Reads the mails that the program `cards` writes with Python's `email`, and compares what both say of each.

    tools/read_written.py crates/cards/out/cards

`cards` plays `written.cards`, shows each mail that it writes, and then the card that it reads of it. Here the mail is read
once more: who it is from and to, its date, its ids, its subject, its text, and what it asks for have to be those of the card.
"""

import email
import re
import subprocess
import sys
from email.header import decode_header, make_header
from email.utils import getaddresses, parsedate_to_datetime
from pathlib import Path

SCRIPT = Path(__file__).resolve().parent.parent / "crates/cards/data/written.cards"
PENCIL = "\u270f\ufe0f"
WORDS = (
    "id|from|name|to|date|reply to|reference|group name|group|added|removed|renamed|edit of|deletes|timer|subject|text|"
    "receipt of|reaction"
)
ESCAPES = {"n": "\n", "r": "\r", "t": "\t", "\\": "\\"}


def plain(text):
    """A text of the transcript, without its quotes and escapes."""
    unescaped = lambda it: ESCAPES.get(it[1]) or chr(int(it[1], 16))
    return re.sub(r"\\([nrt\\]|[0-9a-f]{2})", unescaped, text[1:-1]) if text.startswith('"') else text


def written(transcript):
    """Each mail of a transcript, with the lines of its card."""
    for answer in re.split(r"^written.*\n", transcript, flags=re.M)[1:]:
        mail, found, card = re.sub(r"^# .*\n", "", answer, flags=re.M).partition("\nid ")
        if found:
            yield mail + "\n", ("id " + card).splitlines()


def told_by_card(lines):
    """What a card says, as pairs of a word and a value."""
    found = [re.fullmatch(rf"({WORDS})(?: (.*))?", line) for line in lines]
    return [(it[1], plain(it[2] or "")) for it in found if it]


def decoded(body):
    return str(make_header(decode_header(body)))


def ids(body):
    return re.findall(r"<([^>]*)>", body or "")


def told_by_envelope(mail):
    sender = re.fullmatch(r"(?:(.*) <)?([^<>]*)>?", decoded(mail["From"]), re.S)
    yield "id", ids(mail["Message-ID"])[0]
    yield "from", sender[2]
    yield from (("name", it) for it in [sender[1]] if it)
    yield from (("to", it) for it in dict.fromkeys(addr for _, addr in getaddresses([mail["To"]])))
    yield "date", str(int(parsedate_to_datetime(mail["Date"]).timestamp()))
    yield from (("reply to", it) for it in ids(mail["In-Reply-To"]))
    yield from (("reference", it) for it in ids(mail["References"]))


def told_by_requests(mail):
    yield from (("group", it) for it in mail.get_all("Chat-Group-ID", []))
    yield from (("group name", decoded(it)) for it in mail.get_all("Chat-Group-Name", []))
    yield from (("added", it) for it in mail.get_all("Chat-Group-Member-Added", []))
    yield from (("removed", it) for it in mail.get_all("Chat-Group-Member-Removed", []))
    yield from (("renamed", "") for _ in mail.get_all("Chat-Group-Name-Changed", []))
    yield from (("edit of", it) for it in ids(mail["Chat-Edit"]))
    yield from (("deletes", it) for it in ids(mail["Chat-Delete"]))
    yield from (("timer", it) for it in mail.get_all("Ephemeral-Timer", []))
    yield from (("subject", decoded(it)) for it in mail.get_all("Subject", []))


def told_by_content(mail):
    first = next(part for part in mail.walk() if part.get_content_type() == "text/plain")
    text = first.get_payload(decode=True).decode(first.get_content_charset())
    reacts = first.get_content_disposition() == "reaction"
    text = text.removeprefix(PENCIL) if mail["Chat-Edit"] else text
    yield from [("reaction", text)] if reacts else [("text", text)] if text else []
    for part in mail.walk():
        if part.get_content_type() == "message/disposition-notification":
            yield from (("receipt of", it) for it in ids(part.get_payload(0)["Original-Message-ID"]))


def told_by_python(text):
    """What Python reads in a mail, as such pairs."""
    mail = email.message_from_bytes(text.encode())
    return [*told_by_envelope(mail), *told_by_requests(mail), *told_by_content(mail)]


def main(program):
    ran = subprocess.run([program, SCRIPT], stdout=subprocess.PIPE, check=True)
    mails = list(written(ran.stdout.decode()))
    wrong = 0
    for mail, lines in mails:
        here, there = sorted(told_by_card(lines)), sorted(told_by_python(mail))
        if here != there:
            wrong += 1
            print(f"the card says {here}\nPython says   {there}")
    print(f"{len(mails)} mails that were written; {wrong} read otherwise by Python")
    return 1 if wrong or not mails else 0


if __name__ == "__main__":
    if len(sys.argv) != 2:
        sys.exit(__doc__)
    sys.exit(main(sys.argv[1]))
