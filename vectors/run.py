#!/usr/bin/env python3
"""Sends vectors to a program, and compares its answers: vectors/run.py [--whole] FILE.. -- PROGRAM WORD..

README.md has the form of the lines. Without --whole an answer may be the first words of the due line. The exit status
is 1 if an answer differs, or if there are no vectors.
"""

import json
import subprocess
import sys

ASKED = ("role", "own", "peer", "cookie", "challenge", "beside", "hex")
DUE = ("outcome", "place", "number", "length", "written", "answer", "sends")


def digits(text):
    """Returns hexadecimal digits. A word COUNT*DIGITS stands for so many times its digits."""
    words = (word.rpartition("*") for word in text.split(" "))
    return "".join(part * int(count or 1) for count, _, part in words)


def line(vector, members):
    """Returns the words of the members that the vector has, in their order."""
    words = [(name, str(vector[name])) for name in members if name in vector]
    return " ".join(digits(word) if name in ("hex", "written", "sends") else word for name, word in words)


files, program = sys.argv[1 : sys.argv.index("--")], sys.argv[sys.argv.index("--") + 1 :]
vectors = [json.loads(text) for file in files if file != "--whole" for text in open(file, encoding="utf-8")]
rows = [(line(it, ASKED), line(it, DUE)) for it in vectors]
ran = subprocess.run(program, input="".join(f"{asked}\n" for asked, _ in rows).encode(), stdout=subprocess.PIPE)
said = ran.stdout.decode(errors="replace").split("\n")[:-1]
wrong = abs(len(rows) - len(said))
for (asked, due), answer in zip(rows, said):
    if answer != due and ("--whole" in files or not due.startswith(f"{answer} ")):
        wrong += 1
        print(f"{asked[:200]}: {answer[:200]!r}, and not {due[:200]!r}")
print(f"{len(rows)} vectors, {len(said)} answers, {wrong} wrong")
sys.exit(1 if wrong or not rows else 0)
