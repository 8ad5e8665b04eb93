#!/usr/bin/env python3
"""Prints the outcomes that hostile_tests has to print, by a reader of its own.

    python3 reference.py     in the folder of the crate

It takes the items and the names of the states from src/, and nothing else. The rules are those of the ERTS
User's Guide, External Term Format and Distribution Protocol, within the profile of docs/STANDARD.md.
"""

import re

MANDATORY_FLAGS = 0x40305010C
# The digest of the cookie over the word that each event draws.
DIGEST = bytes.fromhex("57EDF4A22BE3C955AC49DA2E2107B67A")
STATUSES = {b"ok", b"ok_simultaneous", b"nok", b"not_allowed", b"alive", b"true", b"false"}
LETTERS = set(b"abcdefghijklmnopqrstuvwxyzABCDEFGHIJKLMNOPQRSTUVWXYZ0123456789_-")
# For each state, in its order: the item that it awaits, and the creation in which it knows its peer.
STATES = [
    *(("status", 0), ("challenge", 0), ("ack", 0)),
    *(("name", 0), ("name", 0), ("name", 0), ("answer", 0), ("turn", 0), ("reply", 0)),
    *(("frame", 3), ("frame", 1), ("frame", 3), ("frame", 3)),
    *(("nothing", 0), ("nothing", 0)),
]
READERS = {"status": "dialer", "challenge": "dialer", "ack": "dialer", "frame": "frame", "nothing": None}


class Unreadable(Exception):
    """The bytes at this place spell no term."""


# ---- terms: each reader returns a term and the place behind it


def number(data, at, size, order="big"):
    if at + size > len(data):
        raise Unreadable
    return int.from_bytes(data[at : at + size], order)


def chunk(data, at, size):
    if at + size > len(data):
        raise Unreadable
    return data[at : at + size]


def atom(data, at):
    tag = number(data, at, 1)
    if tag not in (100, 115, 118, 119):
        raise Unreadable
    width = 2 if tag in (100, 118) else 1
    size = number(data, at + 1, width)
    at += 1 + width
    try:
        text = chunk(data, at, size).decode("latin-1" if tag in (100, 115) else "utf-8")
    except UnicodeDecodeError:
        raise Unreadable from None
    if len(text) > 255:
        raise Unreadable
    return ("atom", text), at + size


def big(data, at):
    size, sign = number(data, at, 1), number(data, at + 1, 1)
    if size > 16 or sign > 1:
        raise Unreadable
    value = number(data, at + 2, size, "little")
    value = -value if sign else value
    if not -(2**127) <= value < 2**127:
        raise Unreadable
    return ("integer", value), at + 2 + size


def terms(data, at, count):
    found = []
    for _ in range(count):
        one, at = term(data, at)
        found.append(one)
    return found, at


def pid(data, at):
    node, at = atom(data, at)
    ids = tuple(number(data, at + 4 * place, 4) for place in range(3))
    return ("pid", node[1], *ids), at + 12


def reference(data, at):
    words = number(data, at, 2)
    _, at = atom(data, at + 2)
    number(data, at, 4)
    if not 1 <= words <= 5:
        raise Unreadable
    chunk(data, at + 4, 4 * words)
    return ("reference",), at + 4 + 4 * words


def term(data, at):
    tag = number(data, at, 1)
    at += 1
    if tag == 97:
        return ("integer", number(data, at, 1)), at + 1
    if tag == 98:
        value = number(data, at, 4)
        return ("integer", value - 2**32 if value >= 2**31 else value), at + 4
    if tag == 110:
        return big(data, at)
    if tag in (100, 115, 118, 119):
        return atom(data, at - 1)
    if tag in (104, 105):
        width = 1 if tag == 104 else 4
        found, at = terms(data, at + width, number(data, at, width))
        return ("tuple", found), at
    if tag == 106:
        return ("list",), at
    if tag == 108:
        _, at = terms(data, at + 4, number(data, at, 4))
        _, at = term(data, at)
        return ("list",), at
    if tag in (107, 109):
        width = 2 if tag == 107 else 4
        size = number(data, at, width)
        chunk(data, at + width, size)
        return ("bytes",), at + width + size
    if tag == 88:
        return pid(data, at)
    if tag == 90:
        return reference(data, at)
    raise Unreadable


def outer_term(data, at):
    if number(data, at, 1) != 131:
        raise Unreadable
    return term(data, at + 1)


# ---- frames


def signal(control):
    """Returns the sender, the receiver and whether a message follows, or None where it is no signal."""
    if control[0] != "tuple" or not control[1] or control[1][0][0] != "integer":
        return None
    operation, fields = control[1][0][1], control[1][1:]
    kinds = [field[0] for field in fields]
    if operation == 2 and len(kinds) == 2 and kinds[1] == "pid":
        return None, fields[1], True
    if operation == 6 and len(kinds) == 3 and kinds[0] == "pid" and kinds[2] == "atom":
        return fields[0], None, True
    if operation == 1 and kinds == ["pid", "pid"]:
        return fields[0], fields[1], False
    if operation in (3, 8) and len(kinds) == 3 and kinds[:2] == ["pid", "pid"]:
        return fields[0], fields[1], False
    if operation in (19, 20) and kinds == ["pid", "pid", "reference"]:
        return fields[0], fields[1], False
    if operation in (19, 20) and kinds == ["pid", "atom", "reference"]:
        return fields[0], None, False
    if operation in (24, 26) and kinds == ["pid", "pid"]:
        return fields[0], fields[1], True
    if operation == 28 and kinds == ["pid", "pid", "reference"]:
        return fields[0], fields[1], True
    if operation == 28 and kinds == ["atom", "pid", "reference"]:
        return None, fields[1], True
    if operation == 21 and len(kinds) == 4 and kinds[:3] == ["pid", "pid", "reference"]:
        return fields[0], fields[1], False
    if operation == 21 and len(kinds) == 4 and kinds[:3] == ["atom", "pid", "reference"]:
        return None, fields[1], False
    if operation in (35, 36) and kinds == ["integer", "pid", "pid"] and 1 <= fields[0][1] < 2**64:
        return fields[1], fields[2], False
    return None


def signal_in(frame):
    if frame[0] != 112:
        return "fault", 6
    try:
        control, at = outer_term(frame, 1)
    except Unreadable:
        return "fault", 9
    found = signal(control)
    if found is None:
        return "fault", 7
    if found[2]:
        try:
            _, at = outer_term(frame, at)
        except Unreadable:
            return "fault", 9
    return ("fault", 7) if at != len(frame) else ("signal", found[0], found[1])


def read_frame(data):
    if len(data) < 4:
        return ("none",)
    size = int.from_bytes(data[:4], "big")
    if size > 1048576:
        return "fault", 8
    if len(data) < 4 + size:
        return ("none",)
    return signal_in(data[4 : 4 + size]) if size else ("tick",)


# ---- messages of the handshake


def is_name(text):
    if len(text) > 64 or text.count(b"@") != 1:
        return False
    name, host = text.split(b"@")
    return bool(name) and bool(host) and set(name) <= LETTERS and set(host) <= LETTERS | {ord(".")}


def introduction(kind, rest, width):
    """send_name and send_challenge: fields of so many bytes, and a name behind its length."""
    if len(rest) < width + 2:
        return "fault", 10
    size = int.from_bytes(rest[width : width + 2], "big")
    name = rest[width + 2 : width + 2 + size]
    if len(name) < size or not is_name(name):
        return "fault", 10
    return kind, int.from_bytes(rest[:8], "big"), name


def read_message(reader, data):
    if len(data) < 2 or len(data) < 2 + int.from_bytes(data[:2], "big"):
        return ("none",)
    body = data[2 : 2 + int.from_bytes(data[:2], "big")]
    letter, rest = body[:1], body[1:]
    if letter == b"s" and rest in STATUSES:
        return "status", rest
    if letter == b"r" and len(rest) == 20:
        return "reply", rest[4:]
    if letter == b"a" and len(rest) == 16:
        return "ack", rest
    if letter == b"N" and reader == "acceptor":
        return introduction("name", rest, 12)
    if letter == b"N":
        return introduction("challenge", rest, 16)
    return "fault", 10


def read(reader, data):
    return read_frame(data) if reader == "frame" else read_message(reader, data)


# ---- the due outcome at a side


def frame_due(creation, found):
    if found[0] == "tick":
        return "taken"
    _, sender, receiver = found
    is_from_peer = sender is None or (sender[1] == "b@h" and sender[4] <= creation)
    return "taken" if is_from_peer and (receiver is None or is_spawned(receiver)) else "forged"


def is_spawned(receiver):
    _, node, identifier, serial, born = receiver
    is_known = born == 0 or (born == 1 and identifier == 1)
    return node == "a@h" and serial == 0 and identifier > 0 and is_known


def status_due(awaits, status):
    if awaits == "status":
        taken, refused = (b"ok", b"ok_simultaneous", b"alive"), (b"nok", b"not_allowed")
    else:
        taken, refused = (b"true",), (b"false",)
    return "taken" if status in taken else 14 if status in refused else 10


def message_due(awaits, found):
    if found[0] == "status" and awaits in ("status", "answer"):
        return status_due(awaits, found[1])
    if found[0] != awaits:
        return 10
    if awaits in ("ack", "reply"):
        return "taken" if found[1] == DIGEST else 13
    _, flags, name = found
    if name != b"b@h":
        return 20
    return "taken" if flags & MANDATORY_FLAGS == MANDATORY_FLAGS else 11


def due(awaits, creation, data):
    reader = READERS.get(awaits, "acceptor")
    if reader is None:
        return "unread"
    found = read(reader, data)
    if found[0] == "none":
        return "none"
    if found[0] == "fault":
        return found[1]
    return frame_due(creation, found) if reader == "frame" else message_due(awaits, found)


# ---- the items and the states of src/, and what is printed


def bytes_of(literal):
    """Returns the bytes of a literal of Rust: b"..", or &[..] of decimal numbers."""
    if literal.startswith("&"):
        return bytes(int(word) for word in re.findall(r"\d+", literal))
    text = re.sub(r"\\0", r"\\x00", literal[2:-1])
    return text.encode().decode("unicode_escape").encode("latin-1")


def items():
    with open("src/items.rt", encoding="utf-8") as file:
        source = file.read()
    literal = r'(b"(?:[^"\\]|\\.)*"|&\[[\d, ]+\])'
    constants = {name: bytes_of(text) for name, text in re.findall(rf"const (\w+): &\[u8\] =\s*{literal}", source)}
    row = rf'name: "([^"]+)",\s*reader: Reader::(\w+),\s*bytes: (?:{literal}|(\w+)),'
    rows = re.findall(row, source)
    reader_of = {"Dialer": "dialer", "Acceptor": "acceptor", "Connected": "frame"}
    return [
        (reader_of[reader], name, bytes_of(text) if text else constants[constant])
        for name, reader, text, constant in rows
    ]


def replaced(data):
    """Yields the bytes with each of them replaced by each value."""
    for at, old in enumerate(data):
        for value in range(256):
            if value != old:
                yield data[:at] + bytes([value]) + data[at + 1 :]


def print_codec(reader, name, data):
    kinds = [read(reader, changed)[0] for changed in replaced(data)]
    none, refused = kinds.count("none"), kinds.count("fault")
    taken = len(kinds) - none - refused
    print(f"{name}: with a byte replaced {none} not whole, {taken} read, {refused} refused; 0 wrong")


def print_state(name, awaits, creation, all_items):
    counts = {}
    for reader, _, data in all_items:
        if READERS.get(awaits, "acceptor") not in (None, reader):
            continue
        for case in [data[:size] for size in range(len(data) + 1)] + list(replaced(data)):
            outcome = due(awaits, creation, case)
            counts[outcome] = counts.get(outcome, 0) + 1
    unread, none, taken, forged = (counts.get(kind, 0) for kind in ("unread", "none", "taken", "forged"))
    print(f"{name}: 0 wrong")
    print(f"    {unread} unread, {none} not whole, {taken} taken, {forged} forged")
    for fault in range(21):
        if fault in counts:
            print(f"    {counts[fault]} broken by fault {fault}")


def main():
    all_items = items()
    for reader, name, data in all_items:
        print_codec(reader, name, data)
    with open("src/states.rt", encoding="utf-8") as file:
        source = file.read()
    names = {constant: name for constant, name in re.findall(r'const (\w+): State = State \{\s*name: "([^"]+)"', source)}
    rows = re.findall(r'^    (?:(\w+),|State \{\n        name: "([^"]+)",)$', source[source.index("pub const ALL") :], re.M)
    for (constant, name), (awaits, creation) in zip(rows, STATES, strict=True):
        print_state(name or names[constant], awaits, creation, all_items)


main()
