#!/usr/bin/env python3
"""Looks for the worst case of each command and key by trying: `worst.py COUNTS PROGRAM..`, where PROGRAM runs worst.c
and writes the instructions between its marks to the file COUNTS.

Prints, divided by tabs: `host COMMAND SEQUENCE SITUATION BYTES INSTRUCTIONS PLAIN`, the dearest by the byte of each
command; `key KEY SITUATION INSTRUCTIONS PLAIN`; `call INSTRUCTIONS PLAIN`, what a call costs that does nothing.
Status 1 where ours and plain C differ in what any of the calls left.
"""

import subprocess
import sys
from itertools import product

ROWS, COLUMNS = 48, 160
LAST = ROWS * COLUMNS - 1
CURSORS = {
    "at 1;1": 0,
    "at 1;160": COLUMNS - 1,
    "in the middle": LAST // 2 + COLUMNS // 2,
    "at 48;1": LAST + 1 - COLUMNS,
    "at 48;160": LAST,
}
PAGES = {
    "open": "all unprotected",
    "shut": "all protected",
    "densest": "densest",
    "modified": "densest, all modified",
    "required": "densest, all modified and required",
    "first": "1;1 alone unprotected",
    "last": "48;160 alone unprotected",
    "numeric": "all numeric",
    "alphabetic": "all alphabetic",
}
HOST_PAGES = ("open", "shut", "densest")
EVERYWHERE = list(product(HOST_PAGES, CURSORS, ("none", "all"), "01"))
# where nothing of the page should matter
SOME = [("open", "at 1;1", "none", "0"), ("densest", "at 48;160", "all", "1"), ("shut", "in the middle", "all", "0")]

# Before each sequence the pen is changed, here and in what is taken off: then both calls write the record.
PREFIX = b"\x1b[1m"

NUMBERS = (*range(11), 20, 24, 47, 48, 49, 80, 99, 100, 159, 160, 161, 999, 5000, 9999)
VALUES = ["", *map(str, NUMBERS), "00001"]
PAIRS = [f"{a};{b}" for a, b in product(("", "1", "24", "48", "49", "9999"), ("", "1", "80", "160", "161", "9999"))]
LONGEST = ";".join(["9999"] * 8)
LISTS = ["1;4;5;7;8;1;4;5", "1;4;5;7;8;1;4;99", "6;7", ";;;;;;;", *(";".join(n * 8) for n in "0168"), LONGEST]
# refused as spoilt, whatever the final byte
SPOILT = ["10000", "?", " ", "1;2;3;4;5;6;7;8;9", LONGEST + ";", LONGEST + "?", *"> >5 >9999 >10006 >6; >>6 0>".split()]
# what h and l take after ESC [ >
PRIVATE = ("6", "06", "000000006")

# the values that are taken, of commands that take few
TAKEN = {
    **{"W": (0, 2, 5), "J": (0, 1, 2), "K": (0, 1, 2), "m": (0, 1, 4, 5, 7, 8), "h": (6,), "l": (6,), "n": (5, 6)},
    **{"o": (0, 1, 3, 4, 20)},
}
MOST = {**dict.fromkeys("ABCDEFGdIZWJKno", 1), **dict.fromkeys("Hf", 2), **dict.fromkeys("mhl", 8)}
NAMES = {
    **{"A": "up", "B": "down", "C": "right", "D": "left", "E": "down, column 1", "F": "up, column 1", "G": "column"},
    **{"d": "row", "H": "row, column", "f": "row, column", "I": "tab stops on", "Z": "tab stops back"},
    **{"W": "tab stops", "J": "erase page", "K": "erase row", "m": "pen"},
    **{"h": "erasure mode set", "l": "erasure mode reset", "n": "report", "o": "area"},
}
PRIVATE_NAMES = {"h": "Send key: what changed", "l": "Send key: the whole form"}
ESCAPES = {
    **{"D": "down", "E": "down, column 1", "M": "up", "H": "set tab stop", "V": "pen protected"},
    **{"W": "pen unprotected", "S": "send a full block", "c": "as fresh"},
    **{"`": "manual input disabled", "b": "enabled"},
}
CONTROLS = {0x08: "left", 0x09: "tab", 0x0A: "down", 0x0D: "column 1"}
UNKNOWN = "refused: unknown command"
ARGUMENT = "refused: argument"
BROKEN = "refused: spoilt or broken off"
HIGH = "refused: 80 to FF"


def is_taken(final, arguments):
    """A listed command with these arguments is done and not refused."""
    numbers = [int(a or 0) for a in arguments.split(";")]
    if len(numbers) > MOST[final]:
        return False
    if final in TAKEN:
        return all(n in TAKEN[final] for n in numbers)
    row, column = (numbers + [0])[:2]
    if final == "d":
        return row <= ROWS
    return final not in "Hf" or (row <= ROWS and column <= COLUMNS)


def bracket_trials():
    for final in map(chr, range(0x40, 0x7F)):
        listed = final in MOST
        for arguments in VALUES + PAIRS + LISTS if listed else ("", "1", "9999", LONGEST):
            sequence = f"\x1b[{arguments}{final}".encode()
            if not listed:
                yield UNKNOWN, sequence, SOME
            elif is_taken(final, arguments):
                yield f"ESC [ {final}, {NAMES[final]}", sequence, EVERYWHERE
            else:
                yield ARGUMENT, sequence, SOME
        for arguments in SPOILT:
            yield BROKEN, f"\x1b[{arguments}{final}".encode(), SOME
        for arguments in PRIVATE:
            sequence = f"\x1b[>{arguments}{final}".encode()
            if final in PRIVATE_NAMES:
                yield f"ESC [ > {final}, {PRIVATE_NAMES[final]}", sequence, EVERYWHERE
            else:
                yield BROKEN, sequence, SOME


def escape_trials():
    for byte in range(0x30, 0x7F):
        final = chr(byte)
        if final in ESCAPES:
            yield f"ESC {final}, {ESCAPES[final]}", bytes((0x1B, byte)), EVERYWHERE
        elif final != "[":
            yield UNKNOWN, bytes((0x1B, byte)), SOME
        yield UNKNOWN, b"\x1b(" + bytes((byte,)), SOME


def byte_trials():
    yield "text", b"A", EVERYWHERE
    yield "text", b"A" * 64, EVERYWHERE
    for byte, name in CONTROLS.items():
        yield f"{byte:02X}, {name}", bytes((byte,)), EVERYWHERE
    for byte in [*range(0x20), 0x7F]:
        if byte not in CONTROLS and byte != 0x1B:
            yield "other bytes below 20, 7F", bytes((byte,)), SOME
        for begun in (b"\x1b", b"\x1b(", b"\x1b[", b"\x1b[1;2;3;4;5;6;7;8", b"\x1b[?", b"\x1b[>6"):
            name = "18, 1A, 1B: drop a sequence" if byte in (0x18, 0x1A, 0x1B) else BROKEN
            yield name, begun + bytes((byte,)), SOME
    for byte in (0x80, 0x9B, 0xFF):
        for begun in (b"", b"\x1b", b"\x1b[1;2;3;4;5;6;7;8", b"\x1b[>6"):
            yield HIGH, begun + bytes((byte,)), SOME


SEND_ALL = "266 send all"
KEYS = {
    **{"a character": 65, "256 up": 256, "257 down": 257, "258 left": 258, "259 right": 259},
    **{"260 next field": 260, "261 previous field": 261, "262 first unprotected cell": 262},
    **{"263 blank the field": 263, "264 delete": 264, "265 insert": 265},
    **{"266 send changed": 266, SEND_ALL: 266, "268 unlock": 268},
}


class Calls:
    """Calls to make, each once for ours and once for plain C, and what they gave."""

    def __init__(self):
        self.lines, self.places = [], {}

    def add(self, situation, kind, what, full=0):
        page, cursor, stops, erasure = situation
        line = f"{page} {CURSORS[cursor]} {stops} {erasure} {full} {kind} {what}"
        if line not in self.places:
            self.places[line] = len(self.lines)
            self.lines.append(line)
        return self.places[line]

    def make(self, counts, program):
        text = "".join(f"{who} {line}\n" for line in self.lines for who in ("ours", "plain"))
        run = subprocess.run(program, input=text.encode(), stdout=subprocess.PIPE, check=True)
        left = run.stdout.split(b"\n")[:-1]
        with open(counts, encoding="ascii") as file:
            between = [int(line) for line in file]
        if len(left) != 2 * len(self.lines) or len(between) != 2 * len(left):
            sys.exit("worst.py: the program ended early")
        self.instructions = between[1::2]
        wrong = [line for i, line in enumerate(self.lines) if left[2 * i] != left[2 * i + 1]]
        for line in wrong[:10]:
            print(f"worst.py: ours and plain C differ: {line}", file=sys.stderr)
        if wrong:
            sys.exit(1)

    def cost(self, place):
        return self.instructions[2 * place], self.instructions[2 * place + 1]


def shown(sequence):
    """Bytes as the papers write them."""
    if len(sequence) > 1 and sequence == sequence[:1] * len(sequence):
        return f"{len(sequence)} times {chr(sequence[0])}"
    words = [chr(byte) if 0x21 <= byte < 0x7F else " ESC " if byte == 0x1B else f" {byte:02X} " for byte in sequence]
    return " ".join("".join(words).replace("ESC [", "ESC [ ").split())


def told(situation, costs):
    """What of a situation matters: the parts of which another choice alone makes the call cheaper by a fiftieth."""
    page, cursor, stops, erasure = situation
    names = (
        f"page {PAGES[page]}",
        f"cursor {cursor}",
        "all tab stops set" if stops == "all" else "no tab stops set",
        "erasure mode set" if erasure == "1" else "erasure mode reset",
    )
    matter = []
    for part, name in enumerate(names):
        others = [other for other in costs if all(other[i] == situation[i] for i in range(4) if i != part)]
        if min(costs[other] for other in others) <= 0.98 * costs[situation]:
            matter.append(name)
    return ", ".join(matter) or "any"


def main(counts, program):
    calls, hosts, keys = Calls(), [], []
    for name, sequence, situations in [*byte_trials(), *escape_trials(), *bracket_trials()]:
        for situation in situations:
            without = calls.add(situation, "host", PREFIX.hex())
            hosts.append((name, sequence, situation, without, calls.add(situation, "host", (PREFIX + sequence).hex())))
    for name, page, cursor in product(KEYS, PAGES, CURSORS):
        situation = (page, cursor, "none", "0")
        keys.append((name, situation, calls.add(situation, "key", KEYS[name], int(name == SEND_ALL))))
    nothing = calls.add(SOME[0], "host", "18")
    calls.make(counts, program)

    # of each command, the sequence that costs most by the byte, with its costs in all situations
    costs, worst = {}, {}
    for name, sequence, situation, without, place in hosts:
        ours = calls.cost(place)[0] - calls.cost(without)[0]
        costs.setdefault(sequence, {})[situation] = ours
        if name not in worst or ours * len(worst[name][1]) > worst[name][0] * len(sequence):
            worst[name] = ours, sequence, situation, calls.cost(place)[1] - calls.cost(without)[1]
    for name, (ours, sequence, situation, plain) in worst.items():
        print("host", name, shown(sequence), told(situation, costs[sequence]), len(sequence), ours, plain, sep="\t")
    for name in KEYS:
        costs = {situation: calls.cost(place) for pressed, situation, place in keys if pressed == name}
        situation = max(costs, key=lambda situation: costs[situation][0])
        ours, plain = costs[situation]
        print("key", name, told(situation, {other: cost[0] for other, cost in costs.items()}), ours, plain, sep="\t")
    print("call", *calls.cost(nothing), sep="\t")


if __name__ == "__main__":
    main(sys.argv[1], sys.argv[2:])
