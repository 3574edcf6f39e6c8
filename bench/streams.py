#!/usr/bin/env python3
"""Host streams to measure with: `streams.py KIND ROWS COLUMNS BYTES` writes one to standard output.

form   a form that is painted now and then, and whose fields are filled again and again
dense  nearly all sequences: moves, pens, tab stops, erasing of a part of a row, a word now and then
text   lines of text, 10 to 79 long, a screenful at a time, scrolling now and then
areas  cells of every area, by ESC [ n o, ESC V and ESC W, many of them required, forms with > that choose what the Send
       key sends, and values and forms that are refused; only compared, not measured

One kind, size and length is one stream, on every machine: the numbers come from the generator below. Nothing in them
makes the terminal send.
"""

import sys

TEN_MEBIBYTES = 10 * 1024 * 1024
WORDS = b"WIND KNOTS ROW PARK STOW GUST PANEL FITTER REMARK NORTH WEST Level since noon 7 12 34.5 08:15 -3 ok".split()


class Numbers:
    """Xorshift, so that no version of Python draws others."""

    def __init__(self, seed):
        self.state = 0x9E3779B97F4A7C15 ^ (seed * 0xBF58476D1CE4E5B9 & (1 << 64) - 1)

    def below(self, limit):
        x = self.state
        x ^= x << 13 & (1 << 64) - 1
        x ^= x >> 7
        x ^= x << 17 & (1 << 64) - 1
        self.state = x
        return (x >> 16) % limit

    def between(self, least, most):
        return least + self.below(most - least + 1)

    def pick(self, choices):
        return choices[self.below(len(choices))]


class Stream:
    def __init__(self, rows, columns, seed):
        self.rows, self.columns = rows, columns
        self.numbers = Numbers(seed)
        self.bytes = bytearray()

    def put(self, text):
        self.bytes += text

    def control(self, final, *arguments):
        self.put(b"\x1b[%s%s" % (b";".join(b"%d" % a for a in arguments), final))

    def go(self, row, column, final=b"H"):
        self.control(final, row, column)

    def text(self, length):
        """Words with blanks between, cut to the length."""
        words = bytearray()
        while len(words) < length:
            words += self.numbers.pick(WORDS) + b" "
        self.put(words[:length])

    def row(self):
        return self.numbers.between(1, self.rows)

    def column(self):
        return self.numbers.between(1, self.columns)


class Form(Stream):
    """60 fields, each with a caption before it, three or more in a row, and a remark that runs over a row's end."""

    VISUAL = (0, 1, 4, 7)

    def __init__(self, rows, columns, seed):
        super().__init__(rows, columns, seed)
        across = columns // 26
        places = [(row, 1 + 26 * place) for row in range(3, rows - 1) for place in range(across)]
        step = max(1, len(places) // 60)
        # row, column of the caption, length of caption and field
        self.fields = [
            (row, column, self.numbers.between(5, 12), self.numbers.between(5, 13))
            for row, column in places[::step][:60]
        ]

    def paint(self):
        self.put(b"\x1b[6h\x1b[2J\x1b[6l")
        self.put(b"\x1bV")
        self.go(1, 1)
        self.text(self.columns)
        for row, column, caption, field in self.fields:
            self.go(row, column)
            self.control(b"m", self.numbers.pick(self.VISUAL))
            self.put(b"\x1bV")
            self.text(caption)
            self.put(b"\x1bW\x1b[0m")
            self.put(b" " * field)
            self.put(b"\x1bV|")
        self.put(b"\x1bW")
        self.go(self.rows - 1, 10)
        self.text(self.columns + 20)

    def fill(self):
        """Every field again; what was in it is erased first, or its row's rest, or it is written over."""
        numbers = self.numbers
        if numbers.below(4) == 0:
            self.put(b"\x1b[2J")
        for row, column, caption, field in self.fields:
            self.go(row, column + caption, numbers.pick((b"H", b"f")))
            if numbers.below(12) == 0:
                self.put(b"\x1b[K")
            if numbers.below(3):
                self.put(b"\x1bW")
                self.control(b"m", numbers.pick(self.VISUAL))
            self.text(max(3, field - numbers.below(2)))
            if numbers.below(20) == 0:
                self.put(b"\r\n")

    def write(self, length):
        while len(self.bytes) < length:
            self.paint()
            for _ in range(self.numbers.between(5, 9)):
                self.fill()


class Dense(Stream):
    MOVES = (b"A", b"B", b"C", b"D", b"E", b"F")
    VISUAL = (0, 1, 4, 5, 7, 8)
    REFUSED = b"\x1b[99;1H \x1b[3m \x1b[?5h \x1b[1;2A \x1b[4n \x1bq \x1b(B \x1b[12\x0b \x9b".split(b" ")

    def one(self):
        numbers = self.numbers
        kind = numbers.below(100)
        if kind < 20:
            self.control(numbers.pick(self.MOVES), *[numbers.between(0, 12)] * numbers.below(2))
        elif kind < 34:
            self.go(self.row(), self.column(), numbers.pick((b"H", b"f")))
        elif kind < 36:
            # the second goes to column 1, the first keeps the column
            self.control(numbers.pick((b"f", b"H")), self.row())
        elif kind < 54:
            self.control(b"m", *[numbers.pick(self.VISUAL) for _ in range(numbers.between(1, 5))])
        elif kind < 60:
            self.control(b"d", self.row())
        elif kind < 66:
            # now and then past the page, which is ignored
            self.control(b"G", numbers.below(self.columns + 5))
        elif kind < 71:
            self.control(numbers.pick((b"I", b"Z")), numbers.between(0, 3))
        elif kind < 74:
            self.put(b"\t")
        elif kind < 78:
            self.put(numbers.pick((b"\x1bH", b"\x1b[W", b"\x1bH", b"\x1b[2W")))
        elif kind < 84:
            self.put(numbers.pick((b"\x1bV", b"\x1bW")))
        elif kind < 88:
            # parts of a row: from the cursor on or up to it
            self.control(b"K", numbers.below(2))
        elif kind < 90:
            self.put(numbers.pick((b"\x08", b"\r", b"\x1b[6h", b"\x1b[6l", b"\x1bD", b"\x1bE", b"\x1bM")))
        elif kind < 92:
            self.put(numbers.pick(self.REFUSED))
        elif kind < 93:
            self.put(numbers.pick((b"\x1bb", b"\x1b`")))
        else:
            self.text(numbers.between(1, 6))

    def write(self, length):
        while len(self.bytes) < length:
            self.one()


class Text(Stream):
    def write(self, length):
        while len(self.bytes) < length:
            self.put(b"\x1b[H")
            # one screenful in eight goes on for three lines more, which scroll
            lines = self.rows - 1 + (3 if self.numbers.below(8) == 0 else 0)
            for _ in range(lines):
                self.text(self.numbers.between(10, 79))
                self.put(b"\r\n")


class Areas(Dense):
    AREAS = (0, 1, 3, 4)
    REQUIRED = (b"\x1b[20o", b"\x1b[20o", b"\x1b[020o", b"\x1b[20o\x1b[20o", b"\x1b[20o\x1b[0m")
    OTHERS = (
        *b"\x1b[o \x1b[03o \x1b[2o \x1b[5o \x1b[19o \x1b[21o \x1b[200o \x1b[3;4o \x1b[20;o \x1b[3;20o".split(b" "),
        *b"\x1b[?3o \x1b[>20o \x1b[3!o \x1b[3\x0bo \x1b[20\x0bo \x1b3o".split(b" "),
    )
    PRIVATE = b"\x1b[>6h \x1b[>6l \x1b[>06l \x1b[>5h \x1b[>6;h \x1b[0>6h \x1b[>>6l \x1b[>6m \x1b[>6\x0b".split(b" ")

    def one(self):
        numbers = self.numbers
        kind = numbers.below(22)
        if kind < 6:
            self.control(b"o", numbers.pick(self.AREAS))
        elif kind < 8:
            self.put(numbers.pick((b"\x1bV", b"\x1bW")))
        elif kind < 10:
            # refused where the pen is protected
            self.put(numbers.pick(self.REQUIRED))
        elif kind < 11:
            self.put(numbers.pick(self.OTHERS if numbers.below(2) else self.PRIVATE))
        elif kind < 13:
            self.control(b"m", numbers.pick(self.VISUAL))
        elif kind < 15:
            self.go(self.row(), self.column())
        elif kind < 16:
            self.put(numbers.pick((b"\x1b[K", b"\x1b[1K", b"\x1b[6h", b"\x1b[6l", b"\x1bD", b"\x1bM")))
        else:
            self.text(numbers.between(1, 12))


KINDS = {"form": (Form, 1), "dense": (Dense, 2), "text": (Text, 3), "areas": (Areas, 4)}


def stream(kind, rows, columns, length=TEN_MEBIBYTES):
    maker, seed = KINDS[kind]
    made = maker(rows, columns, seed)
    made.write(length)
    return bytes(made.bytes[:length])


def shares(made):
    """How many of a hundred bytes are text, inside a sequence, and final bytes or controls: a look at a stream."""
    text = inside = other = 0
    in_sequence = after_escape = False
    for byte in made:
        if byte == 0x1B:
            in_sequence, after_escape = True, True
            inside += 1
        elif in_sequence:
            if after_escape and byte == 0x5B or byte < 0x40:
                inside += 1
            else:
                in_sequence = False
                other += 1
            after_escape = False
        elif 0x20 <= byte < 0x7F:
            text += 1
        else:
            other += 1
    return [round(100 * part / len(made)) for part in (text, inside, other)]


def main(words):
    if len(words) == 5 and words[0] == "shares":
        print(*shares(stream(words[1], *map(int, words[2:]))))
    elif len(words) in (3, 4) and words[0] in KINDS:
        sys.stdout.buffer.write(stream(words[0], *map(int, words[1:])))
    else:
        sys.exit("usage: streams.py [shares] form|dense|text|areas ROWS COLUMNS [BYTES]")


if __name__ == "__main__":
    main(sys.argv[1:])
