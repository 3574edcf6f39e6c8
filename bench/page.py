#!/usr/bin/env python3
"""Makes docs/SPEED.md: `page.py RESULTS TEMPLATE`, from the lines that bench/run wrote and the text around tables."""

import sys
from collections import defaultdict

CELLS = 48 * 160
LONGEST_BLOCK = 35138
# bytes a second, ten bits each
AT_9600, AT_19200 = 960, 1920
SMALL_PROCESSOR = 10e6
KEYS = {
    "typed": "a character",
    "next": "260 next field",
    "previous": "261 previous field",
    "changed": "266 send changed",
    "full": "266 send all",
}
TOOLS = ("processor", "machine", "clang", "gcc", "x86-gcc", "rustc", "valgrind", "qemu", "vterm")


def short(number):
    """Three figures or more, with commas."""
    number = float(number)
    if abs(number) >= 100:
        return f"{number:,.0f}"
    return f"{number:.1f}" if abs(number) >= 10 else f"{number:.3g}"


def millions(number):
    return short(number / 1e6)


def ratio(over, under):
    """Two figures or more."""
    if not under:
        return ""
    return f"{over / under:.2f}" if over >= 0.1 * under else f"{over / under:.2g}"


def code(text):
    """As Markdown shows it; a backtick inside asks for two around."""
    return f"`` {text} ``" if "`" in text else f"`{text}`"


def table(heads, rows):
    lines = [heads, ["---"] * len(heads), *rows]
    return "\n".join("| " + " | ".join(map(str, line)) + " |" for line in lines)


class Results:
    def __init__(self, lines):
        self.lines = defaultdict(list)
        for line in lines:
            kind, *words = line.rstrip("\n").split("\t")
            self.lines[kind].append(words)

    def one(self, kind):
        return self.lines[kind][0][-1] if self.lines[kind] else ""

    def by_case(self, kind, best=min):
        """For each case, in the order they came, the best figure of each program."""
        cases = {}
        for *case, program, figure in self.lines[kind]:
            figures = cases.setdefault(tuple(case), {})
            figures[program] = best(figures.get(program, float(figure)), float(figure))
        return cases


def by_size(rows, columns):
    return f"{rows} by {columns}"


def shown(figures, *programs):
    return [short(figures[program]) if program in figures else "not to be had" for program in programs]


def instructions(results):
    rows = []
    for (kind, *size, call), figures in results.by_case("instructions").items():
        cells = shown(figures, "ours", "plain", "vterm")
        rows.append([kind, by_size(*size), f"{int(call):,}", *cells, ratio(figures["plain"], figures["ours"])])
    return table(["stream", "size", "bytes a call", "ours", "plain C", "libvterm", "ratio"], rows)


def native(results):
    rows = []
    for (kind, *size), figures in results.by_case("native").items():
        cells = shown(figures, "second", "plain")
        rows.append([kind, by_size(*size), *cells, ratio(figures["plain"], figures["second"])])
    return table(["stream", "size", "second", "plain C", "ratio of the second"], rows)


def speed(results):
    rows = []
    for (kind, *size, call), figures in results.by_case("speed", max).items():
        cells = shown(figures, "ours", "plain", "second", "vterm")
        rows.append([kind, by_size(*size), f"{int(call):,}", *cells, ratio(figures["ours"], figures["plain"])])
    return table(["stream", "size", "bytes a call", "ours", "plain C", "second", "libvterm", "ratio"], rows)


def for_a_key(cases, what, where):
    """Ours and plain C. For a block the page is put back before each: what that takes is `none`'s, and taken off."""
    off = cases[("none", *where)] if what in ("changed", "full") else {"ours": 0, "plain": 0}
    return [cases[(what, *where)][program] - off[program] for program in ("ours", "plain")]


def keys(results):
    counts, times, rows = results.by_case("key-instructions"), results.by_case("key-time"), []
    for what, *where in counts:
        if what != "none":
            page, *size = where
            cells = []
            for ours, plain in (for_a_key(counts, what, where), for_a_key(times, what, where)):
                cells += [short(ours), short(plain), ratio(plain, ours)]
            rows.append([KEYS[what], page, by_size(*size), *cells])
    heads = ["instructions, ours", "plain C", "ratio", "microseconds, ours", "plain C", "ratio"]
    return table(["key", "page", "size", *heads], rows)


def worst(results):
    rows = []
    for name, sequence, when, length, ours, plain in results.lines["host"]:
        by_byte, plain_by_byte = int(ours) / int(length), int(plain) / int(length)
        cells = [
            name.replace("`", "\\`"),
            code(sequence),
            "" if when == "any" else when,
            f"{int(ours):,}",
            short(by_byte),
            f"{int(ours) / CELLS:.2f}",
            short(plain_by_byte),
            ratio(plain_by_byte, by_byte),
            millions(by_byte * AT_9600),
            millions(by_byte * AT_19200),
        ]
        rows.append((-by_byte, cells))
    rows.sort()
    heads = ["instructions", "a byte", "a cell", "plain C, a byte", "ratio", "9,600 baud", "19,200 baud"]
    return table(["command", "sequence", "when", *heads], [cells for _, cells in rows])


def worst_keys(results):
    rows = []
    for name, when, ours, plain in results.lines["key"]:
        ours, plain = int(ours), int(plain)
        cells = [f"{ours:,}", f"{ours / CELLS:.2f}", f"{plain:,}", ratio(plain, ours), millions(10 * ours)]
        rows.append([name, "" if when == "any" else when, *cells])
    return table(["key", "when", "instructions", "a cell", "plain C", "ratio", "ten a second"], rows)


def summary(results):
    counts, times = results.by_case("instructions"), results.by_case("speed", max)
    words = []
    for kind in ("form", "dense", "text"):
        count, time = counts[kind, "24", "80", "65536"], times[kind, "24", "80", "65536"]
        ratios = f"ratio {ratio(count['plain'], count['ours'])}, in time {ratio(time['ours'], time['plain'])}"
        words.append(f"{short(count['ours'])} instructions a byte on {kind} ({ratios})")
    typed = results.by_case("key-instructions")["typed", "form", "48", "160"]["ours"]
    return (
        f"on 24 by 80 in calls of 65,536 bytes {', '.join(words)}; "
        f"{short(typed)} instructions for a typed character on 48 by 160."
    )


def keeps_up(results):
    """What a small processor can't do at the line's pace."""
    dear = [
        name.split(",")[0]
        for name, _, _, length, ours, _ in results.lines["host"]
        if AT_9600 * int(ours) / int(length) > SMALL_PROCESSOR
    ]
    return (
        f"A processor of {SMALL_PROCESSOR / 1e6:.0f} million instructions a second keeps up at 9,600 baud with all but "
        f"these, one after another: {', '.join(dear) or 'none'}."
    )


def block(results):
    return millions(next(int(words[-2]) for words in results.lines["host"] if words[0].startswith("ESC S")))


HOW_COUNTED = {
    "amd64": "They are counted by valgrind's callgrind.",
    "": "This machine's code is another: an emulator of a plain x86-64 runs the programs, and counts "
    "(`bench/count.c`).",
}
HOW_TIMED = {
    "amd64": "The programs are those that were counted.",
    "": "The archive's code is for x86-64, and this machine's is another: what is timed is the archive's own bitcode, "
    "compiled for this machine by the kit's compiler at the same -O3. It is no longer what the kit made, so take the "
    "ratios as the message, and not the MB/s.",
}


def main(results_name, template_name):
    with open(results_name, encoding="utf-8") as file:
        results = Results(file)
    with open(template_name, encoding="utf-8") as file:
        template = file.read()
    machine = results.one("machine")
    call, call_plain = map(int, results.lines["call"][0])
    parts = (instructions, native, speed, keys, worst, worst_keys, summary, keeps_up, block)
    sys.stdout.write(
        template.format(
            **{name.replace("-", "_"): results.one(name) for name in TOOLS},
            **{part.__name__: part(results) for part in parts},
            how_counted=HOW_COUNTED.get(machine, HOW_COUNTED[""]),
            how_timed=HOW_TIMED.get(machine, HOW_TIMED[""]),
            call=f"{call:,}",
            call_plain=f"{call_plain:,}",
            call_9600=millions(call * AT_9600),
            call_ten=millions(call * 10),
            block_seconds=short(LONGEST_BLOCK / AT_9600),
        )
    )


if __name__ == "__main__":
    main(*sys.argv[1:])
