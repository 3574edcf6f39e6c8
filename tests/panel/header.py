"""include/panel.h against the Rattle source: each constant that both have, and the parameters of each function."""
import glob
import re
import sys

bad = 0


def differs(what):
    global bad
    bad = 1
    print("include/panel.h:", what)


def source(pattern):
    text = "".join(open(path, encoding="utf-8").read() for path in sorted(glob.glob(pattern)))
    return re.sub(r"//.*", "", text)


def constants(text):
    """The number of each `const`; one may be told by others and sums."""
    told = {}
    for name, value in re.findall(r"const (\w+): (?:usize|u8|u16|u32) = ([\w +*]+);", text):
        words = [str(told.get(word, word)) for word in re.findall(r"\w+|[+*]", value)]
        if all(re.fullmatch(r"0x[0-9A-Fa-f]+|\d+|[+*]", word) for word in words):
            told[name] = eval(" ".join(words))
    return told


def arms(text, function, enum):
    """The number that a function gives for each case of an enum, the case in the header's letters."""
    found = re.search(rf"fn {function}\(.*?\n}}", text, re.DOTALL)
    cases = re.findall(rf"{enum}::(\w+) => (\d+)", found[0]) if found else []
    return {re.sub(r"(?<!^)(?=[A-Z])", "_", case).upper(): int(number) for case, number in cases}


def variants(text, enum):
    """The number that stands at each case of an enum, the case in the header's letters."""
    found = re.search(rf"enum {enum} \{{(.*?)\n}}", text, re.DOTALL)
    cases = re.findall(r"(\w+) = (\d+),", found[1]) if found else []
    return {re.sub(r"(?<!^)(?=[A-Z])", "_", case).upper(): int(number) for case, number in cases}


with open("include/panel.h", encoding="utf-8") as file:
    header = re.sub(r"/\*.*?\*/", "", file.read(), flags=re.DOTALL)
ours = {name: int(value, 0) for name, value in re.findall(r"#define PANEL_(\w+) (\w+)", header)}
record, panel = source("crates/record/src/*.rt"), source("crates/panel/src/lib.rt")
wanted = {"RECORD_" + name: value for name, value in constants(record).items()
          if name in ("LENGTH", "ROWS", "COLUMNS", "ROW", "COLUMN", "PEN", "ERASURE", "FULL", "MANUAL", "SOFT",
                      "MESSAGE", "BYTE", "KIND", "SPOILT", "COUNT", "ARGUMENTS", "STOPS")}
wanted.update({name: value for name, value in constants(panel).items() if name == "RESULT_LENGTH"})
numbers = variants(source("crates/terminal/src/lib.rt"), "Answer")
reasons = arms(source("crates/state/src/lib.rt"), "message_of", "Reason")
kinds = constants(source("crates/sequence/src/lib.rt"))
wanted.update(numbers)
wanted.update({"MESSAGE_" + name: value for name, value in reasons.items()})
wanted.update({"KIND_" + name: kinds[name] for name in kinds})
# 17 of the record, the result's length, 10 numbers, 4 messages, 6 kinds: fewer means that the source is no longer read
if len(wanted) != 38:
    differs(f"{len(wanted)} constants were found in the source, not 38: {' '.join(wanted)}")
for name, value in wanted.items():
    if ours.get(name) != value:
        differs(f"PANEL_{name} is {ours.get(name)}, and {value} in the source")
for name in ours:
    if re.match(r"RECORD_|MESSAGE_|KIND_", name) and name != "MESSAGE_NONE" and name not in wanted:
        differs(f"PANEL_{name} is not in the source")

# a slice is a pointer and a length, right after one another; three have another name in the source
NAMES = {"packed": "record", "out": "output", "res": "result"}
FORMS = {"&mut [u8]": "uint8_t *{0}, size_t {0}_length", "&[u8]": "const uint8_t *{0}, size_t {0}_length",
         "usize": "size_t {0}", "u8": "uint8_t {0}"}
prototypes = dict(re.findall(r"uint8_t (\w+)\(([^)]*)\);", header))
aliases = dict(re.findall(r"type (\w+) = (\w+);", source("crates/page/src/*.rt")))
exported = re.findall(r'#\[unsafe\(no_mangle\)\]\s*pub extern "C" fn (\w+)\(([^)]*)\) -> (\S+)', source("crates/panel_c/src/lib.rt"))
for name, parameters, answer in exported:
    parts = []
    for given, form in re.findall(r"(\w+): ([^,]*[^,\s])", parameters):
        form = re.sub(r"\w+", lambda word: aliases.get(word[0], word[0]), form)
        parts.append(FORMS.get(form, form + " {0}").format(NAMES.get(given, given)))
    as_c = ", ".join(parts)
    told = " ".join(prototypes.get(name, "nowhere").split())
    if as_c != told or answer != "u8":
        differs(f"{name}: the source has ({as_c}) -> {answer}, the header ({told})")
if sorted(prototypes) != sorted(name for name, _, _ in exported) or len(exported) != 3:
    differs(f"prototypes of {sorted(prototypes)}, exported are {sorted(name for name, _, _ in exported)}")
print(f"{len(wanted)} constants and {len(exported)} functions compared with the source")
sys.exit(bad)
