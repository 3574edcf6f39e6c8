"""The stack that the named functions take, and the chain of calls that takes it, each with its own part: `NAME BYTES CHAIN`.

Reads what `objdump -r` and then `objdump -dr --no-show-raw-insn -M intel` print of x86-64 objects in which each function has a
section of its own. Along every path from a function's start the depth of the stack is followed: the return address (8 bytes),
pushes, `sub rsp`, and what is used below rsp (the red zone). Ends with status 1 if a function can reach itself; if a call could
be hidden (an indirect call, an address of code that is taken, a table that leads out of its own function); if anything but the C
library's copying is called outside, such as an allocator; and for whatever it cannot follow.
"""
import re
import sys

RETURN = 8
RED_ZONE = 128
NEVER_RETURNS = "ud2", "hlt", "int3"
NOT_FOLLOWED = "leave", "enter", "pushf", "popf", "syscall"
# What may be called outside: it calls nothing of ours.
C_LIBRARY = "memcpy", "memmove", "memset", "memcmp"
FILLING = re.compile(r"(cs |data16 |rep )*(nop|int3|xchg +ax,ax)")

Code = {}     # function: {address: (instruction, the symbol that it is linked to, or None)}
Linked = {}   # section: [(offset, symbol, addend)], its addresses of other sections


def fail(what):
    sys.exit("stack: " + what)


def number(text):
    value = int(text, 16)
    return value - 2**64 if value >= 2**63 else value


def symbol_and_addend(text):
    found = re.fullmatch(r"(.*?)(?:([-+])0x([0-9a-f]+))?", text)
    return found[1], int((found[2] or "+") + (found[3] or "0"), 16)


def read(lines):
    section = function = address = None
    for line in lines:
        if found := re.match(r"RELOCATION RECORDS FOR \[(.*)\]:", line):
            section, function = found[1], None
        elif found := re.match(r"Disassembly of section (.*):", line):
            section = None
        elif found := re.fullmatch(r"([0-9a-f]+) <(.*)>:\s*", line):
            function = found[2]
            if int(found[1], 16) != 0 or function in Code:
                fail(f"{function} has no section of its own")
            Code[function] = {}
        elif section and (found := re.match(r"([0-9a-f]+) R_X86_64_\w+ +(.*\S)", line)):
            Linked.setdefault(section, []).append((int(found[1], 16), *symbol_and_addend(found[2])))
        elif function and (found := re.match(r"\s+[0-9a-f]+: R_X86_64_\w+\s+(.*\S)", line)):
            Code[function][address] = Code[function][address][0], found[1]
        elif function and (found := re.match(r"\s+([0-9a-f]+):\t(.*)", line)):
            address = int(found[1], 16)
            Code[function][address] = re.sub(r"\s*#.*", "", found[2]).strip(), None


def tables(function):
    """Where the tables of a function (the arms of a `match`) lead: entries are distances from their table's start."""
    own, rodata = ".text." + function, ".rodata." + function
    starts = sorted(addend + 4 for _, symbol, addend in Linked.get(own, []) if symbol == rodata)
    leads = set()
    for offset, symbol, addend in Linked.get(rodata, []):
        before = [start for start in starts if start <= offset]
        if symbol != own or not before:
            fail(f"a table of {function} leads to {symbol}")
        leads.add(addend - (offset - before[-1]))
    return leads


def no_address_is_taken():
    for section in Linked:
        if not section.startswith((".text", ".eh_frame", ".rodata.")):
            if any(symbol.startswith(".text") or symbol in Code for _, symbol, _ in Linked[section]):
                fail(f"{section} has addresses of code")
        if section.startswith(".rodata."):
            tables(section[len(".rodata."):])
    for function in Code:
        for instruction, symbol in Code[function].values():
            if symbol and not re.match(r"call|j", instruction):
                if symbol_and_addend(symbol)[0].startswith(".text") or symbol_and_addend(symbol)[0] in Code:
                    fail(f"{function} takes the address of {symbol}: {instruction}")


def follow(function):
    """The most that a function itself takes, and for each function that it calls the most that it has then taken."""
    code, depths, callees, leaps = Code[function], {}, {}, set()
    addresses = sorted(code)
    following = dict(zip(addresses, addresses[1:]))
    most = RETURN
    waiting = [(0, RETURN)]

    def called(symbol, depth):
        callee, addend = symbol_and_addend(symbol)
        if addend != -4:
            fail(f"{function} calls {symbol}, not a function's start")
        callee = callee.removeprefix(".text.")
        callees[callee] = max(depth, callees.get(callee, 0))

    while waiting:
        here, depth = waiting.pop()
        if here not in code:
            fail(f"{function} runs out of its code")
        if here in depths:
            if depths[here] != depth:
                fail(f"{function} comes to {here:x} with two depths of the stack")
            continue
        depths[here] = depth
        instruction, symbol = code[here]
        name, _, operands = instruction.removeprefix("notrack ").partition(" ")
        operands = operands.strip()
        after, goes_on = depth, True
        if name == "call":
            if symbol is None and re.match(r"[0-9a-f]+ <", operands):
                fail(f"recursion: {function} calls itself")
            if symbol is None or not re.match(r"[0-9a-f]+ <", operands):
                fail(f"{function} has an indirect call: {instruction}")
            called(symbol, depth)
        elif name.startswith("j"):
            if symbol:
                called(symbol, depth - RETURN)
            elif found := re.match(r"([0-9a-f]+) <", operands):
                waiting.append((int(found[1], 16), depth))
            else:
                leads = tables(function)
                if not leads:
                    fail(f"{function} has an indirect jump and no table: {instruction}")
                leaps.add(depth)
                if len(leaps) > 1:
                    fail(f"{function} has indirect jumps at two depths of the stack")
                waiting += [(lead, depth) for lead in leads]
            goes_on = name != "jmp"
        elif name == "ret":
            if depth != RETURN:
                fail(f"{function} returns with {depth - RETURN} bytes on the stack")
            goes_on = False
        elif name in NEVER_RETURNS:
            goes_on = False
        elif name == "push":
            after += 8
        elif name == "pop" and operands != "rsp":
            after -= 8
        elif found := re.fullmatch(r"rsp,(0x[0-9a-f]+)", operands) if name in ("add", "sub") else None:
            after += number(found[1]) if name == "sub" else -number(found[1])
        elif found := re.fullmatch(r"rsp,\[rsp([-+])(0x[0-9a-f]+)\]", operands) if name == "lea" else None:
            after += int(found[2], 16) if found[1] == "-" else -int(found[2], 16)
        elif name in NOT_FOLLOWED or (re.match(r"[er]?sp\b", operands) and name not in ("cmp", "test")) or name == "xchg" and "rsp" in operands:
            fail(f"{function} moves the stack in a way that is not followed: {instruction}")
        if found := re.search(r"\[rsp[^\]]*-(0x[0-9a-f]+)\]", operands) if name != "lea" or after == depth else None:
            most = max(most, depth + int(found[1], 16))
        if re.search(r",rsp$", operands):
            most = max(most, depth + RED_ZONE)
        most = max(most, after)
        if goes_on:
            waiting.append((following.get(here, -1), after))
    for address in addresses:
        if address not in depths and not FILLING.match(code[address][0]):
            fail(f"{function} has code that no path comes to: {code[address][0]}")
    return most, callees


deepest = {}  # function: the bytes that it takes with all below it, and the chain that takes most
outside = set()


def depth_of(function, above=()):
    if function in above:
        fail("recursion: " + " > ".join((*above, function)))
    if function not in Code:
        if function not in C_LIBRARY:
            fail(f"{above[-1]} calls {function}, whose code was not seen")
        outside.add(function)
        return RETURN, (f"{function} {RETURN}",)
    if function not in deepest:
        own, callees = follow(function)
        answer = own, (f"{function} {own}",)
        for callee, taken in callees.items():
            below, chain = depth_of(callee, (*above, function))
            answer = max(answer, (taken + below, (f"{function} {taken}", *chain)))
        deepest[function] = answer
    return deepest[function]


read(sys.stdin)
no_address_is_taken()
for name in sys.argv[1:]:
    if name not in Code:
        fail(f"no code of {name} was seen")
    bytes_taken, chain = depth_of(name)
    print(name, bytes_taken, " > ".join(chain))
print("no recursion, no indirect call; called outside, with a stack that is not counted:", *sorted(outside))
