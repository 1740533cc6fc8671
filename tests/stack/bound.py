"""bound.py LISTING CALL..: how much stack a call can use at most, for any bytes, by the instructions of the library.

LISTING is what `objdump -dr --no-show-raw-insn` prints of the archive. The depth of the stack before each instruction of a function follows from the pushes,
pops and the additions to the stack pointer on the way to it, and the bound of a function is the largest of these depths, or of such a depth with the bound of a
function that is called there and its return address.

The red zone is in it: the calling convention lets a function use 128 bytes below its stack pointer, and one that uses any of them, by way of the stack pointer
or of the frame pointer, is counted with all 128 there. The functions of the C library that the library uses (memcpy and the like) call nothing and are counted
with these 128 bytes, too. An index is taken to count upward.

It ends with status 1 where no such bound can be had: a call through a pointer, recursion, a stack pointer set in a way that is not known here, a byte more than
128 below the stack pointer, or a function that neither the library nor FOREIGN has. Prints a line `bound CALL BYTES`, the return address of the call included,
and the way down that needs most. Then what the calls ask of their caller beside stack:

    below FUNCTION BYTES        how far below its stack pointer the function goes, for each that does
    aligned FUNCTION COUNT      how many of its instructions need a stack that is aligned to 16 bytes, for each that has such
    registers NAME..            the registers that are used beside the general ones
"""

import re
import sys

# Loads and stores of 16 bytes that fault where the address is no multiple of 16.
ALIGNED = re.compile(r"v?mov(aps|apd|dqa|ntps|ntpd|ntdq|ntdqa)$")
BESIDE = re.compile(r"%((?:xmm|ymm|zmm|mm|k|tmm)\d+|st\b(?:\(\d\))?)")
FOREIGN = {"memcpy", "memmove", "memset", "memcmp"}
RED_ZONE = 128
RETURN_ADDRESS = 8


def fail(text):
    print(text)
    sys.exit(1)


class Function:
    def __init__(self, name):
        self.name = name
        self.code = []  # (address, operation, operands), in order
        self.targets = {}  # address of an instruction -> symbol that it names
        self.below = 0  # how far below its stack pointer it goes
        self.aligned = 0  # how many instructions need an aligned stack

    def __str__(self):
        return self.name


def disassembled(listing):
    """The functions by name, and by section and offset as relocations name them."""
    with open(listing) as file:
        text = file.read()
    functions, places, section, function = {}, {}, None, None
    for line in text.splitlines():
        if match := re.match(r"Disassembly of section (\S+):$", line):
            section = match[1]
        elif match := re.match(r"([0-9a-f]+) <(.+)>:$", line):
            function = Function(match[2])
            if match[2] in functions:
                fail(f"two functions are named {match[2]}")
            functions[match[2]] = places[section, int(match[1], 16)] = function
        elif match := re.match(r"\s+[0-9a-f]+: (R_X86_64_\w+)\s+(\S+)$", line):
            function.targets[function.code[-1][0]] = match[2]
        elif match := re.match(r"\s+([0-9a-f]+):\t(\S+)\s*(.*)$", line):
            operation, operands = match[2], match[3]
            while operation in ("rep", "repz", "repnz", "lock", "bnd", "notrack", "data16", "cs"):  # prefixes, of which padding has up to five
                operation, _, operands = operands.partition(" ")
            function.code.append((int(match[1], 16), operation, operands.strip()))
    if not functions:
        fail(f"{listing} has no functions")
    return functions, places


def symbol(function, address, functions, places):
    """The function that the instruction names by a relocation: one of ours, or the name of a foreign one."""
    name = function.targets.get(address)
    if name is None:
        return None
    match = re.match(r"(.+?)(?:\+0x([0-9a-f]+))?-0x4$", name)
    if match is None:
        fail(f"{function}: a call of {name}, which is not understood")
    base, offset = match[1], int(match[2] or "0", 16)
    if (base, offset) in places:
        return places[base, offset]
    if offset == 0 and base in functions:
        return functions[base]
    if offset == 0 and base in FOREIGN:
        return base
    fail(f"{function}: a call of {name}, which is no function of the library, nor memcpy or the like")


def moved(function, operation, operands, depth, frame):
    """The depth, and that of the frame pointer, after an instruction that does not jump."""
    if re.match(r"push", operation):
        return depth + 8, frame
    if re.match(r"pop", operation):
        return depth - 8, None if operands == "%rbp" else frame
    if operation == "leave" and frame is not None:
        return frame - 8, None
    if operation != "leave" and (not re.search(r"(?:^|,)%[er]?spl?$", operands) or re.match(r"cmp|test", operation)):
        if re.search(r"(?:^|,)%[er]?bpl?$", operands) and not re.match(r"cmp|test|bt[lq]?$", operation):
            frame = depth if (operation, operands) == ("mov", "%rsp,%rbp") else None
        return depth, frame
    number = re.match(r"\$(-?0x[0-9a-f]+),%rsp$", operands)
    if number and operation in ("sub", "add", "and"):
        value = int(number[1], 16)
        value -= (1 << 64) if value >= 1 << 63 else 0
        if operation == "and" and -4096 <= value <= -8:
            return depth - value - 8, frame
        if operation != "and":
            return depth + (value if operation == "sub" else -value), frame
    lea = re.match(r"(-?0x[0-9a-f]+)\(%rbp\),%rsp$", operands)
    if operation == "lea" and lea and frame is not None:
        return frame - int(lea[1], 16), frame
    fail(f"{function}: {operation} {operands} sets the stack pointer in a way that is not understood")


def depths(function):
    """The depth before each instruction, and that of the frame pointer, None where there is none. Follows the jumps; a jump through a table of the function's
    own goes to instructions that no other way leads to."""
    code, index = function.code, {address: k for k, (address, _, _) in enumerate(function.code)}
    before, todo, tables = {}, [(0, 0, None)], []
    while True:
        while todo:
            k, depth, frame = todo.pop()
            if k >= len(code):
                fail(f"{function} runs on past its end")
            if k in before:
                if before[k][0] != depth:
                    fail(f"{function}: the stack has two depths at {code[k][0]:x}")
                if before[k][1] in (None, frame):
                    continue
                frame = None  # the register holds something else on another way
            before[k] = depth, frame
            address, operation, operands = code[k]
            if depth < 0:
                fail(f"{function}: the stack is above its start at {address:x}")
            if re.match(r"ret|ud2|hlt", operation):
                if operation.startswith("ret") and depth != 0:
                    fail(f"{function}: returns with {depth} bytes on the stack")
                continue
            if operation.startswith("j"):
                if operands.startswith("*"):
                    if not any(o.startswith("movs") and operands[1:] in a for _, o, a in code[max(0, k - 4) : k]):
                        fail(f"{function}: a jump through a pointer at {address:x}")
                    tables.append((depth, frame))
                    continue
                target = int(operands.split()[0], 16)
                if address not in function.targets:
                    if target not in index:
                        fail(f"{function}: a jump out of the function at {address:x}")
                    todo.append((index[target], depth, frame))
                if operation == "jmp":
                    continue
            todo.append((k + 1, *moved(function, operation, operands, depth, frame)))
        missing = [k for k in range(len(code)) if k not in before and not re.match(r"nop|int3|xchg", code[k][1])]
        if not missing:
            return before
        if not tables or any(table != tables[0] for table in tables):
            fail(f"{function}: no way is seen to the instruction at {code[missing[0]][0]:x}")
        todo.append((missing[0], *tables[0]))


def on_stack(operands, frame):
    return re.search(r"\(%[er]sp[,)]", operands) or frame is not None and re.search(r"\(%[er]bp[,)]", operands)


def under(function, address, operands, depth, frame):
    """How far below the stack pointer the lowest byte is that the operands name, 0 if it is not below."""
    most = 0
    for sign, number, register in re.findall(r"(-?)(?:0x([0-9a-f]+))?\(%[er](sp|bp)[,)]", operands):
        if register == "bp" and frame is None:
            continue
        offset = int(number or "0", 16) * (-1 if sign else 1)
        most = max(most, -offset if register == "sp" else frame - offset - depth)
    if most > RED_ZONE:
        fail(f"{function}: at {address:x} a byte {most} below the stack pointer is named, {operands}: no more than {RED_ZONE} may be used there")
    return most


def bound(function, functions, places, known, open_calls):
    """The most bytes below the return address of the function, and the way down."""
    if isinstance(function, str):
        return RED_ZONE, [f"{function} {RED_ZONE}"]
    if function.name in known:
        return known[function.name]
    if function.name in open_calls:
        fail(f"recursion: {' '.join(open_calls)} {function}")
    own, deepest, way = 0, 0, []
    for k, (depth, frame) in depths(function).items():
        address, operation, operands = function.code[k]
        used, below = depth, []
        if operation.startswith("push"):
            used += 8
        if red := under(function, address, operands, depth, frame):
            used += RED_ZONE
            function.below = max(function.below, red)
        function.aligned += bool(ALIGNED.match(operation) and on_stack(operands, frame))
        own = max(own, used)
        if operation.startswith("call"):
            if operands.startswith("*"):
                fail(f"{function}: a call through a pointer at {address:x}")
            callee = symbol(function, address, functions, places)
            if callee is None:
                fail(f"{function}: a call at {address:x} that is not understood")
            more, below = bound(callee, functions, places, known, open_calls + [function.name])
            used += RETURN_ADDRESS + more
        elif operation.startswith("j") and not operands.startswith("*") and address in function.targets:
            more, below = bound(symbol(function, address, functions, places), functions, places, known, open_calls + [function.name])
            used += more
        if used > deepest:
            deepest, way = used, below
    known[function.name] = deepest, [f"{function} {own}"] + way
    return known[function.name]


def main():
    functions, places = disassembled(sys.argv[1])
    known = {}
    for call in sys.argv[2:]:
        if call not in functions:
            fail(f"the library has no {call}")
        most, way = bound(functions[call], functions, places, known, [])
        print(f"bound {call} {most + RETURN_ADDRESS}")
        print(f"    {', '.join(way)}")
    # The calls reach these functions, and no others.
    reached = [functions[name] for name in sorted(known)]
    for function in reached:
        if function.below:
            print(f"below {function} {function.below}")
    for function in reached:
        if function.aligned:
            print(f"aligned {function} {function.aligned}")
    beside = {register for function in reached for _, _, operands in function.code for register in BESIDE.findall(operands)}
    print("registers", *sorted(beside, key=lambda name: (name.rstrip("0123456789"), int(re.sub(r"\D", "", name) or 0))))


main()
