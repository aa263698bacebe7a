#!/usr/bin/env python3
"""How deep each function of the C interface can reach into the stack, by its object code.

usage: (objdump -dr --no-show-raw-insn libmenu.a; objdump -r libmenu.a) | frames.py

Prints a line for each function whose name begins with menu_: its name, the bytes, and the calls that lead to the deepest place. The
bytes are counted as bench/painted.h counts them: what is handed over on the stack, rounded up to 16 as the calling convention has it,
the return address, and every frame below. All paths are followed, those that no input takes too.

It stops where the depth might depend on the input, or cannot be read off: a stack pointer that is moved by anything but a constant, an
index on the stack pointer itself, a frame pointer, a call by a register, a jump by a register that was not read from a table of the
function's own places, a function that calls itself, a call out of the library. A jump by a table is followed to each of its places. Only
memmove and memset may be called: their return addresses are counted, and what they take themselves is not. An array that is reached by
another register is not seen here: its frame is counted, and bench/stack looks for arrays in the compiler's own form.
"""

import re
import sys
from typing import NamedTuple

OUTSIDE = {"memmove", "memset"}
FLOW = r"(call|ret|push|pop|j[a-z]+)"


class Instruction(NamedTuple):
    operation: str
    operands: str
    symbol: str = ""  # what the linker puts in


class Reach(NamedTuple):
    depth: int  # bytes below the return address
    path: tuple  # the calls that lead there
    arguments: int  # bytes of arguments on the stack


def stop(function, why):
    sys.exit(f"frames.py: {function}: {why}")


class Function(NamedTuple):
    code: dict  # the instructions by address
    table: dict  # what the linker puts into its section of constants, by the offset there


def functions(lines):
    """For each function its instructions, and what is put into its section of constants."""
    found, code, section = {}, {}, None
    for line in lines:
        if head := re.match(r"[0-9a-f]+ <(.+)>:$", line):
            if head[1] in found:
                stop(head[1], "there are two of that name")
            code = {}
            found[head[1]] = Function(code, {})
        elif told := re.match(r"\s*([0-9a-f]+):\t(\S+)\s*(.*)$", line):
            # older versions of objdump write callq, retq and so on
            operation = re.sub(rf"^{FLOW}q$", r"\1", told[2])
            address = int(told[1], 16)
            code[address] = Instruction(operation, told[3].strip())
        elif linked := re.match(r"\s*[0-9a-f]+: R_\S+\s+(\S+)$", line):
            code[address] = code[address]._replace(symbol=re.sub(r"^\.text\.|-0x4$", "", linked[1]))
        elif records := re.match(r"RELOCATION RECORDS FOR \[(.+)\]:$", line):
            section = re.sub(r"^\.rodata\.", "", records[1])
        elif section in found and (entry := re.match(r"([0-9a-f]+) (R_.+)$", line)):
            found[section].table[int(entry[1], 16)] = entry[2]
    return found


def table_of(function, instruction):
    """Where the table begins that the instruction finds, in the function's section of constants; None where it finds none."""
    begins = re.fullmatch(rf"\.rodata\.{re.escape(function)}(\+0x[0-9a-f]+)?", instruction.symbol)
    if instruction.operation != "lea" or not begins:
        return None
    # what the linker puts in is counted from the next instruction: 4 less, which is left out where it is all
    return int(begins[1], 16) + 4 if begins[1] else 0


def parts(register):
    """The names of a register and of its parts."""
    stem = register[2:]
    if stem[0].isdigit():
        return rf"%r{stem}[dwb]?\b"
    return rf"%[re]?{stem}\b|%{stem}l\b" if stem[1] != "x" else rf"%[re]?{stem}\b|%{stem[0]}[lh]\b"


def by_table(function, code, table, address):
    """Where a jump by a register goes: four instructions find a table, read an offset, add the table, and jump. What is moved between the
    last two, among other registers, has no part in it."""
    register = code[address].operands.lstrip("*")
    before = [code[place] for place in sorted(code) if place < address]
    while before and before[-1].operation.startswith(("mov", "lea")) and not re.search(parts(register), before[-1].operands):
        before.pop()
    last = before[-3:] + [code[address]]
    text = " ".join(f"{told.operation} {told.operands.split('#')[0].strip()}" for told in last)
    begin = table_of(function, last[0])
    if begin is None or not re.fullmatch(r"lea 0x0\(%rip\),(%r\w+) movslq \(\1,%r\w+,4\),(%r\w+) add \1,\2 jmp \*\2", text):
        stop(function, f"a jump by {code[address].operands}")
    # it ends where the next one begins
    begins = {table_of(function, instruction) for instruction in code.values()} - {None}
    end = min((other for other in begins if other > begin), default=max(table, default=0) + 1)
    offsets = [offset for offset in sorted(table) if begin <= offset < end]
    places = [re.fullmatch(rf"R_X86_64_PC32\s+\.text\.{re.escape(function)}\+0x([0-9a-f]+)", table[offset]) for offset in offsets]
    if not places or None in places or offsets != [*range(begin, begin + 4 * len(offsets), 4)]:
        stop(function, f"a jump by {code[address].operands} and a table that has other places than the function's")
    # an offset counts from the table, and what the linker puts in from the offset itself
    return [int(place[1], 16) - (offset - begin) for offset, place in zip(offsets, places)]


def moved(function, instruction):
    """By how many bytes the instruction moves the stack pointer down."""
    operation, operands, _ = instruction
    if operation in ("push", "pop") and operands != "%rsp":
        return 8 if operation == "push" else -8
    if operation not in ("enter", "leave", "pushf", "popf") and not operands.endswith("%rsp"):
        return 0
    by = re.fullmatch(r"\$0x([0-9a-f]+),%rsp", operands)
    if operation not in ("sub", "add") or not by:
        stop(function, f"the stack pointer is moved by {operation} {operands}")
    size = int(by[1], 16)
    if size >> 63:  # add $-128 is shorter than sub $128
        size -= 1 << 64
    return size if operation == "sub" else -size


def touched(function, instruction, depth):
    """How deep the instruction's operands reach by the stack pointer, and how many bytes of arguments they show."""
    operation, operands, _ = instruction
    if re.match(rf"{FLOW}\b", operands):
        stop(function, f"a prefix, {operation}, before {operands}")
    if re.search(r"\(%rsp,|%rsp,%rbp$", operands):
        stop(function, f"a place on the stack is found by {operation} {operands}")
    reached, arguments = depth, 0
    for sign, offset in re.findall(r"(-?)0x([0-9a-f]+)\(%rsp\)", operands):
        if sign:
            reached = max(reached, depth + int(offset, 16))
        else:
            arguments = max(arguments, int(offset, 16) - depth)
    return reached, arguments


def targets(function, code, table, address, behind):
    """Where the code goes on within the function."""
    operation, operands, symbol = code[address]
    ahead = []
    if operation.startswith("j") and not symbol:
        jump = re.match(r"([0-9a-f]+) <", operands)
        ahead += [int(jump[1], 16)] if jump else by_table(function, code, table, address)
    if operation not in ("ret", "jmp", "ud2"):
        if behind is None:
            stop(function, "it does not end")
        ahead.append(behind)
    return ahead


class Library:
    def __init__(self, code):
        self.code, self.known = code, {}

    def reach(self, function, callers=()):
        if function in OUTSIDE:
            return Reach(0, (), 0)
        if function in callers:
            stop(function, "it calls itself")
        if function not in self.code:
            stop(callers[-1], f"it calls {function}")
        if function not in self.known:
            self.known[function] = self.follow(function, callers + (function,))
        return self.known[function]

    def called(self, instruction, depth, callers):
        """How deep a call reaches, or a jump out of the function in a call's place."""
        operation, operands, symbol = instruction
        if operation != "call" and not (operation.startswith("j") and symbol):
            return depth, ()
        if not symbol:
            stop(callers[-1], f"a call by {operands}")
        inner = self.reach(symbol, callers)
        return depth + inner.depth + (8 if operation == "call" else 0), (symbol,) + inner.path

    def follow(self, function, callers):
        code, table = self.code[function]
        at, deepest = {}, Reach(0, (), 0)
        behind = dict(zip(code, [*code][1:]))
        ahead = [(min(code), 0)]
        while ahead:
            address, depth = ahead.pop()
            if at.setdefault(address, depth) != depth:
                stop(function, f"two depths at {address:x}")
            instruction = code[address]
            below = depth + moved(function, instruction)
            if below < 0 or instruction.operation == "ret" and below:
                stop(function, f"what is pushed is not what is popped at {address:x}")
            reached, arguments = touched(function, instruction, depth)
            inner, path = self.called(instruction, depth, callers)
            if max(reached, below, inner) > deepest.depth:
                deepest = deepest._replace(depth=max(reached, below, inner), path=path)
            deepest = deepest._replace(arguments=max(arguments, deepest.arguments))
            for target in targets(function, code, table, address, behind.get(address)):
                if at.get(target) != below:
                    ahead.append((target, below))
        return deepest


def main():
    library = Library(functions(sys.stdin))
    for function in library.code:
        if function.startswith("menu_"):
            depth, path, arguments = library.reach(function)
            print(function, (arguments + 15) // 16 * 16 + 8 + depth, *path)


main()
