"""The archive's machine code, as objdump lists it: what each function calls, the bytes on the stack there, and what can come later.

Nothing is guessed: code of a form that is not known here is `Unclear`.
"""
import collections
import pathlib
import re
import subprocess
import sys

sys.path.insert(0, str(pathlib.Path(__file__).resolve().parent.parent))
from shared.programs import x86  # noqa: E402

Instruction = collections.namedtuple("Instruction", "name operands symbol next")
# at which place, what, and the bytes on the stack there
Call = collections.namedtuple("Call", "at callee height")

# the second is what a function may use below its stack, by whatever register
RETURN_ADDRESS, RED_ZONE = 8, 128
# a function's head, an instruction, its relocation, what objdump makes of other bytes; a section's relocations, one, one in a jump table
HEAD = re.compile(r"[0-9a-f]+ <(?P<function>.+)>:")
CODE = re.compile(r" *(?P<at>[0-9a-f]+):\t(?:(?:bnd|notrack|rep\w*|lock|data16|cs) +)*(?P<name>\S+) *(?P<operands>.*?)(?: +# .*)?")
SYMBOL = re.compile(r"\t+[0-9a-f]+: \S+\t(?P<symbol>.+)")
OTHER = re.compile(r" *[0-9a-f]+:\t.*|\t\.\.\.")
RECORDS = re.compile(r"RELOCATION RECORDS FOR \[(?P<section>.+)\]:")
RECORD = re.compile(r"[0-9a-f]+ R_.*")
CASE = re.compile(r"(?P<offset>[0-9a-f]+) R_X86_64_PC32 +\.text\.(?P<function>.+)\+0x(?P<to>[0-9a-f]+)")
# what is pushed or popped
EIGHT_BYTES = re.compile(r"%r(?!sp)(?:[a-z]{2}|\d{1,2})|\$0x[0-9a-f]+|[^%]*\(.*\)")
# what goes on with the next instruction, and moves the stack only where it names it
PLAIN = re.compile(r"mov|(mov|cmov|set)\w+|lea|xchg|nop[wl]?|(add|adc|sub|sbb|cmp|test|and|or|xor|inc|dec|neg|not|sh[lr]|sar|ro[lr]|bt|i?mul)[bwlq]?"
                   r"|p(add|sub|cmp|shuf|unpck|and|or|xor|sll|srl|blend|insr|extr|alignr|hadd|minu|maxu|mov|test)\w*|(add|sub|mul|and|or|xor|shuf|blend|unpck[lh])[ps][sd]")


class Unclear(Exception):
    pass


def listing(archive):
    """The code with its relocations, then all relocations, the jump tables' among them."""
    objdump = "".join(x86("binutils")) + "objdump"
    options = ["-dr", "--no-show-raw-insn"], ["-r"]
    return "".join(subprocess.run([objdump, *each, str(archive)], stdout=subprocess.PIPE, check=True, text=True).stdout for each in options)


def number(word):
    """Of 64 bits, with its sign."""
    found = int(word, 16)
    return found - (1 << 64) if found >> 63 else found


def names_stack(name, operands):
    """Whether an instruction names the stack pointer, other than as an address or to copy it."""
    copied = operands.removeprefix("%rsp,") if name == "mov" else operands
    return re.search(r"%[re]?spl?\b", re.sub(r"\(.*?\)", "", copied))


class Function:
    """A function's instructions by address, the bytes on the stack before each (at first the return address), and its calls."""

    def __init__(self, name, lines, cases):
        self.name, self.code, self.heights, self.calls = name, {}, {}, []
        self.read(lines)
        self.cases = [self.case(offset, to) for offset, to in cases]
        self.walk()

    def read(self, lines):
        last = None
        for line in lines:
            if found := CODE.fullmatch(line):
                at = int(found["at"], 16)
                if at in self.code:
                    raise Unclear(f"{self.name}: which of two?")
                if self.code:
                    self.code[last] = self.code[last]._replace(next=at)
                self.code[at], last = Instruction(found["name"], found["operands"], "", None), at
            elif found := SYMBOL.fullmatch(line):
                self.code[last] = self.code[last]._replace(symbol=found["symbol"])
            elif OTHER.fullmatch(line):
                raise Unclear(f"{self.name}: {line.strip()}: what is this?")

    def text(self, at):
        return f"{self.code[at].name} {self.code[at].operands}" if at in self.code else ""

    def unclear(self, at, why):
        return Unclear(f"{self.name}+{at:#x}: {self.text(at)}: {why}")

    def case(self, offset, to):
        """Where a jump leads by an entry of a table. The entry is the address less the table's, and its relocation adds the entry's offset."""
        section = re.compile(rf"\.rodata\.{re.escape(self.name)}([+-]0x[0-9a-f]+)")
        tables = [int(found[1], 16) + 4 for each in self.code.values() if (found := section.fullmatch(each.symbol))]
        return to - offset + max((start for start in tables if start <= offset), default=offset)

    def by_table(self, at):
        """Whether the register of a jump was made of a table's address and an entry: movslq (%table,%entry,4),%to; add %table,%to; jmp *%to."""
        before = [each for each in self.code if each < at][-8:]
        to = self.code[at].operands.removeprefix("*")
        made = " ".join(self.text(each) for each in before if self.text(each).endswith("," + to))
        return re.search(rf"movslq \((%\w+),%\w+,4\),{to} add \1,{to}$", made)

    def callee(self, at):
        """What is called there, if anything is; a jump out of the function is a call."""
        name, operands, symbol, _ = self.code[at]
        if name != "call" and not (name.startswith("j") and symbol):
            if symbol and not symbol.startswith((".rodata.", ".LCPI", ".Lswitch.table.")):
                raise self.unclear(at, f"what becomes of {symbol}?")
            return None
        found = re.fullmatch(r"(?:\.text\.)?(.+)-0x4", symbol) if symbol else re.fullmatch(r"0 <(.+)>", operands)
        if not found:
            raise self.unclear(at, "which function?")
        return found[1]

    def goes_on(self, at):
        """The places at which the function goes on after an instruction."""
        name, operands, symbol, follows = self.code[at]
        if name == "jmp" and operands.startswith("*"):
            return self.cases if self.by_table(at) else [None]
        to = [int(operands.split()[0], 16)] if name.startswith("j") and not symbol else []
        return to if name in ("jmp", "ret", "ud2") else [*to, follows]

    def step(self, at):
        """The places at which the function goes on, and the bytes on the stack there."""
        name, operands, _, follows = self.code[at]
        height = self.heights[at]
        moved = re.fullmatch(r"\$(0x[0-9a-f]+),%rsp", operands)
        if self.text(at) == "cmp %r11,%rsp":
            self.heights[follows] = height
            return [self.code[follows].next], self.probed(at)
        if name in ("sub", "add") and moved:
            height += number(moved[1]) if name == "sub" else -number(moved[1])
        elif name in ("push", "pop") and EIGHT_BYTES.fullmatch(operands):
            height += 8 if name == "push" else -8
        elif not (name in ("call", "ret", "ud2") or name.startswith("j") or PLAIN.fullmatch(name)) or names_stack(name, operands):
            raise self.unclear(at, "what becomes of the stack?")
        return self.goes_on(at), height

    def probed(self, at):
        """The bytes once a large frame is taken, page by page down to r11: mov %rsp,%r11; sub $0x..,%r11; a loop until they are equal."""
        begun = [each for each in self.heights if self.text(each) == "mov %rsp,%r11"]
        taken = [re.fullmatch(r"sub \$(0x[0-9a-f]+),%r11", self.text(self.code[each].next)) for each in begun]
        loops = re.match(r"jne ([0-9a-f]+) ", self.text(self.code[at].next))
        if len(taken) != 1 or not taken[0] or not loops or not begun[0] < int(loops[1], 16) < at:
            raise self.unclear(at, "what becomes of the stack?")
        return self.heights[begun[0]] + number(taken[0][1])

    def walk(self):
        """Follows every way: a place has one height, and whoever leaves has nothing on the stack but the return address."""
        todo = [(0, RETURN_ADDRESS)]
        while todo:
            at, height = todo.pop()
            if at not in self.code:
                raise Unclear(f"{self.name}: where does it go on?")
            if at in self.heights:
                if self.heights[at] != height:
                    raise self.unclear(at, f"are there {height} or {self.heights[at]} bytes on the stack?")
                continue
            self.heights[at] = height
            name, callee = self.code[at].name, self.callee(at)
            if (name == "ret" or callee and name != "call") and height != RETURN_ADDRESS:
                raise self.unclear(at, f"it leaves with {height} bytes")
            if callee:
                self.calls.append(Call(at, callee, height if name == "call" else 0))
            ways, height = self.step(at)
            todo += [(to, height) for to in ways]
        for at in self.code.keys() - self.heights.keys():
            if not re.match(r"nop|xchg %ax,%ax$", self.text(at)):
                raise self.unclear(at, "when does it come here?")

    def frame(self, places):
        """The most bytes that it takes itself at these places."""
        for at in places:
            if any(int(found, 16) > RED_ZONE for found in re.findall(r"-0x([0-9a-f]+)\(%rsp", self.code[at].operands)):
                raise self.unclear(at, "what is below the stack?")
        return max(self.heights[at] for at in places) + RED_ZONE

    def later(self, calls):
        """The places at which the function can be after one of these calls."""
        seen, todo = set(), [to for call in calls for to in self.goes_on(call.at)]
        while todo:
            at = todo.pop()
            if at not in seen:
                seen.add(at)
                todo += self.goes_on(at)
        return seen


def functions(told):
    """The functions of a listing by their names."""
    lines, records, part = {}, collections.defaultdict(list), []
    for line in told.splitlines():
        if found := HEAD.fullmatch(line):
            if found["function"] in lines:
                raise Unclear(f"{found['function']}: which of two?")
            part = lines[found["function"]] = []
        elif found := RECORDS.fullmatch(line):
            part = records[found["section"]]
        else:
            part.append(line)
    return {name: Function(name, lines[name], [case_of(name, line) for line in records[f".rodata.{name}"] if RECORD.fullmatch(line)]) for name in lines}


def case_of(name, line):
    """An entry of a function's jump tables: its offset, and what its relocation adds."""
    found = CASE.fullmatch(line)
    if not found or found["function"] != name:
        raise Unclear(f"{name}: {line}: where does it go on?")
    return int(found["offset"], 16), int(found["to"], 16)
