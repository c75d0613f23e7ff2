"""The compiled code of a program, as objdump prints it: its functions, the memory that each instruction names, and the deepest stack of a function."""
import re
import subprocess

# objdump's words for a size, in bytes.
SIZES = {"BYTE": 1, "WORD": 2, "DWORD": 4, "FWORD": 6, "QWORD": 8, "TBYTE": 10, "OWORD": 16, "XMMWORD": 16, "YMMWORD": 32, "ZMMWORD": 64}
REGISTERS = "rax rbx rcx rdx rsi rdi rbp rsp r8 r9 r10 r11 r12 r13 r14 r15".split()
# The library's functions on blocks of memory: they call nothing, and their own stack is not counted.
BLOCKS = ("memcpy", "memmove", "memset")

LINE = re.compile(r"^ *([0-9a-f]+):\t(.*)$")
TARGET = re.compile(r"^([0-9a-f]+) <([^>]*)>$")
PLACE = re.compile(r"(?:(\w+) PTR )(?:(\w\w):)?(?:\[([^\]]*)\]|0x[0-9a-f]+)")


class Trouble(Exception):
    """Code that this file does not understand: nothing is said of it, rather than something wrong."""


class Instruction:
    def __init__(self, at, text):
        self.at = at
        text = re.sub(r"\s*#.*$", "", text).strip()
        words = text.split(None, 1)
        self.prefix = ""
        while len(words) == 2 and words[0] in ("rep", "repz", "repnz", "notrack", "bnd", "data16", "cs", "lock"):
            self.prefix += words[0] + " "
            words = words[1].split(None, 1)
        self.name = words[0] if words else ""
        self.rest = words[1].strip() if len(words) == 2 else ""
        found = TARGET.match(self.rest)
        self.target = int(found.group(1), 16) if found else None

    def places(self):
        """(reads, writes, size, base, index, scale, offset) for each place in memory that it names by registers."""
        if self.name.startswith("nop") or self.name == "lea":
            return []
        found = []
        for part, operand in enumerate(operands(self.rest)):
            match = PLACE.search(operand)
            if not match:
                if "[" in operand:
                    raise Trouble("a place without a size: %s %s" % (self.name, self.rest))
                continue
            size, segment, inside = match.groups()
            if inside is None or inside.startswith("rip"):
                continue
            if segment in ("fs", "gs") or size not in SIZES:
                raise Trouble("a place that is not understood: %s %s" % (self.name, self.rest))
            found.append((*self.way(part), SIZES[size], *address(inside)))
        return found

    def way(self, part):
        """Whether operand number `part`, a place in memory, is read and whether it is written."""
        if part > 0:
            return True, False
        if self.name.startswith(("mov", "set", "stos")):
            return False, True
        if self.name in ("cmp", "test", "bt", "push", "call", "jmp", "mul", "imul", "div", "idiv") or self.name.startswith(("ucomis", "comis", "scas", "cmps")):
            return True, False
        return True, True


def operands(text):
    return [word for word in re.split(r",(?![^\[]*\])", text) if word]


def address(inside):
    """Base, index, scale and offset of [rax+rcx*2-0x10]; -1 for a register that is not there."""
    base, index, scale, offset = -1, -1, 1, 0
    for sign, word in re.findall(r"([+-]?)([^+-]+)", inside):
        if word.startswith("0x"):
            offset += int(sign + word, 16)
            continue
        register, _, times = word.partition("*")
        if register not in REGISTERS:
            raise Trouble("an address by %s" % register)
        if times:
            index, scale = REGISTERS.index(register), int(times)
        elif base < 0:
            base = REGISTERS.index(register)
        else:
            index = REGISTERS.index(register)
    return base, index, scale, offset


class Code:
    def __init__(self, program):
        self.starts = {}
        self.functions = {}
        names = subprocess.run(["nm", program], check=True, stdout=subprocess.PIPE, text=True).stdout
        for line in names.splitlines():
            words = line.split(None, 2)
            if len(words) == 3 and words[1] in "tT":
                self.starts[words[2]] = int(words[0], 16)
        text = subprocess.run(["objdump", "-d", "-M", "intel", "--no-show-raw-insn", program], check=True, stdout=subprocess.PIPE, text=True).stdout
        current = None
        for line in text.splitlines():
            header = re.match(r"^([0-9a-f]+) <(.*)>:$", line)
            if header:
                current = []
                self.functions[int(header.group(1), 16)] = (header.group(2), current)
                continue
            found = LINE.match(line)
            if found and current is not None:
                current.append(Instruction(int(found.group(1), 16), found.group(2)))

    def block(self, at):
        """The library's function at a place, if one of BLOCKS is there."""
        name = self.functions[at][0]
        for block in BLOCKS:
            if name in (block, block + "@plt", "__wrap_" + block):
                return block
        return None

    def calls(self, at):
        """The places that a function calls, or goes on to."""
        inside = {i.at for i in self.functions[at][1]}
        found = []
        for i in self.functions[at][1]:
            if i.name == "call" or (i.name.startswith("j") and i.target not in inside and i.target is not None):
                if i.target is None:
                    raise Trouble("%s calls what it has in a register" % self.functions[at][0])
                found.append(i.target)
        return found

    def below(self, at):
        """A function and all that it may call, without BLOCKS."""
        found = []
        todo = [at]
        while todo:
            one = todo.pop()
            if one not in found and not self.block(one):
                found.append(one)
                todo += self.calls(one)
        return found

    def depths(self, at):
        """How deep the stack is before each instruction of a function: 0 where it is entered, which is behind the address that it returns to."""
        name, code = self.functions[at]
        place = {i.at: k for k, i in enumerate(code)}
        depth = {}
        probe = {}
        jumps = []
        todo = [(0, 0)]
        while True:
            while todo:
                k, d = todo.pop()
                if k >= len(code) or depth.get(k, d) != d:
                    raise Trouble("%s: the end of the code, or two depths, at %x" % (name, code[min(k, len(code) - 1)].at))
                if k in depth:
                    continue
                depth[k] = d
                i = code[k]
                after = d
                words = operands(i.rest)
                if i.name == "push":
                    after = d + 8
                elif i.name == "pop":
                    after = d - 8
                elif i.name in ("sub", "add") and words[0] == "rsp":
                    if not words[1].startswith(("0x", "-0x")):
                        raise Trouble("%s: %s %s" % (name, i.name, i.rest))
                    n = int(words[1], 16)
                    n -= 1 << 64 if n >> 63 else 0
                    after = d + n if i.name == "sub" else d - n
                elif i.name == "lea" and re.match(r"r\w+,\[rsp-0x[0-9a-f]+\]$", i.rest):
                    probe[words[0]] = d + int(re.search(r"0x([0-9a-f]+)", i.rest).group(1), 16)
                elif i.name == "cmp" and words[0] == "rsp" and words[1] in probe:
                    # Room is made page by page in a loop, down to the place in a register; the jump back is not followed.
                    todo.append((k + 2, probe[words[1]]))
                    continue
                elif i.name == "leave" or (words and words[0] == "rsp" and i.name not in ("cmp", "test")):
                    raise Trouble("%s: %s %s" % (name, i.name, i.rest))
                if i.name in ("ret", "ud2", "int3", "hlt"):
                    continue
                if i.name.startswith("j"):
                    if i.target in place:
                        todo.append((place[i.target], after))
                    if i.name == "jmp":
                        if i.target is None:
                            jumps.append(after)
                        continue
                todo.append((k + 1, after))
            # What is reached through a table of places only: it is as deep as the deepest of the jumps through tables.
            rest = [k for k, i in enumerate(code) if k not in depth and not i.name.startswith(("nop", "int3", "xchg", "cs", "data16", "ud2"))]
            if not rest or not jumps:
                break
            todo = [(rest[0], max(jumps))]
        return depth

    def stack(self, at, over=()):
        """The deepest stack of a function with what it calls, its own part of that, the path, and the functions of BLOCKS at its end points."""
        name, code = self.functions[at]
        if at in over:
            raise Trouble("%s calls itself" % name)
        depth = self.depths(at)
        own = deepest = max(depth.values())
        path = [(name, own)]
        ends = set()
        inside = {i.at for i in code}
        for k, d in depth.items():
            i = code[k]
            if i.name != "call" and not (i.name.startswith("j") and i.target is not None and i.target not in inside):
                continue
            if i.target is None:
                raise Trouble("%s calls what it has in a register" % name)
            # A call puts the address that it returns to on the stack.
            here = d + 8 if i.name == "call" else d
            block = self.block(i.target)
            if block:
                ends.add(block)
                below, more = here, []
            else:
                most, more, others = self.stack(i.target, (*over, at))
                ends |= others
                below = here + most
            if below > deepest:
                deepest, path = below, [(name, here), *more]
        return deepest, path, ends
