"""What is played on a lent table, step by step: each step with the name of its kind, its line for the driver and what it has to answer."""

# The kinds of steps that gather a data byte or end a cycle; all others are plain.
ACTS = [
    "ninth frame of a data byte, answered",
    "Wait that ends a cycle of the main array",
    "Wait that ends a cycle of the user bytes",
    "Wait that ends a cycle of a zone register",
    "Wait that ends a cycle of the lock",
    "Wait that ends a cycle of the freeze",
    "Cut that ends a cycle of the main array",
    "Cut that ends a cycle of the user bytes",
]
NULL, WAIT, RESET, CUT = 2, 3, 4, 5
# Answers.
LOW, HIGH, BUSY = 0x00, 0x01, 0x80
REFUSED = 256
AT21CS01, AT21CS11 = 0x01, 0x11
NO_PART = 0x22


class Plays:
    """A list of (kind of step or None, line, answers that are right or None)."""

    def __init__(self, count, slave, part):
        self.slave = slave
        self.lines = [(None, "t %x 0 %x" % (count, part), None)]

    def step(self, what, kind, mask=0, right=None):
        self.lines.append((what, "s %x %x" % (kind, mask), right))

    def null(self, what="Null", right=(0x02,)):
        self.step(what, NULL, right=right)

    def byte(self, name, byte, right):
        """Eight bits and the ninth frame, in which the master leaves the wire high."""
        for k in range(8):
            self.step("bit of a %s" % name, byte >> (7 - k) & 1, right=(LOW, HIGH))
        self.step("ninth frame of a %s, %s" % (name, "answered" if right == LOW else "not answered"), 1, right=(right,))

    def opens(self, opcode, read=0, right=LOW):
        self.null()
        self.byte("device address byte", opcode << 4 | self.slave << 1 | read, right)

    def places(self, opcode, at, right=LOW):
        self.opens(opcode)
        self.byte("memory address byte", at, right)

    def puts_out(self, name, *expected):
        """Bytes that the device puts out, with the master's ninth frames, of which the last ends."""
        for n, byte in enumerate(expected):
            for k in range(8):
                self.step("bit that is put out, " + name, 1, right=(byte >> (7 - k) & 1,))
            last = n + 1 == len(expected)
            self.step("ninth frame of a byte put out, " + name, 1 if last else 0, right=(LOW, HIGH))

    def reads(self, opcode, at, name, *expected):
        self.places(opcode, at)
        self.opens(opcode, 1)
        self.puts_out(name, *expected)

    def gathers(self, opcode, at, *data):
        self.places(opcode, at)
        for byte in data:
            self.byte("data byte", byte, LOW)

    def writes(self, opcode, at, *data):
        self.gathers(opcode, at, *data)
        self.null("Null that begins a cycle")
        for kind in 0, 1, RESET:
            self.step("frame during a cycle, not carried out (80)", kind, right=(BUSY,))
        self.null("Null during a cycle")


def commands(count, slave, part):
    """The commands on one device of so many of a part."""
    p = Plays(count, slave, part)
    p.step("Reset", RESET)
    p.step("Wait without a cycle", WAIT)
    p.step("Cut without a cycle", CUT, 0xFF)
    p.step("bit that is ignored", 1)
    p.reads(0xA, 0x10, "main array", 0xFF, 0xFF)
    p.reads(0xB, 0x02, "Security Register", 0xFF, 0xFF)
    p.opens(0xC, 1)
    p.puts_out("ID", 0x00, 0xD3, 0x80)
    p.reads(0x7, 0x02, "zone register", 0x00)
    p.opens(0xE)
    p.opens(0xE, 1)
    p.opens(0xD, 1, right=HIGH)
    p.opens(0x5, right=HIGH)
    p.step("bit that is ignored", 0)
    p.step("bit that is ignored", 1)
    p.writes(0xA, 0x10, 0x3C, 0x5A, 0x81)
    p.step("Wait that ends a cycle of the main array", WAIT)
    p.reads(0xA, 0x10, "main array", 0x3C, 0x5A, 0x81, 0xFF)
    p.writes(0xB, 0x12, 0x77, 0x01)
    p.step("Wait that ends a cycle of the user bytes", WAIT)
    p.reads(0xB, 0x12, "Security Register", 0x77, 0x01)
    p.writes(0xA, 0x40, 0x00)
    p.step("Cut that ends a cycle of the main array", CUT, 0x0F)
    p.step("bit that is ignored", 1)
    p.reads(0xA, 0x40, "main array", 0xF0, 0xFF)
    p.writes(0xB, 0x10, 0x00)
    p.step("Cut that ends a cycle of the user bytes", CUT, 0xF0)
    p.reads(0xB, 0x10, "Security Register", 0x0F, 0xFF)
    p.writes(0x7, 0x02, 0xFF)
    p.step("Wait that ends a cycle of a zone register", WAIT)
    p.reads(0x7, 0x02, "zone register", 0xFF)
    p.places(0xA, 0x20)
    p.byte("data byte", 0x00, HIGH)
    p.writes(0x1, 0x55, 0xAA)
    p.step("Wait that ends a cycle of the freeze", WAIT)
    p.opens(0x1, right=HIGH)
    p.writes(0x2, 0x60, 0x00)
    p.step("Wait that ends a cycle of the lock", WAIT)
    p.places(0xB, 0x10)
    p.byte("data byte", 0x00, HIGH)
    p.null()
    p.step("Reset", RESET)
    p.step("refused with 10", 6, right=(REFUSED + 10,))
    p.step("refused with 10", 0xFF, right=(REFUSED + 10,))
    return p.lines


def refused(count):
    """Steps on tables that are not well formed: more than one device at a slave address, a part that is none, too many."""
    p = Plays(0, 0, AT21CS11)
    p.lines = [(None, ("r %x 0 %x" % (count, AT21CS11)) if count > 1 else "t 1 0 %x" % NO_PART, None)]
    for kind in 0, 1, NULL, WAIT, RESET, CUT, 6:
        p.step("refused with 15", kind, right=(REFUSED + 15,))
    return p.lines


def saves(count):
    return [(None, "t %x 0 %x" % (count, AT21CS11), None), ("save", "v %x" % (168 * count), (0,)), ("save, refused with 13", "v %x" % (168 * count - 1), (REFUSED + 13,))]


def all_of(sizes):
    """For each size of a table the lines that are played on it: the commands on its last device and on its first; a table of more than eight is refused."""
    return {n: (commands(n, n - 1, AT21CS11) + commands(n, 0, AT21CS01) + refused(n) + saves(n) if n <= 8 else refused(n)) for n in sizes}
