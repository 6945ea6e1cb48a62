"""A machine of its own for the tests of stacks: it runs an image step by step, as RV64IM in mode M with a timer's interrupt, and
keeps the calls that are open in a shadow stack, by return addresses and stack pointers. It shares nothing with the program."""
import struct

BASE = 0x80000000
MEMORY = 1 << 20
WORD = (1 << 64) - 1
LINKS = (1, 5)
MSTATUS, MIE, MTVEC, MSCRATCH, MEPC, MCAUSE, MTVAL = 0x300, 0x304, 0x305, 0x340, 0x341, 0x342, 0x343
TIMER = 7


def signed(value, bits=64):
    value &= (1 << bits) - 1
    return value - (1 << bits) if value >> (bits - 1) else value


def extended(value):
    """32 bits as a register of 64 holds them."""
    return signed(value, 32) & WORD


def quotient(a, b):
    return -(-a // b) if (a < 0) != (b < 0) else a // b


def divided(a, b, bits, is_signed):
    """Quotient and rest, as the extension M has them."""
    mask = (1 << bits) - 1
    a, b = (signed(a, bits), signed(b, bits)) if is_signed else (a & mask, b & mask)
    if b == 0:
        return -1, a
    whole = quotient(a, b)
    return whole, a - whole * b


class Activation:
    """A function that was called and hasn't returned: the name that it was called by, the function that it was in where it led
    on, which a tail call changes, where it returns to, and the stack pointer that it began with."""
    __slots__ = ("called", "now", "back", "stack", "handler")

    def __init__(self, called, back, stack, handler=False):
        self.called = self.now = called
        self.back, self.stack, self.handler = back, stack, handler

    def names(self):
        return [self.now] if self.called in (None, self.now) else [self.called, self.now]


class Machine:
    def __init__(self, image, name_of, timers=()):
        self.memory = bytearray(image) + bytes(MEMORY - len(image))
        self.name_of = name_of
        self.x, self.pc, self.steps = [0] * 32, BASE, 0
        self.csrs = {MSTATUS: 0, MIE: 0, MTVEC: 0, MSCRATCH: 0, MEPC: 0, MCAUSE: 0, MTVAL: 0}
        self.timers, self.pending = set(timers), False
        self.calls = [Activation(None, None, WORD)]     # the start code, which nobody called
        self.jumped = 0             # how often a jump back left functions behind, as longjmp does
        self.handled = 0            # how often a handler began

    def stack(self):
        """The names of the functions that are open, the outermost first."""
        self.calls[-1].now = self.name_of(self.pc)
        return [name for activation in self.calls for name in activation.names()]

    # ------------------------------------------------------------ the shadow stack

    def called(self, target, back):
        self.calls[-1].now = self.name_of(self.pc)
        self.calls.append(Activation(self.name_of(target), back, self.x[2]))

    def returned(self, target):
        """A jump through a link register without a link: back to the caller, or to a function further out."""
        if self.calls[-1].back == target:
            self.calls.pop()
            return
        # What longjmp restored says who is alive: those that began with no lower a stack pointer than there is now.
        name = self.name_of(target)
        alive = [i for i, one in enumerate(self.calls) if name in (one.called, one.now) and one.stack >= self.x[2]]
        if alive:
            self.jumped += len(self.calls) - 1 > alive[-1]
            del self.calls[alive[-1] + 1:]

    def trapped(self, target):
        self.calls[-1].now = self.name_of(self.csrs[MEPC])
        self.calls.append(Activation(self.name_of(target), None, self.x[2], True))
        self.handled += 1

    def trap_returned(self):
        while not self.calls.pop().handler:
            pass

    # ------------------------------------------------------------ steps

    def step(self):
        if self.steps in self.timers:
            self.pending = True
        self.steps += 1
        if self.pending and self.csrs[MIE] >> TIMER & 1 and self.csrs[MSTATUS] >> 3 & 1:
            self.pending = False
            self.trap(1 << 63 | TIMER, self.pc)
            return
        word, = struct.unpack_from("<I", self.memory, self.pc - BASE)
        self.x[0] = 0
        self.execute(word)
        self.x[0] = 0

    def trap(self, cause, pc):
        status = self.csrs[MSTATUS]
        self.csrs[MSTATUS] = status & ~0x88 | (status >> 3 & 1) << 7 | 3 << 11
        self.csrs[MCAUSE], self.csrs[MEPC] = cause, pc
        self.pc = self.csrs[MTVEC] & ~3
        self.trapped(self.pc)

    def execute(self, word):
        opcode, rd, f3, a, b, f7 = word & 127, word >> 7 & 31, word >> 12 & 7, word >> 15 & 31, word >> 20 & 31, word >> 25
        x, follows = self.x, self.pc + 4
        low = signed(word >> 20, 12)
        if opcode == 0x13 or opcode == 0x33:
            x[rd] = self.whole(f3, f7, x[a], low & WORD if opcode == 0x13 else x[b], opcode == 0x33)
        elif opcode == 0x1B or opcode == 0x3B:
            x[rd] = self.half(f3, f7, x[a], low & WORD if opcode == 0x1B else x[b], opcode == 0x3B)
        elif opcode == 0x03:
            x[rd] = self.load(f3, x[a] + low & WORD)
        elif opcode == 0x23:
            at = x[a] + signed(f7 << 5 | rd, 12) & WORD
            self.store(at, 1 << (f3 & 3), x[b])
        elif opcode == 0x37:
            x[rd] = extended(word & 0xFFFFF000)
        elif opcode == 0x17:
            x[rd] = self.pc + signed(word & 0xFFFFF000, 32) & WORD
        elif opcode == 0x63:
            if self.holds(f3, x[a], x[b]):
                follows = self.pc + signed(word >> 31 << 12 | (word >> 7 & 1) << 11 | (word >> 25 & 63) << 5 | (word >> 8 & 15) << 1, 13)
        elif opcode == 0x6F:
            target = self.pc + signed(word >> 31 << 20 | (word >> 12 & 255) << 12 | (word >> 20 & 1) << 11 | (word >> 21 & 1023) << 1, 21)
            self.leads(rd, None, target, follows)
            x[rd], follows = follows, target
        elif opcode == 0x67:
            target = x[a] + low & WORD & ~1
            self.leads(rd, a, target, follows)
            x[rd], follows = follows, target
        elif opcode == 0x73:
            follows = self.system(word, f3, rd, a, follows)
        elif opcode != 0x0F:
            raise AssertionError("no instruction %08x at %x" % (word, self.pc))
        self.pc = follows

    def leads(self, rd, by, target, follows):
        """A jump, by its registers: a call, or a return; any other stays in the function, or is a tail call, as the place tells."""
        if rd in LINKS:
            if by in LINKS and by != rd:
                self.returned(target)   # a swap: back to one, and a call from there; no compiler makes it
            self.called(target, follows)
        elif by in LINKS:
            self.returned(target)

    def system(self, word, f3, rd, a, follows):
        if word == 0x30200073:          # MRET
            status = self.csrs[MSTATUS]
            self.csrs[MSTATUS] = status & ~0x1888 | (status >> 7 & 1) << 3 | 1 << 7
            self.trap_returned()
            return self.csrs[MEPC]
        if word == 0x10500073:          # WFI
            return follows
        number = word >> 20
        old, new = self.csrs[number], self.x[a] if f3 < 4 else a
        if f3 & 3 != 1:
            new = old | new if f3 & 3 == 2 else old & ~new
        if f3 & 3 == 1 or a:
            self.csrs[number] = new & WORD
        self.x[rd] = old
        return follows

    @staticmethod
    def holds(f3, a, b):
        if f3 < 2:
            return (a == b) != bool(f3)
        return ((signed(a) < signed(b)) if f3 < 6 else a < b) != bool(f3 & 1)

    def load(self, f3, at):
        size = 1 << (f3 & 3)
        assert BASE <= at <= BASE + MEMORY - size, "a load of %x at %x" % (at, self.pc)
        value = int.from_bytes(self.memory[at - BASE:at - BASE + size], "little")
        return value if f3 & 4 else signed(value, 8 * size) & WORD

    def store(self, at, size, value):
        assert BASE <= at <= BASE + MEMORY - size, "a store to %x at %x" % (at, self.pc)
        self.memory[at - BASE:at - BASE + size] = (value & (1 << 8 * size) - 1).to_bytes(size, "little")

    @staticmethod
    def whole(f3, f7, a, b, is_register):
        if is_register and f7 == 1:
            if f3 < 4:
                left = signed(a) if f3 in (0, 1, 2) else a
                right = signed(b) if f3 in (0, 1) else b
                return (left * right >> (64 if f3 else 0)) & WORD
            return divided(a, b, 64, not f3 & 1)[f3 >> 1 & 1] & WORD
        shift = b & 63
        if f3 == 0:
            return (a - b if is_register and f7 == 0x20 else a + b) & WORD
        if f3 == 5:
            return (signed(a) >> shift if f7 >> 5 & 1 else a >> shift) & WORD
        return (None, a << shift & WORD, int(signed(a) < signed(b)), int(a < b), a ^ b, None, a | b, a & b)[f3]

    @staticmethod
    def half(f3, f7, a, b, is_register):
        if is_register and f7 == 1:
            return extended(a * b if f3 == 0 else divided(a, b, 32, not f3 & 1)[f3 >> 1 & 1])
        shift = b & 31
        if f3 == 0:
            return extended(a - b if is_register and f7 == 0x20 else a + b)
        if f3 == 1:
            return extended(a << shift)
        return extended(signed(a, 32) >> shift if f7 >> 5 & 1 else (a & 0xFFFFFFFF) >> shift)
