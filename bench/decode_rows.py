#!/usr/bin/env python3
"""Prints the cases of crates/rv_decode/src/tests.rt: for each row of the table of instructions one word with its
operands, and one word beside it that is no instruction. LLVM's assembler makes the words, so nothing here shares
a line with the decoder; the operands are those of the text, written beside it by hand. SCTRCLR is newer than the
assembler and is given as the word of its standard. The refused word differs from the row's word in one bit of
opcode, funct3 or funct7 (or of the whole word, where the row is one word), and LLVM's disassembler refuses it with
M as the only extension."""
import re
import subprocess

MC = ["llvm-mc", "-triple=riscv64", "-mattr=+m"]
M64 = 1 << 64


def imm(n):
    n %= M64
    if n < 1 << 16:
        return "0x%X" % n
    if n < 1 << 32:
        return "0x%04X_%04X" % (n >> 16, n & 0xFFFF)
    digits = "%016X" % n
    return "0x" + "_".join(digits[k:k + 4] for k in range(0, 16, 4))


def signed(width, rd, rs1, off):
    return "Width::%s, true, %d, %d, %s" % (width, rd, rs1, imm(off))


def unsigned(width, rd, rs1, off):
    return "Width::%s, false, %d, %d, %s" % (width, rd, rs1, imm(off))


def store(width, rs1, rs2, off):
    return "Width::%s, %d, %d, %s" % (width, rs1, rs2, imm(off))


def branch(cond, rs1, rs2, off):
    return "Cond::%s, %d, %d, %s" % (cond, rs1, rs2, imm(off))


def alu_imm(op, rd, rs1, value):
    return "AluOp::%s, %d, %d, %s" % (op, rd, rs1, imm(value))


def alu(op, rd, rs1, rs2):
    return "AluOp::%s, %d, %d, %d" % (op, rd, rs1, rs2)


def csr(op, rd, kind, arg, number):
    return "CsrOp::%s, %d, CsrArg::%s(%d), 0x%03X" % (op, rd, kind, arg, number)


GROUPS = {
    "jumps": [
        ("lui x31, 0x80000", "31, " + imm(-0x80000000)),
        ("auipc x10, 0x7ffff", "10, " + imm(0x7FFFF000)),
        ("jal x1, -2", "1, " + imm(-2)),
        ("jal x0, 1048574", "0, 0xF_FFFE"),
        ("jal x30, 2048", "30, 0x800"),
        ("jalr x1, -2048(x5)", "1, 5, " + imm(-2048)),
    ],
    "branches": [
        ("beq x3, x28, -4096", branch("Eq", 3, 28, -4096)),
        ("bne x0, x31, 4094", branch("Ne", 0, 31, 4094)),
        ("blt x17, x6, 2048", branch("Lt", 17, 6, 2048)),
        ("bge x8, x9, -2", branch("Ge", 8, 9, -2)),
        ("bltu x31, x1, 32", branch("Ltu", 31, 1, 32)),
        ("bgeu x16, x16, 30", branch("Geu", 16, 16, 30)),
    ],
    "loads": [
        ("lb x31, 2047(x1)", signed("B", 31, 1, 2047)),
        ("lh x2, -2048(x16)", signed("H", 2, 16, -2048)),
        ("lw x4, -1(x8)", signed("W", 4, 8, -1)),
        ("ld x8, 1024(x4)", signed("D", 8, 4, 1024)),
        ("lbu x16, 1(x2)", unsigned("B", 16, 2, 1)),
        ("lhu x1, 85(x31)", unsigned("H", 1, 31, 85)),
        ("lwu x21, -86(x10)", unsigned("W", 21, 10, -86)),
        ("sb x1, -2048(x31)", store("B", 31, 1, -2048)),
        ("sh x16, 2047(x2)", store("H", 2, 16, 2047)),
        ("sw x8, 31(x4)", store("W", 4, 8, 31)),
        ("sd x21, 32(x10)", store("D", 10, 21, 32)),
    ],
    "immediates": [
        ("addi x31, x1, -2048", alu_imm("Add", 31, 1, -2048)),
        ("slti x2, x16, 2047", alu_imm("Slt", 2, 16, 2047)),
        ("sltiu x4, x8, -1", alu_imm("Sltu", 4, 8, -1)),
        ("xori x8, x4, 85", alu_imm("Xor", 8, 4, 85)),
        ("ori x16, x2, -86", alu_imm("Or", 16, 2, -86)),
        ("andi x1, x31, 1024", alu_imm("And", 1, 31, 1024)),
        ("slli x21, x10, 63", alu_imm("Sll", 21, 10, 63)),
        ("srli x10, x21, 32", alu_imm("Srl", 10, 21, 32)),
        ("srai x31, x31, 31", alu_imm("Sra", 31, 31, 31)),
        ("addiw x7, x24, -1", alu_imm("Addw", 7, 24, -1)),
        ("slliw x24, x7, 31", alu_imm("Sllw", 24, 7, 31)),
        ("srliw x12, x19, 1", alu_imm("Srlw", 12, 19, 1)),
        ("sraiw x19, x12, 16", alu_imm("Sraw", 19, 12, 16)),
    ],
    "registers": [
        (name.lower() + " x%d, x%d, x%d" % (rd, rs1, rs2), alu(name, rd, rs1, rs2))
        for name, rd, rs1, rs2 in [
            ("Add", 31, 1, 2), ("Sub", 1, 31, 2), ("Sll", 1, 2, 31), ("Slt", 16, 8, 4), ("Sltu", 8, 16, 4),
            ("Xor", 8, 4, 16), ("Srl", 21, 10, 5), ("Sra", 10, 21, 5), ("Or", 5, 10, 21), ("And", 0, 31, 30),
            ("Mul", 3, 7, 15), ("Mulh", 7, 3, 15), ("Mulhsu", 7, 15, 3), ("Mulhu", 24, 12, 6), ("Div", 12, 24, 6),
            ("Divu", 12, 6, 24), ("Rem", 17, 9, 29), ("Remu", 9, 17, 29), ("Addw", 9, 29, 17), ("Subw", 22, 11, 13),
            ("Sllw", 11, 22, 13), ("Srlw", 11, 13, 22), ("Sraw", 14, 28, 25), ("Mulw", 28, 14, 25),
            ("Divw", 28, 25, 14), ("Divuw", 18, 20, 23), ("Remw", 20, 18, 23), ("Remuw", 20, 23, 18)]
    ],
    "system": [
        ("fence rw, w", "Instr::Fence"),
        ("fence.i", "Instr::FenceI"),
        ("csrrw x1, 0xfff, x31", csr("Write", 1, "Reg", 31, 0xFFF)),
        ("csrrs x31, 0x34e, x0", csr("Set", 31, "Reg", 0, 0x34E)),
        ("csrrc x0, 0x800, x16", csr("Clear", 0, "Reg", 16, 0x800)),
        ("csrrwi x2, 0x15f, 31", csr("Write", 2, "Imm", 31, 0x15F)),
        ("csrrsi x16, 0x001, 0", csr("Set", 16, "Imm", 0, 1)),
        ("csrrci x8, 0x250, 21", csr("Clear", 8, "Imm", 21, 0x250)),
        ("ecall", "Instr::Ecall"),
        ("ebreak", "Instr::Ebreak"),
        ("mret", "Instr::Mret"),
        ("sret", "Instr::Sret"),
        ("wfi", "Instr::Wfi"),
        ("sctrclr", "Instr::CtrClr"),
    ],
}


def assembled(text):
    if text == "sctrclr":
        return 0x10400073
    out = subprocess.run(MC + ["-show-encoding"], input=text + "\n", capture_output=True, text=True, check=True).stdout
    found = re.search(r"encoding: \[(\w+),(\w+),(\w+),(\w+)\]", out)
    return int.from_bytes(bytes(int(b, 16) for b in found.groups()), "little")


def refused(word):
    """Whether LLVM's disassembler knows no instruction of this word, and it isn't SCTRCLR."""
    if word == 0x10400073:
        return False
    text = " ".join("0x%02x" % b for b in word.to_bytes(4, "little"))
    done = subprocess.run(MC + ["-disassemble"], input=text + "\n", capture_output=True, text=True)
    return "invalid instruction encoding" in done.stderr


def neighbour(text, word):
    """A refused word one bit away, in a field that selects the row."""
    opcode = word & 0x7F
    if opcode == 0x73 and word >> 12 & 7 == 0:
        bits = [20, 21, 22, 28, 7, 15]
    elif opcode in (0x33, 0x3B) or (opcode in (0x13, 0x1B) and word >> 12 & 3 == 1):
        bits = [27, 30, 31, 26, 12, 13]
    elif opcode in (0x67, 0x63, 0x03, 0x23, 0x0F, 0x73, 0x1B):
        bits = [13, 14, 12, 2, 3, 0]
    else:
        bits = [3, 2, 0, 1]
    for bit in bits:
        other = word ^ 1 << bit
        if refused(other):
            return other
    raise ValueError(text)


def main():
    for group, cases in GROUPS.items():
        print("//", group)
        lines = [(assembled(text), text, want) for text, want in cases]
        for word, text, want in lines:
            print("(0x%08X, %s), // %s" % (word, want, text))
        for word, text, want in lines:
            print("0x%08X, // beside %s" % (neighbour(text, word), text))


if __name__ == "__main__":
    main()
