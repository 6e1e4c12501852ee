"""Cases of encodings: words with their rows and operands, from outside the program.

Words of RV64IM, Zicsr, Zifencei and the privileged rows are made by GNU as (Debian's package
binutils-riscv64-linux-gnu); the operands are those of the assembly text. Words of opcode 0x5B, LC and SC
are put together here from the fields of CHERI-RISC-V's encodings, since no packaged assembler has them.
"""
import os
import subprocess
import tempfile

from model.row_forms import FORM, FORMS
from model.words import SPACE

AS = "riscv64-linux-gnu-as"
OBJCOPY = "riscv64-linux-gnu-objcopy"


def assembled(lines):
    """The words that GNU as makes of these lines, one each."""
    with tempfile.TemporaryDirectory() as place:
        source, obj, raw = (os.path.join(place, n) for n in ("a.s", "a.o", "a.bin"))
        with open(source, "w") as f:
            f.write(".option norvc\n.option norelax\n" + "\n".join(lines) + "\n")
        subprocess.run([AS, "-march=rv64im_zicsr_zifencei_zba_zbb_zbc_zbs", "-o", obj, source], check=True)
        subprocess.run([OBJCOPY, "-O", "binary", "-j", ".text", obj, raw], check=True)
        data = open(raw, "rb").read()
    words = [int.from_bytes(data[i:i + 4], "little") for i in range(0, len(data), 4)]
    assert len(words) == len(lines), (len(words), len(lines))
    return words


TEXTS = []  # (variant, mnemonic, text, rd, rs1, rs2, imm)


def text(variant, mnemonic, line, rd=0, rs1=0, rs2=0, imm=0):
    TEXTS.append((variant, mnemonic, line, rd, rs1, rs2, imm % SPACE))


def variant(mnemonic):
    return "".join(part.capitalize() for part in mnemonic.split("."))


for name in ("lui", "auipc"):
    for rd, high in ((10, 0x12345), (31, 0x80000), (1, 0xFFFFF), (0, 0)):
        signed = (high << 12) - (2**32 if high >= 0x80000 else 0)
        text(variant(name), name, f"{name} x{rd}, {high}", rd=rd, imm=signed)
for rd, offset in ((1, 8), (0, -4), (31, 1048574), (5, -1048576), (6, 2048), (7, 0x55554), (8, -2)):
    text("Jal", "jal", f"jal x{rd}, .{offset:+d}", rd=rd, imm=offset)
for rd, rs1, imm in ((0, 1, 0), (31, 30, -1), (5, 6, 2047), (6, 5, -2048)):
    text("Jalr", "jalr", f"jalr x{rd}, {imm}(x{rs1})", rd=rd, rs1=rs1, imm=imm)
for name in FORMS["rs1, rs2, branch"].split():
    for rs1, rs2, offset in ((10, 11, 16), (10, 11, -16), (10, 11, 2048), (31, 1, 4094), (1, 31, -4096), (7, 8, 30), (9, 2, 0x7E0)):
        text(variant(name), name, f"{name} x{rs1}, x{rs2}, .{offset:+d}", rs1=rs1, rs2=rs2, imm=offset)
for name in ("lb", "lh", "lw", "ld", "lbu", "lhu", "lwu"):
    for rd, rs1, imm in ((10, 11, 0), (31, 1, -2048), (1, 31, 2047)):
        text(variant(name), name, f"{name} x{rd}, {imm}(x{rs1})", rd=rd, rs1=rs1, imm=imm)
for name in ("sb", "sh", "sw", "sd"):
    for rs2, rs1, imm in ((10, 11, 0), (31, 1, -2048), (1, 31, 2047), (4, 5, 33), (5, 4, -32)):
        text(variant(name), name, f"{name} x{rs2}, {imm}(x{rs1})", rs1=rs1, rs2=rs2, imm=imm)
text("Fence", "fence", "fence iorw, iorw", imm=255)
text("Fence", "fence", ".insn i 0x0f, 0, x5, x6, -3", rd=5, rs1=6, imm=-3)
text("FenceI", "fence.i", "fence.i")
text("FenceI", "fence.i", ".insn i 0x0f, 1, x31, x1, 2047", rd=31, rs1=1, imm=2047)
for name in ("addi", "slti", "sltiu", "xori", "ori", "andi", "addiw"):
    for rd, rs1, imm in ((10, 10, 5), (31, 1, -2048), (1, 31, 2047), (2, 3, -1)):
        text(variant(name), name, f"{name} x{rd}, x{rs1}, {imm}", rd=rd, rs1=rs1, imm=imm)
for name in FORMS["rd, rs1, shift6"].split():
    for rd, rs1, imm in ((10, 10, 32), (31, 1, 63), (1, 31, 0), (2, 3, 31)):
        text(variant(name), name, f"{name} x{rd}, x{rs1}, {imm}", rd=rd, rs1=rs1, imm=imm)
for name in FORMS["rd, rs1, shift5"].split():
    for rd, rs1, imm in ((10, 10, 16), (31, 1, 31), (1, 31, 0)):
        text(variant(name), name, f"{name} x{rd}, x{rs1}, {imm}", rd=rd, rs1=rs1, imm=imm)
for name in FORMS["rd, rs1, rs2"].split():
    for rd, rs1, rs2 in ((10, 11, 12), (31, 1, 16), (1, 16, 31)):
        text(variant(name), name, f"{name} x{rd}, x{rs1}, x{rs2}", rd=rd, rs1=rs1, rs2=rs2)
for name in FORMS["rd, csr, rs1"].split():
    for rd, csr, rs1 in ((10, 0x305, 11), (31, 0xF14, 0), (0, 0xFFF, 31)):
        text(variant(name), name, f"{name} x{rd}, {csr}, x{rs1}", rd=rd, rs1=rs1, imm=csr)
for name in FORMS["rd, csr, five"].split():
    for rd, csr, number in ((10, 0x300, 8), (31, 0x344, 31), (0, 0x800, 1)):
        text(variant(name), name, f"{name} x{rd}, {csr}, {number}", rd=rd, rs1=number, imm=csr)
for name in ("ecall", "ebreak", "mret", "wfi"):
    text(variant(name), name, name)

# ---- CHERI-RISC-V, by its fields

FIELDS = []  # (variant, mnemonic, word, rd, rs1, rs2, imm)


def fields(variant, mnemonic, funct7=0, rs2=0, rs1=0, funct3=0, rd=0, opcode=0x5B, operands=(0, 0, 0, 0)):
    word = funct7 << 25 | rs2 << 20 | rs1 << 15 | funct3 << 12 | rd << 7 | opcode
    r_d, r_s1, r_s2, imm = operands
    FIELDS.append((variant, mnemonic, word, r_d, r_s1, r_s2, imm % SPACE))


PAIRS = ((10, 11, 12), (31, 1, 16))
for funct7, name in ((0x01, "CSpecialRW"), (0x08, "CSetBounds"), (0x09, "CSetBoundsExact"), (0x0B, "CSeal"),
                     (0x0C, "CUnseal"), (0x0D, "CAndPerm"), (0x0E, "CSetFlags"), (0x0F, "CSetOffset"),
                     (0x10, "CSetAddr"), (0x11, "CIncOffset"), (0x14, "CSub"), (0x20, "CTestSubset"),
                     (0x21, "CSetEqualExact")):
    for rd, rs1, rs2 in PAIRS:
        fields(name, name.lower(), funct7=funct7, rs2=rs2, rs1=rs1, rd=rd, operands=(rd, rs1, rs2, 0))
for rd, rs1, imm in ((10, 11, 5), (31, 1, -2048), (1, 31, 2047), (2, 3, -1)):
    bits = imm % 4096
    fields("CIncOffsetImm", "cincoffsetimm", funct7=bits >> 5, rs2=bits & 31, rs1=rs1, funct3=1, rd=rd, operands=(rd, rs1, 0, imm))
    fields("CSetBoundsImm", "csetboundsimm", funct7=bits >> 5, rs2=bits & 31, rs1=rs1, funct3=2, rd=rd, operands=(rd, rs1, 0, bits))
    fields("Lc", "lc", funct7=bits >> 5, rs2=bits & 31, rs1=rs1, funct3=2, rd=rd, opcode=0x0F, operands=(rd, rs1, 0, imm))
    fields("Sc", "sc", funct7=bits >> 5, rs2=rd, rs1=rs1, funct3=4, rd=bits & 31, opcode=0x23, operands=(0, rs1, rd, imm))
for place, name in ((0, "sb"), (1, "sh"), (2, "sw"), (3, "sd"), (4, "sc")):
    for add, form in ((0, "ddc"), (8, "cap")):
        for _, rs1, rs2 in PAIRS:
            fields(variant(f"{name}.{form}"), f"{name}.{form}", funct7=0x7C, rs2=rs2, rs1=rs1, rd=place + add, operands=(0, rs1, rs2, 0))
for place, name in ((0, "lb"), (1, "lh"), (2, "lw"), (3, "ld"), (4, "lbu"), (5, "lhu"), (6, "lwu"), (0x17, "lc")):
    for add, form in ((0, "ddc"), (8, "cap")):
        for rd, rs1, _ in PAIRS:
            fields(variant(f"{name}.{form}"), f"{name}.{form}", funct7=0x7D, rs2=place + add, rs1=rs1, rd=rd, operands=(rd, rs1, 0, 0))
for _, rs1, rs2 in PAIRS:
    fields("CInvoke", "cinvoke", funct7=0x7E, rs2=rs2, rs1=rs1, rd=1, operands=(0, rs1, rs2, 0))
for place, name, mnemonic in (
        (0, "CGetPerm", "cgetperm"), (1, "CGetType", "cgettype"), (2, "CGetBase", "cgetbase"), (3, "CGetLen", "cgetlen"),
        (4, "CGetTag", "cgettag"), (5, "CGetSealed", "cgetsealed"), (6, "CGetOffset", "cgetoffset"), (7, "CGetFlags", "cgetflags"),
        (8, "Crrl", "crrl"), (9, "Cram", "cram"), (0x0A, "CMove", "cmove"), (0x0B, "CClearTag", "ccleartag"),
        (0x0C, "JalrCap", "jalr.cap"), (0x0F, "CGetAddr", "cgetaddr"), (0x11, "CSealEntry", "csealentry")):
    for rd, rs1, _ in PAIRS:
        fields(name, mnemonic, funct7=0x7F, rs2=place, rs1=rs1, rd=rd, operands=(rd, rs1, 0, 0))

# ---- words that are no row, by the gaps between the rows

NONE = [
    (0x00000000, "all zeros"), (0xFFFFFFFF, "all ones"),
    (0x0205151B, "slliw with bit 25 set"), (0x0805551B, "sraiw's place with funct7 4"), (0x4005151B, "slliw with bit 30 set"),
    (0x04051513, "slli with bit 26 set"), (0x44055513, "srai with bit 26 set"),
    (0xFC00005B, "funct7 0x7E, rd field 0"), (0xFC00015B, "funct7 0x7E, rd field 2"),
    (0xFED5055B, "funct7 0x7F, rs2 field 0x0D"), (0xFF05055B, "funct7 0x7F, rs2 field 0x10"), (0xFFF5055B, "funct7 0x7F, rs2 field 0x1F"),
    (0xF8B502DB, "funct7 0x7C, rd field 5"), (0xF8B506DB, "funct7 0x7C, rd field 0x0D"),
    (0xFA75055B, "funct7 0x7D, rs2 field 7"), (0xFB05055B, "funct7 0x7D, rs2 field 0x10"), (0xFB65055B, "funct7 0x7D, rs2 field 0x16"),
    (0x0000005B, "opcode 0x5B, funct7 0"), (0x2600005B, "opcode 0x5B, funct7 0x13"), (0x0000305B, "opcode 0x5B, funct3 3"),
    (0x0000705B, "opcode 0x5B, funct3 7"),
    (0x00001067, "opcode 0x67, funct3 1"), (0x00002063, "opcode 0x63, funct3 2"), (0x00003063, "opcode 0x63, funct3 3"),
    (0x00007003, "opcode 0x03, funct3 7"), (0x00005023, "opcode 0x23, funct3 5"), (0x0000300F, "opcode 0x0F, funct3 3"),
    (0x0000201B, "opcode 0x1B, funct3 2"), (0x40001033, "opcode 0x33, funct7 0x20, funct3 1"), (0x04000033, "opcode 0x33, funct7 2"),
    (0x0000203B, "opcode 0x3B, funct3 2"), (0x0200103B, "opcode 0x3B, funct7 1, funct3 1"),
    (0x4000103B, "opcode 0x3B, funct7 0x20, funct3 1"),
    (0x00004073, "opcode 0x73, funct3 4"), (0x10200073, "sret"), (0x00200073, "uret"), (0x12000073, "sfence.vma"),
    (0x000000F3, "ecall with rd field 1"), (0x00008073, "ecall with rs1 field 1"), (0x30200173, "mret with rd field 2"),
    (0x1005252F, "lr.w, of an extension that is left out"), (0x00053507, "fld, likewise"), (0x00000013 ^ 0x3, "a word of compressed form"),
]

# ---- what the text says against what the assembler made, for words that other documents print

ROWS = ("Lui Auipc Jal Jalr Beq Bne Blt Bge Bltu Bgeu Lb Lh Lw Ld Lbu Lhu Lwu Sb Sh Sw Sd Sc Fence FenceI Lc Addi Slti Sltiu Xori "
        "Ori Andi Slli Srli Srai Addiw Slliw Srliw Sraiw Add Sll Slt Sltu Xor Srl Or And Sub Sra Mul Mulh Mulhsu Mulhu Div Divu "
        "Rem Remu Addw Sllw Srlw Subw Sraw Mulw Divw Divuw Remw Remuw Csrrw Csrrs Csrrc Csrrwi Csrrsi Csrrci Ecall Ebreak Mret "
        "Wfi").split()
words = assembled([t[2] for t in TEXTS])
known = dict(zip((t[2] for t in TEXTS), words))
assert known["beq x10, x11, .+16"] == 0x00B50863
assert known["beq x10, x11, .-16"] == 0xFEB508E3
assert known["beq x10, x11, .+2048"] == 0x00B500E3
assert known["slli x10, x10, 32"] == 0x02051513
made = [(w, t[0], t[1], *t[3:]) for w, t in zip(words, TEXTS)] + [(f[2], f[0], f[1], *f[3:]) for f in FIELDS]
assert {m[2] for m in made} == set(FORM)
assert all(sum(m[1] == row for m in made) >= 2 for row in {m[1] for m in made} - {"Ecall", "Ebreak", "Mret", "Wfi"})
assert set(ROWS) <= {m[1] for m in made}



def lines():
    yield "# a word => the mnemonic, the numbers of rd, rs1 and rs2, the immediate, and the word again"
    for word, _, mnemonic, rd, rs1, rs2, imm in made:
        yield f"{word:08x} => {mnemonic} {rd} {rs1} {rs2} {imm:x} {word:08x}"
    yield "# a word that is no row => none"
    for word, why in NONE:
        yield f"# {why}"
        yield f"{word:08x} => none"


def files():
    yield "encodings.txt", list(lines())
