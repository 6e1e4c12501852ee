"""The rows of the instruction table by how they are written: the one place of these scripts where a row is listed.

Each form has its rows; in a form `rd` is an integer register, `cd` a capability register, and so on.
"""
LOADS = "lb lh lw ld lbu lhu lwu"
STORES = "sb sh sw sd"
FORMS = {
    "rd, rs1, rs2": "add sll slt sltu xor srl or and sub sra mul mulh mulhsu mulhu div divu rem remu "
                    "addw sllw srlw subw sraw mulw divw divuw remw remuw",
    "rd, rs1, signed": "addi slti sltiu xori ori andi addiw fence fence.i",
    "rd, rs1, shift6": "slli srli srai",
    "rd, rs1, shift5": "slliw srliw sraiw",
    "rd, upper": "lui auipc",
    "rs1, rs2, branch": "beq bne blt bge bltu bgeu",
    "rd, jump": "jal",
    "rd, signed(rs1)": "jalr " + LOADS,
    "cd, signed(rs1)": "lc",
    "rs2, stored(rs1)": STORES,
    "cs2, stored(rs1)": "sc",
    "rd, csr, rs1": "csrrw csrrs csrrc",
    "rd, csr, five": "csrrwi csrrsi csrrci",
    "cd, cs1, rs2": "csetbounds csetboundsexact candperm csetflags csetoffset csetaddr cincoffset",
    "cd, cs1, signed": "cincoffsetimm",
    "cd, cs1, unsigned": "csetboundsimm",
    "cd, cs1, cs2": "cseal cunseal",
    "rd, cs1, cs2": "csub ctestsubset csetequalexact",
    "rd, cs1": "cgetperm cgettype cgetbase cgetlen cgettag cgetsealed cgetoffset cgetflags cgetaddr",
    "rd, rs1": "crrl cram",
    "cd, cs1": "cmove ccleartag csealentry jalr.cap",
    "cs1, cs2": "cinvoke",
    "cd, scr, cs1": "cspecialrw",
    "rd, (rs1)": " ".join(f"{name}.ddc" for name in LOADS.split()),
    "rd, (cs1)": " ".join(f"{name}.cap" for name in LOADS.split()),
    "cd, (rs1)": "lc.ddc",
    "cd, (cs1)": "lc.cap",
    "rs2, (rs1)": " ".join(f"{name}.ddc" for name in STORES.split()),
    "rs2, (cs1)": " ".join(f"{name}.cap" for name in STORES.split()),
    "cs2, (rs1)": "sc.ddc",
    "cs2, (cs1)": "sc.cap",
    "": "ecall ebreak mret wfi",
}
FORM = {name: form for form, names in FORMS.items() for name in names.split()}
SECOND = {name: ("c" + name, FORM[name].replace("rs1", "cs1")) for name in (LOADS + " " + STORES + " lc sc").split()}
SECOND |= {"jal": ("cjal", "cd, jump"), "jalr": ("cjalr", "cd, signed(cs1)"), "auipc": ("auipcc", "cd, upper")}
assert len(FORM) == sum(len(names.split()) for names in FORMS.values())
