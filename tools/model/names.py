"""Names and numbers of registers, as the assembly language has them: those of the Python module, which are told without its library."""
from trying.paths import module_alone

_names = module_alone("_names")

REGISTERS, SCRS, CSRS, CAPABILITY_NAMES = _names.REGISTERS, _names.SCRS, _names.CSRS, _names._SHOWN
NAMES = ["zero", *(name[1:] for name in CAPABILITY_NAMES[1:])]
# The same by their numbers.
SCR_NAMES, CSR_NAMES = ({number: name for name, number in table.items()} for table in (SCRS, CSRS))
# The special registers beside PCC and DDC.
SPECIALS = [name for name in SCRS if SCRS[name] > 1]
