"""The operations: which of them a code C and a field F name, and how long each takes (the table of 1.3.1, from docs/operations.tsv)."""

from collections import Counter, namedtuple

from tests.model.texts import Fault, rows

# The register is the one that the operation names, if it names one. The kind is what operations on
# several registers share: LD for LDA, LD1 and so on. Time is in u; a transfer may have to wait, and
# takes longer then.
Operation = namedtuple("Operation", "name kind register time")

# In the order of the codes: 8 is LDA, 9 to 14 are LD1 to LD6, 15 is LDX, and the same from 16, 24,
# 40, 48 and 56 on.
REGISTERS = ["A", "I1", "I2", "I3", "I4", "I5", "I6", "X"]
# All of them, in the order in which they are shown.
NAMES = ["A", "X", "I1", "I2", "I3", "I4", "I5", "I6", "J"]
FIRST_BYTE = {name: 1 if name in ("A", "X") else 4 for name in NAMES}  # that they have

NEEDS_FIELD = set(range(1, 5)) | set(range(8, 34)) | set(range(56, 64))
NEEDS_NO_ADDRESS = {"NOP", "NUM", "CHAR", "HLT"}
FLOATING = {(1, 6), (2, 6), (3, 6), (4, 6), (5, 6), (5, 7), (56, 6)}
UNIT_OPERATIONS = ["JBUS", "IOC", "IN", "OUT", "JRED"]


def _table():
    """The operation of each code and field. Where one operation alone has a code it has any F (one that is no field is told later)."""
    forms = [(name, int(c), int(f), u) for name, c, f, u, *_ in rows("operations.tsv")]
    names = Counter(c for _, c, _, _ in forms)
    table = {}
    for name, c, f, u in forms:
        kind = "ST" if name == "STJ" else name.replace("Jr", "J ").replace("r", "")
        for i, r in enumerate(REGISTERS if "r" in name else ["J" if name == "STJ" else None]):
            for any_f in range(64) if names[c] == 1 else [f]:
                time = 1 + 2 * any_f if u == "1+2F" else int(u)
                table[c + i, any_f] = Operation(name.replace("r", (r or "")[-1:]), kind, r, time)
    return table


TABLE = _table()


def operation(c, f):
    if (c, f) in FLOATING:
        raise Fault("M2")
    if (c, f) not in TABLE:
        raise Fault("M1")
    return TABLE[c, f]
