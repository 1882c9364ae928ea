"""A plain model of packed sheets: bytes, entries, the check, reading, writing.

Written from the rules of docs/FORMAT.md, apart from the program, so that the
two can be compared. An entry is a tuple of six numbers: the command byte and
five operand bytes. A refusal is a pair (number, place); None means that
nothing is refused.
"""

CUT = 1
UNKNOWN = 2
TAIL = 3
ORDER = 4
CROWDED = 5
ABSENT = 6
ILL_SORTED = 7
PADDING = 8
BARREN = 9
SHORT = 15

NAME = 0x01
DATA = 0x02
TICK = 0x03
TUPLE = 0x04
BINDING = 0x05
CONSTRUCTOR = 0x10
VARIABLE = 0x20
ROW_VARIABLE = 0x30
ROW_APPLY = 0x31
ROW_TUPLE = 0x32
ROW_BIND = 0x33
END = 0xFF

# How many operands each command has in the packed form.
OPERANDS = {
    NAME: 0,
    DATA: 0,
    TICK: 0,
    TUPLE: 5,
    BINDING: 2,
    CONSTRUCTOR: 2,
    VARIABLE: 1,
    ROW_VARIABLE: 1,
    ROW_APPLY: 2,
    ROW_TUPLE: 5,
    ROW_BIND: 3,
}

MAX_ARITIES = 64
MAX_NAME_ARITIES = 4
MAX_CONSTRUCTORS = 32
MAX_VARIABLES = 64
MAX_NAME_VARIABLES = 10
MAX_ROWS = 256
MAX_PARTS = 4


# ---------------------------------------------------------------- bytes

def meaning(data):
    """The entries that the bytes mean: the whole commands before the first
    end byte, unknown byte or cut command."""
    entries = []
    at = 0
    while at < len(data):
        command = data[at]
        if command not in OPERANDS:
            break
        width = 1 + OPERANDS[command]
        if at + width > len(data):
            break
        operands = list(data[at + 1:at + width])
        while len(operands) < 5:
            operands.append(0)
        entries.append((command, *operands))
        at += width
    return entries


def byte_fault(data):
    """The first faulty byte of a packed sheet."""
    at = 0
    while True:
        if at == len(data):
            return (CUT, at)
        command = data[at]
        if command == END:
            if at + 1 < len(data):
                return (TAIL, at + 1)
            return None
        if command not in OPERANDS:
            return (UNKNOWN, at)
        width = 1 + OPERANDS[command]
        if at + width > len(data):
            return (CUT, at)
        at += width


# ---------------------------------------------------------------- the check

class Sheet:
    """The four groups, as far as the entries have been read.

    arities       tuples: ("name",) ("data",) ("tick",)
                  ("tuple", parts) ("binding", n, a)
    constructors  pairs (s, a)
    variables     arities
    rows          the rows' arities
    """

    def __init__(self):
        self.arities = []
        self.constructors = []
        self.variables = []
        self.rows = []

    def is_arity(self, a):
        return a < len(self.arities)

    def is_constructor(self, c):
        return c < len(self.constructors)

    def is_variable(self, v):
        return v < len(self.variables)

    def is_row(self, r):
        return r < len(self.rows)

    def kind(self, a):
        return self.arities[a][0]

    def is_name_arity(self, a):
        return self.is_arity(a) and self.kind(a) == "name"

    def name_arities(self):
        return sum(1 for arity in self.arities if arity[0] == "name")

    def name_variables(self):
        return sum(1 for a in self.variables if self.is_name_arity(a))


def group(command):
    if command <= BINDING:
        return 0
    if command == CONSTRUCTOR:
        return 1
    if command == VARIABLE:
        return 2
    return 3


def has_padding(operands, used):
    """Is an operand after the first `used` ones other than 0?"""
    return any(operand != 0 for operand in operands[used:])


def out_of_order(sheet, command):
    if group(command) == 0:
        return bool(sheet.constructors or sheet.variables or sheet.rows)
    if group(command) == 1:
        return bool(sheet.variables or sheet.rows)
    if group(command) == 2:
        return bool(sheet.rows)
    return False


def crowded(sheet, command, operands):
    if group(command) == 0:
        if len(sheet.arities) == MAX_ARITIES:
            return True
        if command == NAME:
            return sheet.name_arities() == MAX_NAME_ARITIES
        if command == TUPLE:
            return operands[0] > MAX_PARTS
        return False
    if group(command) == 1:
        return len(sheet.constructors) == MAX_CONSTRUCTORS
    if group(command) == 2:
        if len(sheet.variables) == MAX_VARIABLES:
            return True
        return (sheet.is_name_arity(operands[0])
                and sheet.name_variables() == MAX_NAME_VARIABLES)
    return len(sheet.rows) == MAX_ROWS


def operand_fault(sheet, command, operands):
    """ABSENT, ILL_SORTED, PADDING or None, for an entry that is neither out
    of order nor crowded."""
    if command in (NAME, DATA, TICK):
        if has_padding(operands, 0):
            return PADDING
        return None

    if command == TUPLE:
        w = operands[0]
        for part in operands[1:1 + w]:
            if not sheet.is_arity(part):
                return ABSENT
        if has_padding(operands, 1 + w):
            return PADDING
        return None

    if command == BINDING:
        n, a = operands[:2]
        if not sheet.is_arity(n) or not sheet.is_arity(a):
            return ABSENT
        if sheet.kind(n) != "name":
            return ILL_SORTED
        if has_padding(operands, 2):
            return PADDING
        return None

    if command == CONSTRUCTOR:
        s, a = operands[:2]
        if not sheet.is_arity(s) or not sheet.is_arity(a):
            return ABSENT
        if sheet.kind(s) != "data":
            return ILL_SORTED
        if has_padding(operands, 2):
            return PADDING
        return None

    if command == VARIABLE:
        if not sheet.is_arity(operands[0]):
            return ABSENT
        if has_padding(operands, 1):
            return PADDING
        return None

    if command == ROW_VARIABLE:
        if not sheet.is_variable(operands[0]):
            return ABSENT
        if has_padding(operands, 1):
            return PADDING
        return None

    if command == ROW_APPLY:
        c, r = operands[:2]
        if not sheet.is_constructor(c) or not sheet.is_row(r):
            return ABSENT
        if sheet.rows[r] != sheet.constructors[c][1]:
            return ILL_SORTED
        if has_padding(operands, 2):
            return PADDING
        return None

    if command == ROW_TUPLE:
        a = operands[0]
        if not sheet.is_arity(a):
            return ABSENT
        if sheet.kind(a) != "tuple":
            return ILL_SORTED           # its rows are not read
        parts = sheet.arities[a][1]
        rows = operands[1:1 + len(parts)]
        for r in rows:
            if not sheet.is_row(r):
                return ABSENT
        for r, part in zip(rows, parts):
            if sheet.rows[r] != part:
                return ILL_SORTED
        if has_padding(operands, 1 + len(parts)):
            return PADDING
        return None

    if command == ROW_BIND:
        a, v, r = operands[:3]
        if not sheet.is_arity(a) or not sheet.is_variable(v) or not sheet.is_row(r):
            return ABSENT
        if sheet.kind(a) != "binding":
            return ILL_SORTED
        _, names, over = sheet.arities[a]
        if sheet.variables[v] != names or sheet.rows[r] != over:
            return ILL_SORTED
        if has_padding(operands, 3):
            return PADDING
        return None

    raise AssertionError("not a command")


def entry_fault(sheet, entry):
    """The smallest number for which the entry is refused, or None."""
    command = entry[0]
    operands = list(entry[1:])
    if command not in OPERANDS:
        return UNKNOWN
    if out_of_order(sheet, command):
        return ORDER
    if crowded(sheet, command, operands):
        return CROWDED
    return operand_fault(sheet, command, operands)


def add(sheet, entry):
    """Add an entry without fault."""
    command, p, q, r, s, t = entry
    if command == NAME:
        sheet.arities.append(("name",))
    elif command == DATA:
        sheet.arities.append(("data",))
    elif command == TICK:
        sheet.arities.append(("tick",))
    elif command == TUPLE:
        sheet.arities.append(("tuple", [q, r, s, t][:p]))
    elif command == BINDING:
        sheet.arities.append(("binding", p, q))
    elif command == CONSTRUCTOR:
        sheet.constructors.append((p, q))
    elif command == VARIABLE:
        sheet.variables.append(p)
    elif command == ROW_VARIABLE:
        sheet.rows.append(sheet.variables[p])
    elif command == ROW_APPLY:
        sheet.rows.append(sheet.constructors[p][0])
    else:
        sheet.rows.append(p)


def inhabited(sheet):
    """The set of arities that have a tree."""
    found = set()
    while True:
        before = len(found)
        for number, arity in enumerate(sheet.arities):
            if arity[0] in ("name", "tick"):
                found.add(number)
            elif arity[0] == "tuple":
                if all(part in found for part in arity[1]):
                    found.add(number)
            elif arity[0] == "binding":
                if arity[1] in found and arity[2] in found:
                    found.add(number)
        for s, a in sheet.constructors:
            if a in found:
                found.add(s)
        if len(found) == before:
            return found


def check(entries):
    """The refusal of a list of entries, or None where the sheet is lawful."""
    sheet = Sheet()
    for position, entry in enumerate(entries):
        fault = entry_fault(sheet, entry)
        if fault is not None:
            return (fault, position)
        add(sheet, entry)
    found = inhabited(sheet)
    for number, arity in enumerate(sheet.arities):
        if arity[0] == "data" and number not in found:
            return (BARREN, number)
    return None


# ---------------------------------------------------------------- reading and writing

def read(data):
    """("ok", number of entries) or ("refused", number, place)."""
    fault = byte_fault(data)
    if fault is None:
        fault = check(meaning(data))
    if fault is not None:
        return ("refused", *fault)
    return ("ok", len(meaning(data)))


def packed_form(entries):
    """The packed form of a lawful sheet."""
    out = bytearray()
    for entry in entries:
        out += bytes(entry[:1 + OPERANDS[entry[0]]])
    out.append(END)
    return bytes(out)


def write(entries, room):
    """("ok", the bytes written) or ("refused", number, place), for a buffer
    of `room` bytes."""
    fault = check(entries)
    if fault is not None:
        return ("refused", *fault)
    packed = packed_form(entries)
    if len(packed) > room:
        return ("refused", SHORT, 0)
    return ("ok", packed)
