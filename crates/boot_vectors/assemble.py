#!/usr/bin/env python3
"""Assembles a source to one OS-9 module, or refuses it by its line: assemble.py SOURCE MODULE.

A line is a label in the first column or a space, a word, and an operand if the word takes one, with
spaces between them; what stands behind is a comment. Lines end with a line feed, and have bytes from
20 to 7E alone. An empty line is skipped, and one that begins with `*`.

The first statement is `mod NAME,KIND,ATTRIBUTES,STORAGE`, the last one `emod`. A program begins at its
label `start`. The other directives are `equ`, `fcb`, `fdb`, `fcc`, `fcs` and `os9`. An expression is
numbers, labels and `*` with `+` and `-` between them. The length of a statement follows from its line
alone: `<` before an operand is a byte, `>` two; a distance from PCR without a mark has two, and an
offset from a register as few as it needs if it is one number, else two.

It shares no text with the assembler of this repository, which it is compared with."""

import re
import sys

SYNTAX, UNKNOWN, TWICE, RANGE, NO_MODULE = 1, 2, 3, 4, 5
MEANING = {
    SYNTAX: "this is no statement",
    UNKNOWN: "a label that no line has, or of equ none above",
    TWICE: "a label, mod or emod that stands above already",
    RANGE: "a value out of its range",
    NO_MODULE: "mod, emod or start is missing or misplaced",
}
MOST_BYTES = 57344
PROGRAM = 1  # the type of a module that has an execution offset and storage
CRC_BYTES = 3

LABEL = re.compile(r"[A-Za-z_][A-Za-z0-9_]{0,28}\Z")
NAME = re.compile(r"[A-Za-z0-9_.]{1,29}\Z")
DECIMAL = re.compile(r"[0-9]+\Z")
HEXADECIMAL = re.compile(r"\$[0-9A-Fa-f]{1,4}\Z")

BYTE, WORD = range(-128, 256), range(-32768, 65536)
DIRECT, SIGNED = range(0, 256), range(-128, 128)
KINDS = range(0x10, 0x100)
HELD = range(-(2**63), 2**63)  # the values that a label can have; another one is not known

CODES = {"D": 0, "X": 1, "Y": 2, "U": 3, "S": 4, "PC": 5, "A": 8, "B": 9, "CC": 10, "DP": 11}
BYTES_OF_A_REGISTER = {name: 1 if code >= 8 else 2 for name, code in CODES.items()}
MASKS = {"CC": 1, "A": 2, "B": 4, "DP": 8, "X": 16, "Y": 32, "PC": 128}
POINTERS = {"X": 0x00, "Y": 0x20, "U": 0x40, "S": 0x60}
STEPS = {"R+": 0x80, "R++": 0x81, "-R": 0x82, "--R": 0x83, "R": 0x84}
STEPS_OF_ONE = (STEPS["R+"], STEPS["-R"])
ACCUMULATORS = {"A": 0x86, "B": 0x85, "D": 0x8B}
INDIRECT = 0x10


class Refused(Exception):
    """A source is refused: the first line that breaks a rule, and the first rule that it breaks."""

    def __init__(self, line, error):
        super().__init__(f"line {line} error {error}: {MEANING[error]}")
        self.line, self.error = line, error


class NoStatement(Exception):
    """A line that is no statement."""


def table():
    """The codes of each word, by the kind of its operand."""
    words = {}

    def add(word, kind, code):
        words.setdefault(word, {})[kind] = bytes.fromhex(code) if isinstance(code, str) else bytes([code])

    unary = {0x0: "NEG", 0x3: "COM", 0x4: "LSR", 0x6: "ROR", 0x7: "ASR", 0x8: "ASL", 0x9: "ROL", 0xA: "DEC",
             0xC: "INC", 0xD: "TST", 0xE: "JMP", 0xF: "CLR"}
    for column, word in unary.items():
        for kind, row in [("direct", 0x00), ("indexed", 0x60), ("extended", 0x70)]:
            add(word, kind, row + column)
        if word != "JMP":
            add(word + "A", "none", 0x40 + column)
            add(word + "B", "none", 0x50 + column)
    for word, code in [("NOP", "12"), ("SYNC", "13"), ("DAA", "19"), ("SEX", "1D"), ("RTS", "39"), ("ABX", "3A"),
                       ("RTI", "3B"), ("MUL", "3D"), ("SWI", "3F"), ("SWI2", "103F"), ("SWI3", "113F")]:
        add(word, "none", code)
    for word, code in [("ORCC", 0x1A), ("ANDCC", 0x1C), ("CWAI", 0x3C)]:
        add(word, "immediate byte", code)
    add("EXG", "pair", 0x1E)
    add("TFR", "pair", 0x1F)
    for code, word in enumerate(["LEAX", "LEAY", "LEAS", "LEAU"], 0x30):
        add(word, "indexed", code)
    for code, word in enumerate(["PSHS", "PULS", "PSHU", "PULU"], 0x34):
        add(word, "list", code)
    conditions = "RA RN HI LS CC CS NE EQ VC VS PL MI GE LT GT LE".split()
    for code, condition in enumerate(conditions, 0x20):
        add("B" + condition, "short", code)
        add("LB" + condition, "long", f"10{code:02X}" if condition != "RA" else "16")
    add("BSR", "short", 0x8D)
    add("LBSR", "long", 0x17)
    rows = {0x80: "SUBA CMPA SBCA SUBD ANDA BITA LDA STA EORA ADCA ORA ADDA CMPX JSR LDX STX".split(),
            0xC0: "SUBB CMPB SBCB ADDD ANDB BITB LDB STB EORB ADCB ORB ADDB LDD STD LDU STU".split()}
    entries = [("", row + column, word) for row, names in rows.items() for column, word in enumerate(names)]
    entries += [("10", 0x83, "CMPD"), ("10", 0x8C, "CMPY"), ("10", 0x8E, "LDY"), ("10", 0x8F, "STY"),
                ("10", 0xCE, "LDS"), ("10", 0xCF, "STS"), ("11", 0x83, "CMPU"), ("11", 0x8C, "CMPS")]
    for page, code, word in entries:
        if not word.startswith("ST") and word != "JSR":
            size = "word" if word[-1] in "DXYUS" else "byte"
            add(word, "immediate " + size, f"{page}{code:02X}")
        for kind, row in [("direct", 0x10), ("indexed", 0x20), ("extended", 0x30)]:
            add(word, kind, f"{page}{code + row:02X}")
    return words


WORDS = table()
BROKEN = "?"  # in the place of the word of a line that is no statement
DIRECTIVES = {"MOD", "EMOD", "EQU", "FCB", "FDB", "FCC", "FCS", "OS9"}


class Expression:
    """A sum of signed terms, each a number, a label or `*`."""

    def __init__(self, text):
        parts = re.split(r"([+-])", text if text.startswith("-") else "+" + text)
        self.terms = [(-1 if sign == "-" else 1, self.term(term)) for sign, term in zip(parts[1::2], parts[2::2])]

    @staticmethod
    def term(text):
        if DECIMAL.match(text):
            number = int(text.lstrip("0")[:6] or "0")
            if number not in WORD:
                raise NoStatement
            return number
        if HEXADECIMAL.match(text):
            return int(text[1:], 16)
        if text != "*" and not is_label(text):
            raise NoStatement
        return text

    def names(self):
        return [term for _, term in self.terms if isinstance(term, str) and term != "*"]

    def number(self):
        """Its value if it is one number, with a sign or not."""
        sign, term = self.terms[0]
        return sign * term if len(self.terms) == 1 and not isinstance(term, str) else None

    def value(self, labels, here):
        """Its value, or None if a label whose value is not known is in it."""
        total = 0
        for sign, term in self.terms:
            value = here if term == "*" else labels[term] if isinstance(term, str) else term
            if value is None:
                return None
            total += sign * value
        return total


def is_label(text):
    return LABEL.match(text) is not None and text.upper() not in CODES


class Piece:
    """A value in the bytes of a statement: its size, its range, and whether it is a distance."""

    def __init__(self, text, size, allowed, distance=False):
        self.expression, self.size = Expression(text), size
        self.allowed, self.distance = allowed, distance

    def takes(self, value):
        return value is None or self.allowed is None or value in self.allowed


class Statement:
    """A line that is not skipped: its label and its word, or none, its first bytes, and the values behind them."""

    def __init__(self, label, word):
        self.label, self.word = label, word
        self.front, self.pieces, self.name = b"", [], ""

    def is_broken(self):
        return self.word == BROKEN

    def length(self):
        return len(self.front) + sum(piece.size for piece in self.pieces)

    def names(self):
        return [name for piece in self.pieces for name in piece.expression.names()]

    def value(self, piece, labels, here):
        """The value of a piece, if it is known; of a distance that from the next instruction."""
        value = piece.expression.value(labels, here)
        if not piece.distance or value is None or here is None:
            return None if piece.distance else value
        away = (value - here - self.length()) % 65536
        return away - 65536 if away > 32767 else away

    def is_fit(self, labels, here):
        return all(piece.takes(self.value(piece, labels, here)) for piece in self.pieces)

    def spelled(self, labels, here):
        values = [(self.value(piece, labels, here), piece.size) for piece in self.pieces]
        return self.front + b"".join((value % 256**size).to_bytes(size, "big") for value, size in values)


def read_line(line):
    """The statement of a line, broken if it is none; or None if the line is skipped."""
    is_text = all(" " <= character <= "~" for character in line)
    if is_text and (not line or line.startswith("*")):
        return None
    label, _, rest = line.partition(" ")
    label = label if is_text and is_label(label) else ""
    try:
        if is_text and bool(label) != line.startswith(" "):
            return read_statement(label, rest.lstrip(" "))
    except NoStatement:
        pass
    return Statement(label, BROKEN)


def read_statement(label, rest):
    word, _, rest = rest.partition(" ")
    statement = Statement(label, word.upper())
    if statement.word in DIRECTIVES:
        read_directive(statement, rest.lstrip(" "))
    elif statement.word in WORDS:
        read_instruction(statement, rest.lstrip(" "))
    elif word or not label:
        raise NoStatement
    return statement


def read_directive(statement, rest):
    word, operand = statement.word, rest.partition(" ")[0]
    if word == "EMOD":
        statement.front = bytes(CRC_BYTES)
    elif word in ("FCC", "FCS"):
        found = re.match(r'"([^"]*)"( |$)', rest)
        if not found:
            raise NoStatement
        text = found[1].encode()
        statement.front = text[:-1] + bytes([text[-1] | 0x80]) if word == "FCS" and text else text
    elif word in ("FCB", "FDB"):
        size, allowed = (1, BYTE) if word == "FCB" else (2, WORD)
        statement.pieces = [Piece(text, size, allowed) for text in operand.split(",")]
    elif word == "OS9":
        statement.front, statement.pieces = bytes([0x10, 0x3F]), [Piece(operand, 1, BYTE)]
    elif word == "EQU":
        statement.pieces = [Piece(operand, 0, WORD)]
        if not statement.label:
            raise NoStatement
    else:
        read_module(statement, operand.split(","))


def read_module(statement, fields):
    """`mod`: its bytes are the header and the name."""
    if len(fields) != 4 or not NAME.match(fields[0]):
        raise NoStatement
    statement.name = fields[0]
    statement.pieces = [Piece(text, 0, allowed) for text, allowed in zip(fields[1:], (KINDS, BYTE, WORD))]
    kind = statement.pieces[0].expression
    if any(isinstance(term, str) for _, term in kind.terms):
        raise NoStatement
    statement.front = bytes(header_size(kind.value({}, 0)) + len(statement.name))


def header_size(kind):
    return 13 if kind // 16 == PROGRAM else 9


def read_instruction(statement, rest):
    kinds, operand = WORDS[statement.word], rest.partition(" ")[0]
    if "none" in kinds:
        statement.front = kinds["none"]
        return
    if not operand:
        raise NoStatement
    kind, post, pieces = read_operand(statement.word, kinds, operand)
    if kind not in kinds:
        raise NoStatement
    statement.front, statement.pieces = kinds[kind] + post, pieces


def read_operand(word, kinds, operand):
    """The kind of an operand, its postbyte, and its values."""
    only = next(iter(kinds))
    if only == "pair":
        return only, register_pair(operand), []
    if only == "short":
        return only, b"", [Piece(operand, 1, SIGNED, distance=True)]
    if only == "long":
        return only, b"", [Piece(operand, 2, None, distance=True)]
    if operand.startswith("#"):
        if only == "immediate word":
            return only, b"", [Piece(operand[1:], 2, WORD)]
        return "list" if only == "list" else "immediate byte", b"", [Piece(operand[1:], 1, BYTE)]
    if only == "list":
        return only, bytes([register_mask(operand, word[-1])]), []
    if operand.startswith("[") or "," in operand:
        return "indexed", *indexed(operand)
    if operand.startswith("<"):
        return "direct", b"", [Piece(operand[1:], 1, DIRECT)]
    return "extended", b"", [Piece(operand.removeprefix(">"), 2, WORD)]


def register_pair(operand):
    names = operand.upper().split(",")
    if len(names) != 2 or any(name not in CODES for name in names):
        raise NoStatement
    if BYTES_OF_A_REGISTER[names[0]] != BYTES_OF_A_REGISTER[names[1]]:
        raise NoStatement
    return bytes([CODES[names[0]] << 4 | CODES[names[1]]])


def register_mask(operand, stack):
    """The mask of a list of registers; on the stack S it may have U, and on U it may have S."""
    masks = MASKS | ({"U": 64} if stack == "S" else {"S": 64})
    mask = 0
    for name in operand.upper().split(","):
        if name not in masks:
            raise NoStatement
        mask |= masks[name]
    return mask


def indexed(operand):
    """The postbyte of an indexed operand, and its values."""
    indirect = operand.startswith("[")
    if indirect:
        if not operand.endswith("]"):
            raise NoStatement
        operand = operand[1:-1]
    bit = INDIRECT if indirect else 0
    if "," not in operand:
        return bytes([0x9F]), [Piece(operand, 2, WORD)]
    offset, _, register = operand.partition(",")
    register = register.upper()
    if not offset:
        pointer = register.strip("+-")
        form = STEPS.get(register.replace(pointer, "R", 1))
        if pointer not in POINTERS or form is None or indirect and form in STEPS_OF_ONE:
            raise NoStatement
        return bytes([form | POINTERS[pointer] | bit]), []
    if register == "PCR":
        if offset.startswith("<"):
            return bytes([0x8C | bit]), [Piece(offset[1:], 1, SIGNED, distance=True)]
        return bytes([0x8D | bit]), [Piece(offset.removeprefix(">"), 2, None, distance=True)]
    if register not in POINTERS:
        raise NoStatement
    if offset.upper() in ACCUMULATORS:
        return bytes([ACCUMULATORS[offset.upper()] | POINTERS[register] | bit]), []
    return offset_from(offset, POINTERS[register] | bit, indirect)


def offset_from(offset, bits, indirect):
    """The postbyte and the values of an offset from a register, whose bits these are."""
    if offset.startswith("<"):
        return bytes([0x88 | bits]), [Piece(offset[1:], 1, SIGNED)]
    if offset.startswith(">"):
        return bytes([0x89 | bits]), [Piece(offset[1:], 2, None)]
    number = Expression(offset).number()
    if number is not None and number in range(-16, 16) and not indirect:
        return bytes([bits | number % 32]), []
    if number is not None and number in SIGNED:
        return bytes([0x88 | bits]), [Piece(offset, 1, SIGNED)]
    return bytes([0x89 | bits]), [Piece(offset, 2, None)]


class Source:
    """The statements of a source, each with its line, and the labels and offsets that they reach."""

    def __init__(self, text):
        lines = text.split("\n")
        read = enumerate(map(read_line, lines[:-1] if lines[-1] == "" else lines), 1)
        self.statements = [(number, statement) for number, statement in read if statement]
        self.labels, self.line_of, self.offsets = {}, {}, {}
        here = 0  # none behind a broken line, where no offset is known
        for number, statement in self.statements:
            here = None if statement.is_broken() else here
            self.offsets[number] = here
            if statement.label and statement.label not in self.labels:
                self.labels[statement.label] = self.label_value(statement, here)
                self.line_of[statement.label] = number
            here = None if here is None else here + statement.length()

    def label_value(self, statement, here):
        if statement.word != "EQU":
            return here
        known = all(name in self.labels for name in statement.names())
        value = statement.pieces[0].expression.value(self.labels, here) if known else None
        return value if value is not None and value in HELD else None

    def fault(self):
        """The first line that breaks a rule, and the first rule that it breaks; or None."""
        words = set()
        for number, statement in self.statements:
            error = self.error(number, statement, words)
            if error:
                return number, error
            words.add(statement.word)
        return None

    def error(self, number, statement, words):
        """The first rule that a statement breaks, behind statements of these words; or None."""
        if statement.is_broken():
            return SYNTAX
        here, is_equ = self.offsets[number], statement.word == "EQU"
        for name in statement.names():
            if name not in self.labels or is_equ and self.line_of[name] >= number:
                return UNKNOWN
        is_second = statement.word in ("MOD", "EMOD") and statement.word in words
        if is_second or statement.label and self.line_of[statement.label] < number:
            return TWICE
        is_too_long = statement.word == "EMOD" and here is not None and here + CRC_BYTES > MOST_BYTES
        return RANGE if is_too_long or not statement.is_fit(self.labels, here) else None

    def module(self):
        """The bytes of the module of statements that break no rule, or None if they make none."""
        words = [statement.word for _, statement in self.statements]
        if words[:1] != ["MOD"] or words[-1:] != ["EMOD"]:
            return None
        first, end = self.statements[0][1], self.offsets[self.statements[-1][0]]
        kind, attributes, storage = (first.value(piece, self.labels, 0) for piece in first.pieces)
        header = header_size(kind)
        head = bytes([0x87, 0xCD]) + (end + CRC_BYTES).to_bytes(2, "big") + header.to_bytes(2, "big")
        head += bytes([kind, attributes % 256])
        parity = 0xFF
        for byte in head:
            parity ^= byte
        head += bytes([parity])
        if kind // 16 == PROGRAM:
            start = self.labels.get("start")
            if start not in range(end):
                return None
            head += start.to_bytes(2, "big") + (storage % 65536).to_bytes(2, "big")
        head += first.name[:-1].encode() + bytes([ord(first.name[-1]) | 0x80])
        code = (statement.spelled(self.labels, self.offsets[number]) for number, statement in self.statements[1:-1])
        body = head + b"".join(code)
        return body + crc(body)


def crc(data):
    value = 0xFFFFFF
    for byte in data:
        value ^= byte << 16
        for _ in range(8):
            value <<= 1
            if value & 0x1000000:
                value ^= 0x1800063
    return (value ^ 0xFFFFFF).to_bytes(3, "big")


def assemble(text):
    """The module of a source. A source that breaks a rule is refused by `Refused`."""
    source = Source(text)
    fault = source.fault()
    if fault:
        raise Refused(*fault)
    module = source.module()
    if module is None:
        raise Refused(0, NO_MODULE)
    return module


def main():
    if len(sys.argv) != 3:
        sys.exit("assemble.py SOURCE MODULE")
    with open(sys.argv[1], encoding="latin-1", newline="") as source:
        text = source.read()
    try:
        module = assemble(text)
    except Refused as refused:
        sys.exit(f"{sys.argv[1]}: {refused}")
    with open(sys.argv[2], "wb") as target:
        target.write(module)


if __name__ == "__main__":
    main()
