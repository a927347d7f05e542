"""The type tables and layout strings of a bitcode file, read in two ways.

    dumped(path)     a list of modules, out of what llvm-bcanalyzer prints (the variable BCANALYZER names another one)
    scanned(path)    the same list, out of the bits of the file itself, as LLVM's "Bitcode File Format" describes them
    numbers(file)    the code or kind numbers of crates/kinds/src (tools/llvm-codes holds them against LLVM's headers)

A module is a pair: the records of its type block, each a code and its fields, and its layout string as bytes (empty where it has none).
tools/bc-stream writes what the first one says; tools/real-tables holds both against each other.
"""
import os
import re
import struct
import subprocess

ROOT = os.path.join(os.path.dirname(os.path.abspath(__file__)), "..")


def words_of(records):
    """A stream: for each record its code, its field count, its fields."""
    return [word for code, fields in records for word in (code, len(fields), *fields)]


# ---- what llvm-bcanalyzer prints: a record is one line; texts and blobs are quoted behind it

RECORD = re.compile(r"\s*<(\w+)(?: codeid=(\d+))?(?: abbrevid=\d+)?((?: op\d+=\d+)*)/>")
OPEN = re.compile(r"\s*<(MODULE_BLOCK|TYPE_BLOCK_ID)\b[^/>]*>$")
CLOSE = re.compile(r"\s*</(MODULE_BLOCK|TYPE_BLOCK_ID)>$")


def fields_in(text):
    return [int(n) for n in re.findall(r"op\d+=(\d+)", text)]


def numbers(file):
    """The numbers that a `try_from` of crates/kinds/src tells apart, by the names of their cases in capitals."""
    with open(os.path.join(ROOT, "crates/kinds/src", file)) as f:
        arms = re.findall(r"(\d+) => Ok\((?:\w+::Plain\()?\w+::(\w+)\)", f.read())
    if not arms:
        raise ValueError(f"crates/kinds/src/{file}: no `NUMBER => Ok(CASE)`")
    return {name.upper(): int(number) for number, name in arms}


def dumped(path):
    codes = numbers("code.rt")
    analyzer = os.environ.get("BCANALYZER", "llvm-bcanalyzer")
    dump = subprocess.run([analyzer, "-dump", path], capture_output=True, check=True).stdout.decode("latin-1")
    modules, in_types = [], False
    for line in dump.split("\n"):
        if opened := OPEN.match(line):
            if opened.group(1) == "MODULE_BLOCK":
                modules.append(([], b""))
            in_types = opened.group(1) == "TYPE_BLOCK_ID"
        elif CLOSE.match(line):
            in_types = False
        elif modules and (in_types or line.lstrip().startswith("<DATALAYOUT")):
            found = RECORD.match(line)
            if not found:
                raise ValueError(f"{path}: {line}")
            name, codeid, ops = found.groups()
            if not in_types:
                modules[-1] = (modules[-1][0], bytes(fields_in(ops)))
                continue
            unknown = re.match(r"UnknownCode(\d+)$", name)
            code = int(codeid or (unknown.group(1) if unknown else codes[name.replace("_", "")]))
            modules[-1][0].append((code, fields_in(ops)))
    return modules


# ---- the bits themselves

MODULE_BLOCK, BLOCKINFO_BLOCK, TYPE_BLOCK, DATALAYOUT = 8, 0, 17, 3
END_BLOCK, ENTER_SUBBLOCK, DEFINE_ABBREV, UNABBREV_RECORD = range(4)
LITERAL, FIXED, VBR, ARRAY, CHAR6, BLOB = range(6)
CHAR6_TEXT = b"abcdefghijklmnopqrstuvwxyzABCDEFGHIJKLMNOPQRSTUVWXYZ0123456789._"


class Bits:
    def __init__(self, data):
        self.data, self.at = data, 0

    def fixed(self, width):
        first, last = self.at // 8, (self.at + width + 7) // 8
        value = int.from_bytes(self.data[first:last], "little") >> (self.at % 8)
        self.at += width
        return value & ((1 << width) - 1)

    def vbr(self, width):
        value, shift, more = 0, 0, 1 << (width - 1)
        while True:
            piece = self.fixed(width)
            value |= (piece & (more - 1)) << shift
            shift += width - 1
            if not piece & more:
                return value & ((1 << 64) - 1)

    def align(self):
        self.at = (self.at + 31) // 32 * 32

    def abbreviation(self):
        kinds = []
        for _ in range(self.vbr(5)):
            if self.fixed(1):
                kinds.append((LITERAL, self.vbr(8)))
            else:
                kind = self.fixed(3)
                kinds.append((kind, self.vbr(5) if kind in (FIXED, VBR) else 0))
        return kinds

    def scalar(self, kind, value):
        if kind == LITERAL:
            return value
        if kind == CHAR6:
            return CHAR6_TEXT[self.fixed(6)]
        return 0 if value == 0 else self.fixed(value) if kind == FIXED else self.vbr(value)

    def record(self, kinds):
        values, at = [], 0
        while at < len(kinds):
            kind, value = kinds[at]
            if kind == ARRAY:
                values += [self.scalar(*kinds[at + 1]) for _ in range(self.vbr(6))]
                at += 1
            elif kind == BLOB:
                length = self.vbr(6)
                self.align()
                values += self.data[self.at // 8:self.at // 8 + length]
                self.at += 8 * length
                self.align()
            else:
                values.append(self.scalar(kind, value))
            at += 1
        return values[0], values[1:]

    def block(self, number, width, shared, see, ends=True):
        """Reads a block to its end, and hands each record to `see`. Blocks that are not on the way to a type table are stepped over."""
        abbreviations, about = list(shared.get(number, [])), None
        while ends or self.at + 32 <= 8 * len(self.data):
            sort = self.fixed(width)
            if sort == END_BLOCK:
                self.align()
                return
            if sort == ENTER_SUBBLOCK:
                inner, inner_width = self.vbr(8), self.vbr(4)
                self.align()
                length = 32 * self.fixed(32)
                if inner in (MODULE_BLOCK, BLOCKINFO_BLOCK, TYPE_BLOCK):
                    see(inner, None, None)
                    self.block(inner, inner_width, shared, see)
                else:
                    self.at += length
            elif sort == DEFINE_ABBREV:
                (abbreviations if number != BLOCKINFO_BLOCK else shared.setdefault(about, [])).append(self.abbreviation())
            else:
                if sort == UNABBREV_RECORD:
                    code = self.vbr(6)
                    fields = [self.vbr(6) for _ in range(self.vbr(6))]
                else:
                    code, fields = self.record(abbreviations[sort - 4])
                if number == BLOCKINFO_BLOCK and code == 1:
                    about = fields[0]
                see(number, code, fields)


def scanned(path):
    with open(path, "rb") as f:
        data = f.read()
    if data[:4] == struct.pack("<I", 0x0B17C0DE):  # the wrapper of Apple's systems
        start, size = struct.unpack_from("<II", data, 8)
        data = data[start:start + size]
    if data[:4] != b"BC\xc0\xde":
        raise ValueError(f"{path}: no bitcode")
    modules = []

    def see(block, code, fields):
        if code is None:
            if block == MODULE_BLOCK:
                modules.append(([], b""))
        elif block == TYPE_BLOCK:
            modules[-1][0].append((code, fields))
        elif block == MODULE_BLOCK and code == DATALAYOUT:
            modules[-1] = (modules[-1][0], bytes(fields))

    bits = Bits(data)
    bits.at = 32
    bits.block(None, 2, {}, see, ends=False)
    return modules
