"""A model of docs/RULES.md for cross-checking: it answers the cases of a transcript (ops 1 to 4, docs/TRANSCRIPT.md) as the rules say.

`rust` is a set of names out of SWITCHES. Each makes the model do one thing as the original does it, and stands for an entry of
docs/DIFFERENCES.md; with all of them the model says what the original answers. `requests` is a set of names out of REQUESTS, requests
that have not landed: tools/real-tables asks which of them takes a table. `edition` 2 is that of request 2026-14.
"""
import re
import sys

sys.setrecursionlimit(100_000)

TABLE_SWITCHES = {
    "one-byte-name": "StructName with one field is refused",
    "empty-name-record": "StructName without fields: a panic (debug) or nothing (release)",
    "second-num-entry": "the first NumEntry counts, others are not looked at",
    "room": "there is no refusal 9",
    "huge-count": "a huge stated count ends the program before any record is read",
    "shared": "a shared entry is built again for each use, which may take too long",
    "ring": "a ring fills the stack",
}
LAYOUT_SWITCHES = {
    "default-aggregate": "the default aggregate row has ABI 64",
    "default-i64": "the default i64 row has ABI 64",
    "default-vectors": "there are no default vector rows",
    "row-order": "rows are sorted: aggregate, float, integer, vector, then width; pointer rows by space",
    "limit-29": "ABI alignments up to 262,144 bits are taken",
    "preferred-29": "a preferred alignment above 262,144 bits is refused with 29",
    "order-29": "29 is judged after the preferred alignment, and after 30",
    "type-integers": "a bad width or ABI integer of i v f a is a parse error, 27",
    "type-parts": "parts of i v f a beyond the third are ignored",
    "pointer-rows": "a pointer row does not replace the one with its space",
    "room-31": "lists are never full",
    "not-utf8": "bytes that are no UTF-8 never reach the layout's reader",
}
RECORD_SWITCHES = {
    "short-record": "a layout of one byte is refused, none is a panic (debug), where it comes as a record",
}
SWITCHES = {**TABLE_SWITCHES, **LAYOUT_SWITCHES, **RECORD_SWITCHES}
REQUESTS = {
    "2026-01": "StructNamed and Opaque always add an entry, with their own packed flag; there is no refusal 7",
    "2026-06": "a reference from a Pointer to a named struct is not walked and does not count in ranks",
    "2026-11": "code 17 gives 33",
}

PARTIAL_TYPE = 56  # bytes of the original's entry, which its first allocation counts in
STEPS = 200_000  # where the oracle gives up on a table


class Refusal(Exception):
    def __init__(self, number, place=0, detail=0, ring=()):
        self.number, self.place, self.detail, self.ring = number, place, detail, ring


class Rust(Exception):
    """The original does not answer: `panic`, `died`, `endless` or `large`."""


# ---- the type table

NUM_ENTRY, OPAQUE, INTEGER, POINTER, FUNCTION_OLD, ARRAY, VECTOR, MMX = 1, 6, 7, 8, 9, 11, 12, 17
STRUCT_ANON, STRUCT_NAME, STRUCT_NAMED, FUNCTION, OPAQUE_POINTER = 18, 19, 20, 21, 25
PLAIN = {2: 7, 3: 2, 4: 3, 5: 8, 10: 0, 13: 4, 14: 5, 15: 6, 16: 9, 17: 10, 22: 12, 23: 1, 24: 11}
FIELDS = {INTEGER: 1, POINTER: 2, ARRAY: 2, VECTOR: 2, STRUCT_ANON: 1, STRUCT_NAMED: 1, FUNCTION: 2, OPAQUE_POINTER: 1}
VOID, LABEL, METADATA, AMX, TOKEN, FUN, PTR, STRUCT, ARR, FIXED, SCALABLE, OPAQUE_PTR = 7, 8, 9, 11, 12, 14, 15, 16, 17, 18, 19, 20
INT = 13
POINTEE = {VOID, LABEL, METADATA, TOKEN, AMX}
ELEMENT = POINTEE | {FUN, SCALABLE}
FIELD = {VOID, LABEL, METADATA, FUN, TOKEN}
VECTOR_ELEMENT = set(range(21)) - {*range(7), INT, PTR}
RETURN = {FUN, LABEL, METADATA}
PARAMETER = {FUN, VOID}
SPACE = (1 << 23) - 1
WIDTH = (1 << 24) - 1


class Entry:
    def __init__(self, kind, number=0, flag=0, refs=(), name=None):
        self.kind, self.number, self.flag, self.refs, self.name = kind, number, flag, list(refs), name


def records(stream):
    found, at = [], 0
    while at < len(stream):
        if at + 1 == len(stream) or stream[at + 1] > len(stream) - at - 2:
            raise Refusal(1, at)
        end = at + 2 + stream[at + 1]
        found.append((stream[at], stream[at + 2:end]))
        at = end
    return found


def stated_count(recs, rust):
    stated = [fields for code, fields in recs if code == NUM_ENTRY]
    if "second-num-entry" in rust:
        stated = stated[:1]
    if len(stated) != 1 or not stated[0]:
        raise Refusal(2)
    return stated[0][0]


def name_of(at, fields, rust, build):
    if not fields and "empty-name-record" in rust:
        if build == "debug":
            raise Rust("panic", 1)
        return b""
    least = 2 if "one-byte-name" in rust else 1
    try:
        name = bytes(fields)
        name.decode()
    except ValueError:
        raise Refusal(5, at)
    if len(name) < least:
        raise Refusal(5, at)
    return name


def first_pass(recs, lengths, rust=frozenset(), build="debug", requests=frozenset()):
    rows, refs, names, witness = lengths
    most = min(4096, rows // 8, witness)
    entries, pending, used_refs, used_names = [], b"", 0, 0
    for at, (code, fields) in enumerate(recs):
        if code == NUM_ENTRY:
            continue
        if len(fields) < FIELDS.get(code, 0):
            raise Refusal(2, at)
        if code == MMX and "2026-11" in requests:
            raise Refusal(33, at)
        last = entries[-1] if entries and entries[-1].kind == STRUCT and "2026-01" not in requests else None
        new, more_refs, more_names = None, 0, 0
        if code in PLAIN:
            new = Entry(PLAIN[code])
        elif code == OPAQUE:
            if not pending:
                raise Refusal(6, at)
            if last and last.name is not None:
                raise Refusal(7, at)
            new = None if last else Entry(STRUCT)
            more_names = len(pending)
        elif code == INTEGER:
            new = Entry(INT, fields[0] & 0xFFFFFFFF)
        elif code in (POINTER, OPAQUE_POINTER):
            space = fields[1] if code == POINTER else fields[0]
            if space > SPACE:
                raise Refusal(8, at, space)
            new = Entry(PTR, space, refs=fields[:1]) if code == POINTER else Entry(OPAQUE_PTR, space)
        elif code == FUNCTION_OLD:
            raise Refusal(4, at)
        elif code == ARRAY:
            new = Entry(ARR, fields[0], refs=fields[1:2])
        elif code == VECTOR:
            new = Entry(SCALABLE if len(fields) > 2 and fields[2] > 0 else FIXED, fields[0], refs=fields[1:2])
        elif code == STRUCT_ANON:
            new = Entry(STRUCT, flag=int(fields[0] > 0), refs=fields[1:])
        elif code == STRUCT_NAME:
            pending += name_of(at, fields, rust, build)
            continue
        elif code == STRUCT_NAMED:
            if last and (last.name is not None or last.refs):
                raise Refusal(7, at)
            new = None if last else Entry(STRUCT, flag=int(fields[0] > 0))
            more_refs, more_names = len(fields) - 1, len(pending)
        elif code == FUNCTION:
            new = Entry(FUN, flag=int(fields[0] > 0), refs=fields[1:])
        else:
            raise Refusal(3, at, code)
        more_refs += len(new.refs) if new else 0
        full = (new and len(entries) >= most) or used_refs + more_refs > refs or used_names + more_names > names
        if full and "room" not in rust:
            raise Refusal(9, at)
        used_refs, used_names = used_refs + more_refs, used_names + more_names
        if new:
            entries.append(new)
        if code in (OPAQUE, STRUCT_NAMED):
            entries[-1].name, pending = pending, b""
            if code == STRUCT_NAMED:
                entries[-1].refs = list(fields[1:])
    return entries


class Walk:
    """The resolution: ranks, and how many steps the original takes, which builds a shared entry again for each use."""

    def __init__(self, entries, rust=frozenset(), requests=frozenset()):
        self.entries, self.rust, self.ranks, self.steps, self.path, self.count = entries, rust, {}, {}, [], 0
        self.requests = requests

    def step(self, n):
        self.count += n
        if "shared" in self.rust and self.count > STEPS:
            raise Rust("large")

    def is_exempt(self, row, ref):
        target = self.entries[ref]
        return "2026-06" in self.requests and row.kind == PTR and target.kind == STRUCT and target.name is not None

    def entry(self, e):
        if e in self.ranks:
            return self.step(self.steps[e])
        if e in self.path:
            if "ring" in self.rust:
                raise Rust("endless")
            ring = self.path[self.path.index(e):]
            raise Refusal(19, e, len(ring), ring)
        before = self.count
        self.path.append(e)
        row = self.entries[e]
        for ref in row.refs:
            if ref >= len(self.entries):
                raise Refusal(11, e, ref)
            if self.is_exempt(row, ref):
                continue
            self.step(1)
            self.entry(ref)
        if row.kind == FIXED:
            self.step(2)
        self.path.pop()
        judge(self.entries, e)
        self.ranks[e] = max((self.ranks[r] + 1 for r in row.refs if not self.is_exempt(row, r)), default=0)
        self.steps[e] = self.count - before

    def all(self):
        for e in range(len(self.entries)):
            self.entry(e)
        return [self.ranks[e] for e in range(len(self.entries))]


def judge(entries, e):
    row = entries[e]

    def need(refs, bad, number):
        for ref in refs:
            if entries[ref].kind in bad:
                raise Refusal(number, e, ref)

    if row.kind == INT and not 1 <= row.number <= WIDTH:
        raise Refusal(12, e, row.number)
    elif row.kind == PTR:
        need(row.refs, POINTEE, 13)
    elif row.kind == ARR:
        need(row.refs, ELEMENT, 14)
    elif row.kind in (FIXED, SCALABLE):
        need(row.refs, VECTOR_ELEMENT, 15)
    elif row.kind == STRUCT:
        need(row.refs, FIELD, 16)
    elif row.kind == FUN:
        need(row.refs[:1], RETURN, 17)
        need(row.refs[1:], PARAMETER, 18)


def table(stream, lengths, rust=frozenset(), build="debug", requests=frozenset()):
    """Entries and ranks; or Refusal; or Rust."""
    recs = records(stream)
    stated = stated_count(recs, rust)
    if "huge-count" in rust and stated * PARTIAL_TYPE > 3 << 30:
        raise Rust("panic", 4) if stated * PARTIAL_TYPE >= 1 << 63 else Rust("died", 1)
    entries = first_pass(recs, lengths, rust, build, requests)
    if stated != len(entries):
        raise Refusal(10, stated, len(entries))
    return entries, Walk(entries, rust, requests).all()


def table_answer(payload):
    lengths, stream = payload[:4], payload[4:]
    limits = (36864, 16384, 16384, 4096)
    if len(payload) < 4 or any(n > most for n, most in zip(lengths, limits)):
        return []
    rows, refs, names, witness = [], [], [], []
    try:
        entries, witness = table(stream, lengths)
        number, place, detail = 0, len(entries), 0
        for e in entries:
            name = e.name or b""
            rows += [e.kind, e.number, e.flag, len(refs) if e.refs else 0, len(e.refs), len(names) if name else 0, len(name), int(e.name is not None)]
            refs += e.refs
            names += name
    except Refusal as r:
        number, place, detail, witness = r.number, r.place, r.detail, list(r.ring)
    outputs = [part + [0] * (n - len(part)) for part, n in zip((rows, refs, names, witness), lengths)]
    return [number, place, detail] + sum(outputs, [])


# ---- the checker and the name lookup

def parts_of(payload, head, limits):
    """The lengths behind the first `head` words of a payload, and the buffers behind them; None where they don't fit."""
    at = head + len(limits)
    lengths = payload[head:at]
    if len(payload) < at or any(n > most for n, most in zip(lengths, limits)) or sum(lengths) > len(payload) - at:
        return None
    parts = []
    for n in lengths:
        parts.append(payload[at:at + n])
        at += n
    return parts


def is_row(row, next_ref, next_name, refs, names):
    kind, number, flag, first, count, start, length, named = row
    lawful = kind <= 20 and flag <= 1 and named <= 1
    lawful = lawful and (number == 0 or kind in (INT, PTR, ARR, FIXED, SCALABLE, OPAQUE_PTR)) and (flag == 0 or kind in (FUN, STRUCT))
    lawful = lawful and (kind == STRUCT or named == 0) and (named == 1 or (start, length) == (0, 0))
    one = kind in (PTR, ARR, FIXED, SCALABLE)
    lawful = lawful and (count == 1 if one else count >= 1 if kind == FUN else kind == STRUCT or count == 0)
    lawful = lawful and first == (next_ref if count else 0) and start == (next_name if length else 0)
    return lawful and first + count <= refs and start + length <= names


def checker(count, rows, refs, names, ranks):
    if count > 4096 or 8 * count > len(rows) or count > len(ranks):
        return False
    entries, next_ref, next_name = [], 0, 0
    for e in range(count):
        row = rows[8 * e:8 * e + 8]
        if not is_row(row, next_ref, next_name, len(refs), len(names)):
            return False
        entries.append(Entry(row[0], row[1], row[2], refs[row[3]:row[3] + row[4]]))
        next_ref, next_name = next_ref + row[4], next_name + row[6]
    try:
        for e, row in enumerate(entries):
            if any(r >= count or ranks[r] >= ranks[e] for r in row.refs) or (row.kind in (PTR, OPAQUE_PTR) and row.number > SPACE):
                return False
            judge(entries, e)
    except Refusal:
        return False
    return True


def checker_answer(payload):
    parts = parts_of(payload, 1, (36864, 16384, 16384, 4096))
    if parts is None or any(b > 255 for b in parts[2]):
        return []
    return [int(checker(payload[0], *parts))]


def name_answer(payload):
    parts = parts_of(payload, 1, (36864, 16384))
    if parts is None or any(b > 255 for b in parts[1]):
        return []
    rows, names = parts
    row = rows[8 * payload[0]:8 * payload[0] + 8]
    if len(row) < 8 or row[0] != STRUCT or row[7] != 1 or row[5] + row[6] > len(names):
        return [0, 0]
    return [1, row[6], *names[row[5]:row[5] + row[6]]]


# ---- the layout string

INTEGER_ROW, VECTOR_ROW, FLOAT_ROW, AGGREGATE_ROW = range(4)
ROW_LETTERS = {"i": INTEGER_ROW, "v": VECTOR_ROW, "f": FLOAT_ROW, "a": AGGREGATE_ROW}
U32, U64 = (1 << 32) - 1, (1 << 64) - 1
RUST_LIMIT = 262_144


def integer(text, largest, number=24):
    if not re.fullmatch(r"\+?[0-9]+", text) or int(text) > largest:
        raise Refusal(number)
    return int(text)


def alignment(bits):
    if bits % 8 or bits == 0 or bits & (bits - 1):
        raise Refusal(25)
    return bits


def space_of(text):
    space = integer(text, U32)
    if space > SPACE:
        raise Refusal(26)
    return space


class Layout:
    def __init__(self, rust):
        self.rust = rust
        self.little, self.stack, self.spaces, self.function, self.mangling = 0, 0, {"P": 0, "G": 0, "A": 0}, (0, 0), 0
        self.widths, self.non_integral = [], []
        self.pointers = [(0, 64, 64, 64, 64)]
        integers = [(1, 8, 8), (8, 8, 8), (16, 16, 16), (32, 32, 32), (64, 64 if "default-i64" in rust else 32, 64)]
        floats = [(w, w, w) for w in (16, 32, 64, 128)]
        vectors = [] if "default-vectors" in rust else [(w, w, w) for w in (64, 128)]
        self.types = [(INTEGER_ROW, *row) for row in integers] + [(FLOAT_ROW, *row) for row in floats] + [(VECTOR_ROW, *row) for row in vectors]
        self.types.append((AGGREGATE_ROW, 0, 64 if "default-aggregate" in rust else 8, 64))

    def words(self):
        types, pointers = self.types, self.pointers
        if "row-order" in self.rust:
            order = [AGGREGATE_ROW, FLOAT_ROW, INTEGER_ROW, VECTOR_ROW]
            types = sorted(types, key=lambda row: (order.index(row[0]), row[1]))
            pointers = sorted(pointers, key=lambda row: row[0])
        lists = [[self.little, self.stack, *self.spaces.values(), 8, *self.function, self.mangling],
                 [len(self.widths), *self.widths], [len(self.non_integral), *self.non_integral],
                 [len(types)], *types, [len(pointers)], *pointers]
        return [w for part in lists for w in part]

    def put(self, rows, row, same, most):
        at = next((i for i, old in enumerate(rows) if same(old)), None)
        if at is not None:
            rows[at] = row
        elif len(rows) >= most and "room-31" not in self.rust:
            raise Refusal(31)
        else:
            rows.append(row)

    def pointer_spec(self, body, edition):
        parts = body.split(":")
        if len(parts) < 3:
            raise Refusal(27)
        space = space_of(parts[0]) if parts[0] else 0
        size = integer(parts[1], U64)
        abi = alignment(integer(parts[2], U64, 27))
        preferred = alignment(integer(parts[3], U64)) if len(parts) > 3 else abi
        index = integer(parts[4], U64) if len(parts) > 4 else size
        if edition == 2 and (size == 0 or index == 0 or index > size or preferred < abi):
            raise Refusal(27)
        row = (space, size, abi, preferred, index)
        if "pointer-rows" in self.rust:
            of_space = [old for old in self.pointers if old[0] == space]
            if of_space[-1:] != [row]:
                self.put(self.pointers, row, lambda old: False, 32)
        else:
            self.put(self.pointers, row, lambda old: old[0] == space, 32)

    def type_spec(self, letter, body, edition):
        kind, parts = ROW_LETTERS[letter], body.split(":")
        bad = 27 if "type-integers" in self.rust else 24
        if len(parts) < 2 or (len(parts) > 3 and "type-parts" not in self.rust):
            raise Refusal(27)
        if kind == AGGREGATE_ROW:
            width = 0
            if parts[0]:
                raise Refusal(27)
        else:
            width = integer(parts[0], U32, bad)
            if not 1 <= width <= SPACE:
                raise Refusal(28)
        abi = integer(parts[1], U64, bad)
        abi = 8 if edition == 2 and kind == AGGREGATE_ROW and abi == 0 else alignment(abi)
        largest = RUST_LIMIT if "limit-29" in self.rust else 32_768
        if abi > largest and "order-29" not in self.rust:
            raise Refusal(29)
        preferred = alignment(integer(parts[2], U64)) if len(parts) > 2 else abi
        if preferred < abi:
            raise Refusal(30)
        if abi > largest or ("preferred-29" in self.rust and preferred > RUST_LIMIT):
            raise Refusal(29)
        self.put(self.types, (kind, width, abi, preferred), lambda old: old[:2] == (kind, width), 64)

    def list_of(self, parts, read):
        values = [read(part) for part in (parts if "room-31" in self.rust else parts[:16])]
        return values, len(parts) > 16 and "room-31" not in self.rust

    def spec(self, text, edition):
        if not text:
            raise Refusal(22)
        letter, body = text[0], text[1:]
        if letter in "eE":
            self.little = int(letter == "e")
        elif letter == "S":
            self.stack = alignment(integer(body, U64))
        elif letter in "PGA":
            self.spaces[letter] = space_of(body)
        elif letter == "p":
            self.pointer_spec(body, edition)
        elif letter in ROW_LETTERS:
            self.type_spec(letter, body, edition)
        elif letter == "F":
            if not body:
                raise Refusal(27)
            bits = alignment(integer(body[1:], U64))
            if body[0] not in "in":
                raise Refusal(27)
            self.function = ("in".index(body[0]) + 1, bits)
        elif letter == "m":
            kinds = "emoxwa" + ("l" if edition == 2 else "")
            if len(body) < 2 or body[0] != ":" or body[1] not in kinds:
                raise Refusal(27)
            self.mangling = kinds.index(body[1]) + 1
        elif letter == "n" and body[:1] == "i":
            if body == "i":
                raise Refusal(27)
            self.non_integral, full = self.list_of(body[2:].split(":"), self.non_integral_space)
            if full:
                raise Refusal(31)
        elif letter == "n":
            if not body:
                raise Refusal(27)
            self.widths, full = self.list_of(body.split(":"), lambda part: integer(part, U32))
            if edition == 2 and 0 in self.widths:
                raise Refusal(27)
            if full:
                raise Refusal(31)
        else:
            raise Refusal(23)

    @staticmethod
    def non_integral_space(part):
        space = space_of(part)
        if space == 0:
            raise Refusal(27)
        return space


def layout(data, rust=frozenset(), edition=1, build="debug"):
    """The layout's words; or Refusal; or Rust."""
    if "short-record" in rust and len(data) == 1:
        raise Refusal(5)
    if "short-record" in rust and not data and build == "debug":
        raise Rust("panic", 1)
    if "not-utf8" in rust:
        try:
            data.decode()
        except ValueError:
            raise Refusal(5)
    foreign = next((at for at, byte in enumerate(data) if byte > 127), None)
    if foreign is not None:
        raise Refusal(21, foreign)
    found, at = Layout(rust), 0
    if edition == 2 and not data:
        return found.words()
    for spec in data.decode().split("-"):
        try:
            found.spec(spec, edition)
        except Refusal as r:
            raise Refusal(r.number, at)
        at += len(spec) + 1
    return found.words()


def layout_bytes(payload):
    if not payload or payload[0] > len(payload) - 1 or payload[0] > 4096 or any(w > 255 for w in payload[1:payload[0] + 1]):
        return None
    return bytes(payload[1:payload[0] + 1])


def layout_answer(payload):
    data = layout_bytes(payload)
    if data is None:
        return []
    try:
        return [0, 0, 0] + layout(data)
    except Refusal as r:
        return [r.number, r.place, r.detail] + Layout(frozenset()).words()


def answer(op, payload):
    """The answer of a transcript; none for a payload or an op that it does not know."""
    answers = {1: table_answer, 2: checker_answer, 3: name_answer, 4: layout_answer}
    return answers[op](payload) if op in answers and len(payload) <= 65_536 else []


def main():
    from transcript import cases, pack
    for op, payload in cases(sys.stdin.buffer):
        sys.stdout.buffer.write(pack(op, answer(op, payload)))


if __name__ == "__main__":
    main()
