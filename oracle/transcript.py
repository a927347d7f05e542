"""Cases and answers of a transcript: 64-bit little-endian words, each case `op`, `length`, then `length` words."""
import struct

TABLE, CHECKER, NAME, LAYOUT = 1, 2, 3, 4
ROOMY = (36864, 16384, 16384, 4096)


def pack(op, words):
    return struct.pack(f"<{len(words) + 2}Q", op, len(words), *words)


def table_case(stream, lengths=ROOMY):
    return pack(TABLE, [*lengths, *stream])


def layout_case(text):
    data = text.encode() if isinstance(text, str) else bytes(text)
    return pack(LAYOUT, [len(data), *data])


def cases(stream):
    """Each whole case of a binary stream as its op and its words."""
    while len(head := stream.read(16)) == 16:
        op, length = struct.unpack("<2Q", head)
        body = stream.read(8 * length)
        if len(body) < 8 * length:
            return
        yield op, struct.unpack(f"<{length}Q", body)
