"""Makes a screenshot smaller: a PNG of at most 256 colours."""

import struct
import zlib
from collections import Counter
from typing import Dict, Iterator, List, Tuple

COLOURS = 256
SIGNATURE = b"\x89PNG\r\n\x1a\n"

Colour = Tuple[int, ...]


def chunks_in(png: bytes) -> Iterator[Tuple[bytes, bytes]]:
    """Yields the kinds and the data of a PNG's chunks."""
    at = len(SIGNATURE)
    while at < len(png):
        (length,) = struct.unpack(">I", png[at : at + 4])
        yield png[at + 4 : at + 8], png[at + 8 : at + 8 + length]
        at += 12 + length


def chunk(kind: bytes, data: bytes) -> bytes:
    """Returns a chunk of a PNG."""
    return struct.pack(">I", len(data)) + kind + data + struct.pack(">I", zlib.crc32(kind + data))


def paeth(left: int, up: int, corner: int) -> int:
    """Returns which of three neighbours is nearest to what they predict."""
    guess = left + up - corner
    return min((left, up, corner), key=lambda it: abs(guess - it))


def row_of(kind: int, row: bytearray, above: bytes, step: int) -> bytearray:
    """Takes back the filter of a row."""
    for at, byte in enumerate(row):
        left, corner = (row[at - step], above[at - step]) if at >= step else (0, 0)
        added = (0, left, above[at], (left + above[at]) // 2, paeth(left, above[at], corner) if kind == 4 else 0)[kind]
        row[at] = (byte + added) & 255
    return row


def colours_in(png: bytes) -> Tuple[int, List[List[Colour]]]:
    """Returns the width of a PNG of 8 bits a colour, and its rows of colours, without how they are seen through."""
    chunks = list(chunks_in(png))
    width, _, depth, kind, _, _, interlace = struct.unpack(">IIBBBBB", chunks[0][1])
    if depth != 8 or kind not in (2, 6) or interlace:
        raise ValueError("a PNG of another form")
    step = 3 if kind == 2 else 4
    data = zlib.decompress(b"".join(data for kind, data in chunks if kind == b"IDAT"))
    rows, above = [], bytes(width * step)
    for start in range(0, len(data), width * step + 1):
        above = row_of(data[start], bytearray(data[start + 1 : start + 1 + width * step]), above, step)
        rows.append(list(zip(above[0::step], above[1::step], above[2::step])))
    return width, rows


def smaller(png: bytes) -> bytes:
    """Returns a PNG of the most frequent colours, each other one replaced by the nearest of them."""
    width, rows = colours_in(png)
    counts = Counter(colour for row in rows for colour in row)
    palette = [colour for colour, _ in counts.most_common(COLOURS)]
    distance = lambda one, two: sum((a - b) ** 2 for a, b in zip(one, two))
    places: Dict[Colour, int] = {it: min(range(len(palette)), key=lambda at: distance(it, palette[at])) for it in counts}
    header = struct.pack(">IIBBBBB", width, len(rows), 8, 3, 0, 0, 0)
    data = zlib.compress(b"".join(b"\0" + bytes(places[it] for it in row) for row in rows), 9)
    parts = [(b"IHDR", header), (b"PLTE", b"".join(map(bytes, palette))), (b"IDAT", data), (b"IEND", b"")]
    return SIGNATURE + b"".join(chunk(*it) for it in parts)
