"""Makes a PNG smaller: its colours become at most 256, which it lists. For pictures of pages, where most pixels have few colours."""
import struct
import zlib
from collections import Counter

HEAD = b"\x89PNG\r\n\x1a\n"


def chunks(data):
    """Each part of a PNG: its kind and its bytes."""
    place = len(HEAD)
    while place < len(data):
        size, kind = struct.unpack(">I4s", data[place:place + 8])
        yield kind, data[place + 8:place + 8 + size]
        place += size + 12


def near(left, up, corner):
    """Which of three neighbours a pixel is likely to be as."""
    by_left, by_up, by_corner = abs(up - corner), abs(left - corner), abs(left + up - 2 * corner)
    return left if by_left <= by_up and by_left <= by_corner else up if by_up <= by_corner else corner


def unfiltered(row, above, kind, step):
    """A row's bytes, which stand as differences to their neighbours."""
    if kind == 2:
        return bytearray((it + up) & 255 for it, up in zip(row, above))
    row = bytearray(row)
    for place in range(len(row) if kind else 0):
        left, corner = (row[place - step], above[place - step]) if place >= step else (0, 0)
        guess = {1: left, 3: (left + above[place]) // 2, 4: near(left, above[place], corner)}[kind]
        row[place] = (row[place] + guess) & 255
    return row


def pixels(data):
    """Width, height, and of each row the colours as (red, green, blue). Colours have 8 bits a part."""
    parts = list(chunks(data))
    wide, high, bits, kind = struct.unpack(">IIBB", parts[0][1][:10])
    assert bits == 8 and kind in (2, 6) and parts[0][1][12] == 0, "a PNG of another kind"
    step = 3 if kind == 2 else 4
    text, rows = zlib.decompress(b"".join(it for name, it in parts if name == b"IDAT")), []
    above = bytearray(wide * step)
    for place in range(high):
        begin = place * (wide * step + 1)
        above = unfiltered(text[begin + 1:begin + 1 + wide * step], above, text[begin], step)
        rows.append(list(zip(above[0::step], above[1::step], above[2::step])))
    return wide, high, rows


def palette(rows):
    """The most frequent colours, at most 256, and for each colour the place of the nearest of them. Of colours that are nearly one, one is listed."""
    counts, listed, nearest = Counter(it for row in rows for it in row), {}, {}
    for colour, _ in counts.most_common():
        alike = tuple(it >> 3 for it in colour)
        if alike not in listed and len(listed) < 256:
            listed[alike] = colour
    colours, by_alike = list(listed.values()), {}
    for colour in counts:
        alike = tuple(it >> 3 for it in colour)
        if alike not in by_alike:
            by_alike[alike] = min(range(len(colours)), key=lambda place: sum((a - b) ** 2 for a, b in zip(colour, colours[place])))
        nearest[colour] = by_alike[alike]
    return colours, nearest


def chunk(kind, data):
    return struct.pack(">I", len(data)) + kind + data + struct.pack(">I", zlib.crc32(kind + data))


def smaller(data):
    """The same picture with listed colours."""
    wide, high, rows = pixels(data)
    listed, nearest = palette(rows)
    text = b"".join(b"\0" + bytes(nearest[it] for it in row) for row in rows)
    head = struct.pack(">IIBBBBB", wide, high, 8, 3, 0, 0, 0)
    return HEAD + chunk(b"IHDR", head) + chunk(b"PLTE", b"".join(map(bytes, listed))) + chunk(b"IDAT", zlib.compress(text, 9)) + chunk(b"IEND", b"")
