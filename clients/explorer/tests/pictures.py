"""PNG files as colours, and how far two of them are from each other."""

import struct
import zlib


def pixels(data):
    """Width, height, and the rows of a PNG file of 8 bits a channel: each a bytes of red, green,
    blue by turns.
    """
    assert data[:8] == b"\x89PNG\r\n\x1a\n"
    at, packed = 8, b""
    while at < len(data):
        length, kind = struct.unpack(">I4s", data[at : at + 8])
        body = data[at + 8 : at + 8 + length]
        if kind == b"IHDR":
            width, height, depth, colour, _, _, woven = struct.unpack(">IIBBBBB", body)
            assert depth == 8 and colour in (2, 6) and not woven
        elif kind == b"IDAT":
            packed += body
        at += 12 + length
    step = 3 if colour == 2 else 4
    raw, size = zlib.decompress(packed), width * step
    rows, before = [], bytearray(size)
    for number in range(height):
        start = number * (size + 1)
        row = unfiltered(raw[start], bytearray(raw[start + 1 : start + 1 + size]), before, step)
        rows.append(
            bytes(row) if step == 3 else bytes(value for at, value in enumerate(row) if at % 4 != 3)
        )
        before = row
    return width, height, rows


def unfiltered(how, row, above, step):
    """A row as it was before it was filtered, from what its filter says."""
    for at in range(len(row)):
        left = row[at - step] if at >= step else 0
        corner = above[at - step] if at >= step else 0
        if how == 1:
            row[at] = row[at] + left & 255
        elif how == 2:
            row[at] = row[at] + above[at] & 255
        elif how == 3:
            row[at] = row[at] + (left + above[at]) // 2 & 255
        elif how == 4:
            guess = left + above[at] - corner
            near = min(
                (abs(guess - left), 0, left),
                (abs(guess - above[at]), 1, above[at]),
                (abs(guess - corner), 2, corner),
            )
            row[at] = row[at] + near[2] & 255
    return row


def blocks(data, side=10):
    """The mean colours of the squares of a picture, so many pixels wide."""
    width, height, rows = pixels(data)
    found = []
    for y in range(0, height - side + 1, side):
        for x in range(0, width - side + 1, side):
            found.append(
                [
                    sum(
                        sum(row[3 * x + channel : 3 * (x + side) : 3]) for row in rows[y : y + side]
                    )
                    / side**2
                    for channel in range(3)
                ]
            )
    return (width, height), found


def difference(one, other):
    """How far two pictures are from each other: the mean over squares, of 0 to 255. Of other sizes:
    255.
    """
    (size, first), (other_size, second) = blocks(one), blocks(other)
    if size != other_size:
        return 255.0
    return sum(abs(a - b) for p, q in zip(first, second) for a, b in zip(p, q)) / (3 * len(first))
