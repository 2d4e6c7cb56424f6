"""PNG and PPM files, written and read here, so that no browser is needed for it."""
import random
import struct
import zlib

SIGNATURE = b"\x89PNG\r\n\x1a\n"
# How many bytes a pixel has, by the kind of colour: grey, red-green-blue, and that with alpha.
CHANNELS = {0: 1, 2: 3, 6: 4}


def chunk(kind, data):
    return struct.pack(">I", len(data)) + kind + data + struct.pack(">I", zlib.crc32(kind + data))


def png(width, height, pixels, more=(), kind=2, depth=8):
    """A picture of these bytes, with more chunks in front of its pixels."""
    row = width * CHANNELS[kind] * depth // 8
    lines = b"".join(b"\0" + pixels[at:at + row] for at in range(0, row * height, row))
    head = struct.pack(">IIBBBBB", width, height, depth, kind, 0, 0, 0)
    chunks = [
        chunk(b"IHDR", head), *(chunk(*it) for it in more), chunk(b"IDAT", zlib.compress(lines, 1)),
        chunk(b"IEND", b"")
    ]
    return SIGNATURE + b"".join(chunks)


def chunks_of(data):
    """The chunks of a file: kinds and bytes."""
    at, found = len(SIGNATURE), []
    while at < len(data):
        size = int.from_bytes(data[at:at + 4], "big")
        found.append((data[at + 4:at + 8], data[at + 8:at + 8 + size]))
        at += 12 + size
    return found


def size_of(data):
    return struct.unpack(">II", data[16:24])


def nearest(left, up, corner):
    """Paeth's choice among the bytes at the left, above, and above the left."""
    guess = left + up - corner
    return min(
        (abs(guess - left), 0, left), (abs(guess - up), 1, up), (abs(guess - corner), 2, corner)
    )[2]


def unfiltered(kind, line, above, wide):
    """The bytes of a row, from those of the file and the row above."""
    for at, byte in enumerate(line):
        left, corner = (line[at - wide], above[at - wide]) if at >= wide else (0, 0)
        add = (0, left, above[at], (left + above[at]) // 2, nearest(left, above[at], corner))[kind]
        line[at] = (byte + add) & 255
    return line


def read(data):
    """Width, height and the bytes red, green, blue and alpha of a file."""
    chunks = dict(reversed(chunks_of(data)))
    width, height, depth, kind = struct.unpack(">IIBB", chunks[b"IHDR"][:10])
    assert depth == 8 and kind in CHANNELS, (depth, kind)
    wide = CHANNELS[kind]
    lines = zlib.decompress(b"".join(it for name, it in chunks_of(data) if name == b"IDAT"))
    above, pixels = bytearray(width * wide), bytearray()
    for at in range(0, len(lines), width * wide + 1):
        above = unfiltered(lines[at], bytearray(lines[at + 1:at + 1 + width * wide]), above, wide)
        pixels += above
    if kind == 6:
        return width, height, bytes(pixels)
    colours = [pixels[it::wide] for it in range(wide)] * (3 // wide)
    return width, height, bytes(it for pixel in zip(*colours) for it in (*pixel, 255))


def rgb(pixels):
    """The bytes red, green and blue of bytes with alpha."""
    return bytes(it for at in range(0, len(pixels), 4) for it in pixels[at:at + 3])


def ppm(width, height, pixels):
    """The same picture for imgref_frames."""
    return b"P6\n%d %d\n255\n" % (width, height) + pixels


def ppm_of(data):
    """A saved file as imgref_frames would write it, or nothing where a pixel isn't opaque."""
    width, height, pixels = read(data)
    return ppm(width, height, rgb(pixels)) if set(pixels[3::4]) == {255} else b""


def by_chance(width, height, seed):
    """Pixels of three bytes by chance, the same in each run."""
    return random.Random(f"{seed} {width} {height}").randbytes(3 * width * height)
