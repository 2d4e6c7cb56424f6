// What a picture's file holds besides its pixels, by name. A file may say anything: what can't be read
// is left out, and nothing is believed of lengths.

/** The names of what is dropped, what is lost already at opening, and the size that the file tells. */
export function inspect(bytes) {
  const found = { names: new Set(), lost: [], size: null, isKnown: true };
  const file = new Bytes(bytes);
  try {
    readerOf(file)(file, found);
  } catch (why) {
    if (!(why instanceof RangeError)) {
      throw why;
    }
  }
  return { ...found, names: [...found.names] };
}

/** The bytes of a file. Reading past the end is a RangeError. */
class Bytes {
  constructor(bytes, isLittle = false) {
    this.view = new DataView(bytes.buffer, bytes.byteOffset, bytes.byteLength);
    this.bytes = bytes;
    this.isLittle = isLittle;
  }

  get length() {
    return this.bytes.length;
  }

  u8(at) {
    return this.view.getUint8(at);
  }

  u16(at) {
    return this.view.getUint16(at, this.isLittle);
  }

  u32(at) {
    return this.view.getUint32(at, this.isLittle);
  }

  text(at, count) {
    return String.fromCharCode(...this.bytes.subarray(at, at + count));
  }

  part(at, count, isLittle) {
    return new Bytes(this.bytes.subarray(at, at + count), isLittle);
  }
}

function readerOf(file) {
  if (file.text(0, 8) === "\x89PNG\r\n\x1a\n") {
    return readPng;
  }
  if (file.text(0, 2) === "\xff\xd8") {
    return readJpeg;
  }
  if (file.text(0, 3) === "GIF") {
    return readGif;
  }
  return file.text(0, 4) === "RIFF" && file.text(8, 4) === "WEBP" ? readWebp : readUnknown;
}

function readUnknown(file, found) {
  found.isKnown = false;
}

function readPng(file, found) {
  let at = 8;
  while (at + 8 <= file.length) {
    const size = file.u32(at), kind = file.text(at + 4, 4), data = file.part(at + 8, size);
    at += size + 12;
    switch (kind) {
      case "IHDR":
        found.size = [data.u32(0), data.u32(4)];
        if (data.u8(8) === 16) {
          found.lost.push("16 bits of a colour have become 8.");
        }
        break;
      case "acTL":
        tellFrames(data.u32(0), found);
        break;
      case "eXIf":
        readExif(data, found);
        break;
      case "iCCP":
        found.names.add("a colour profile");
        break;
      case "tIME":
        found.names.add("a time");
        break;
      case "tEXt": case "zTXt": case "iTXt":
        found.names.add(data.text(0, 18) === "XML:com.adobe.xmp\0" ? "XMP" : "a comment");
        break;
      case "IEND":
        tellRest(file, at, found);
        return;
    }
  }
  tellCut(found);
}

function readJpeg(file, found) {
  let at = 2;
  for (;;) {
    const marker = file.u16(at), size = file.u16(at + 2), data = file.part(at + 4, size - 2);
    if (marker >> 8 !== 0xff || size < 2) {
      return;
    }
    const isFrame = marker >= 0xffc0 && marker <= 0xffcf && ![0xffc4, 0xffc8, 0xffcc].includes(marker);
    if (isFrame) {
      found.size = [data.u16(3), data.u16(1)];
    } else if (marker === 0xffda) {
      const end = unlessCut(() => endOfJpeg(file, at + 2 + size));
      end === null ? tellCut(found) : tellRest(file, end, found);
      return;
    } else {
      unlessCut(() => readSegment(marker, data, found));
    }
    at += 2 + size;
  }
}

/** What a reader gives, or null where it reads past the end. */
function unlessCut(read) {
  try {
    return read();
  } catch (why) {
    if (!(why instanceof RangeError)) {
      throw why;
    }
    return null;
  }
}

/** A segment of a JPEG file before its pixels. */
function readSegment(marker, data, found) {
  const begins = (text) => data.text(0, text.length) === text;
  if (marker === 0xfffe) {
    found.names.add("a comment");
  } else if (marker === 0xffe0 && begins("JFIF\0") && data.u8(12) * data.u8(13) > 0) {
    found.names.add("a thumbnail");
  } else if (marker === 0xffe1 && begins("Exif\0\0")) {
    readExif(data.part(6, data.length), found);
  } else if (marker === 0xffe1 && begins("http://ns.adobe.com/")) {
    found.names.add("XMP");
  } else if (marker === 0xffe2 && begins("ICC_PROFILE\0")) {
    found.names.add("a colour profile");
  } else if (marker === 0xffe2 && begins("MPF\0")) {
    found.names.add("further pictures");
  } else if (marker === 0xffed) {
    found.names.add("IPTC");
  }
}

/** Where a JPEG file ends whose first scan begins here. A later scan has segments before it. */
function endOfJpeg(file, begin) {
  let at = begin;
  for (;;) {
    const next = file.bytes.indexOf(0xff, at), marker = file.u8(next < 0 ? file.length : next + 1);
    if (marker === 0xd9) {
      return next + 2;
    }
    const isInside = marker === 0 || (marker >= 0xd0 && marker <= 0xd7);
    at = next + (marker === 0xff ? 1 : isInside ? 2 : 2 + file.u16(next + 2));
  }
}

/** A table of EXIF: what it says of the place, the camera and the time, and whether it has a thumbnail. */
function readExif(data, found) {
  const exif = data.part(0, data.length, data.text(0, 2) === "II"), tags = new Map();
  let name = "EXIF";
  try {
    const count = exif.u16(exif.u32(4));
    for (let at = exif.u32(4) + 2, end = at + 12 * count; at < end; at += 12) {
      tags.set(exif.u16(at), exif.u32(at + 8));
    }
    if (exif.u32(exif.u32(4) + 2 + 12 * count) > 0) {
      found.names.add("a thumbnail");
    }
  } finally {
    const parts = [
      [tags.has(0x8825), "the place"], [tags.has(0x10f) || tags.has(0x110), "the camera"],
      [tags.has(0x132) || tags.has(0x8769), "the time and settings"],
      [tags.has(0x10e) || tags.has(0x13b) || tags.has(0x9286), "words about the picture"],
    ].filter(([isThere]) => isThere).map(([, it]) => it);
    name += parts.length ? ` with ${parts.join(" and ")}` : "";
    found.names.add(name);
  }
}

function readGif(file, found) {
  found.size = [file.part(6, 4, true).u16(0), file.part(6, 4, true).u16(2)];
  const table = (flags) => (flags & 128 ? 3 << ((flags & 7) + 1) : 0);
  let at = 13 + table(file.u8(10)), frames = 0;
  for (; file.u8(at) !== 0x3b; at += 1) {
    if (file.u8(at) === 0x2c) {
      frames += 1;
      at += 11 + table(file.u8(at + 9));
    } else if (file.u8(at) === 0x21) {
      if (file.u8(at + 1) === 0xfe) {
        found.names.add("a comment");
      }
      at += 2;
    } else {
      break;
    }
    while (file.u8(at) > 0) {
      at += file.u8(at) + 1;
    }
  }
  tellFrames(frames, found);
}

function readWebp(file, found) {
  const names = { "ICCP": "a colour profile", "XMP ": "XMP" };
  let frames = 0;
  for (let at = 12; at + 8 <= file.length;) {
    const kind = file.text(at, 4), size = file.part(at + 4, 4, true).u32(0);
    const data = file.part(at + 8, size);
    if (names[kind]) {
      found.names.add(names[kind]);
    } else if (kind === "EXIF") {
      readExif(data.text(0, 6) === "Exif\0\0" ? data.part(6, size) : data, found);
    }
    frames += kind === "ANMF";
    at += 8 + size + (size % 2);
  }
  if (file.part(4, 4, true).u32(0) + 8 > file.length) {
    tellCut(found);
  }
  tellFrames(frames, found);
}

/** A file that ends before its picture does: some browsers show what is there, and grey below it. */
function tellCut(found) {
  found.lost.push("The file ends too early: a part of the picture is missing.");
}

function tellFrames(count, found) {
  if (count > 1) {
    found.lost.push(`This is an animation of ${count} frames: only one is here.`);
  }
}

/** What comes after a picture's end: phones put a video there. */
function tellRest(file, at, found) {
  if (at < file.length) {
    found.names.add("data after the picture");
  }
}
