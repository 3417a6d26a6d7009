#!/usr/bin/env python3
"""Writes the samples that are made by hand: example.jxl and pieces/, document 01's example of a
listing, its worked pieces of boxes, and the smallest file of each end that document 02 (P4) names."""
import os

SIGNATURE = bytes.fromhex("0000000c 4a584c20 0d0a870a")


def box(size, kind, payload=b""):
    return size.to_bytes(4, "big") + kind + payload


def extended(size, kind):
    return box(1, kind) + size.to_bytes(8, "big")


EXAMPLE = SIGNATURE + box(20, b"ftyp", b"jxl \0\0\0\0jxl ") + box(0, b"jxlc", b"\xff\x0a\0")

# One file for each. The pieces with a container start with its signature.
BARE = {
    "empty": b"",
    "ff": b"\xff",
    "ff0a": b"\xff\x0a",
    "01": b"\x01",
}
CONTAINERS = {
    "jxlc-8": box(8, b"jxlc"),
    "jxlc-8-and-00": box(8, b"jxlc") + b"\0",
    "exif-7": box(7, b"Exif"),
    "exif-8": box(8, b"Exif"),
    "extended-cut": extended(16, b"Exif")[:15],
    "extended-15": extended(15, b"Exif"),
    "extended-16": extended(16, b"Exif"),
    "jxlp-11": box(11, b"jxlp"),
    "jxlp-12-index-1": box(12, b"jxlp", bytes.fromhex("00000001")),
    "jxlp-12-last": box(12, b"jxlp", bytes.fromhex("80000000")),
    "brob-11": box(11, b"brob"),
    "brob-12-jxlc": box(12, b"brob", b"jxlc"),
    "brob-12-exif": box(12, b"brob", b"Exif"),
}
# The ends that the pieces above do not have.
ENDS = {
    "no-box": b"",
    "header-cut": box(8, b"Exif")[:7],
    "exif-9": box(9, b"Exif", b"x"),
    "exif-9-short": box(9, b"Exif"),
    "exif-toend": box(0, b"Exif"),
    "jxlc-9-short": box(9, b"jxlc"),
    "jxlc-toend": box(0, b"jxlc"),
    "jxlp-12-index-cut": box(12, b"jxlp", bytes(3)),
    "jxlp-12-open": box(12, b"jxlp", bytes(4)),
    "jxlp-12-open-exif-8": box(12, b"jxlp", bytes(4)) + box(8, b"Exif"),
    "jxlp-toend-open": box(0, b"jxlp", bytes(4)),
    "jxlp-toend-last": box(0, b"jxlp", bytes.fromhex("80000000")),
    "brob-12-inner-cut": box(12, b"brob", b"Exi"),
    "brob-toend-exif": box(0, b"brob", b"Exif"),
}


def write(name, content):
    with open(name, "wb") as file:
        file.write(content)


os.chdir(os.path.dirname(os.path.abspath(__file__)))
os.makedirs("pieces", exist_ok=True)
write("example.jxl", EXAMPLE)
for name, content in BARE.items():
    write(f"pieces/{name}.jxl", content)
for name, content in (CONTAINERS | ENDS).items():
    write(f"pieces/{name}.jxl", SIGNATURE + content)
