#!/usr/bin/env python3
"""Writes the bytes of readable files: of rules (.txt) the order sheet, of a capture (.capture) the packets of a report, of
readings (.readings) its earlier and later readings.

    python3 examples/make.py examples/*.txt examples/*.capture examples/*.readings

README.md beside this file describes the readable forms. The first line that is not of its form is named, and nothing is
written then.
"""

import pathlib
import struct
import sys

ADDRESS, PORT, PROTOCOL = 0xFFFFFFFF, 0xFFFF, 0xFF
FIELDS = {
    "source": (ADDRESS, "I"),
    "destination": (ADDRESS, "I"),
    "source-port": (PORT, "H"),
    "destination-port": (PORT, "H"),
    "protocol": (PROTOCOL, "B"),
}
ACTIONS = {"deny": 0, "allow": 1}
PROTOCOLS = {"icmp": 1, "igmp": 2, "tcp": 6, "udp": 17}
MOST_PACKETS = 1_000_000
HIGHEST_COUNTER = 0xFFFFFFFF


class Fault(Exception):
    """What is wrong with a line."""


def number(word, highest):
    """A decimal number."""
    if not (word.isascii() and word.isdecimal()):
        raise Fault(f"{word!r} is no number")
    if len(word) > 10 or int(word) > highest:
        raise Fault(f"{word} is above {highest}")
    return int(word)


def address(word):
    """A dotted address: four parts, each below 256."""
    parts = word.split(".")
    if len(parts) != 4:
        raise Fault(f"{word} is no address")
    return int.from_bytes([number(part, 255) for part in parts], "big")


def value(name, word):
    """A field's value: a decimal number, an address also dotted, a protocol also by its name."""
    highest, _ = FIELDS[name]
    if highest == ADDRESS and "." in word:
        return address(word)
    if name == "protocol" and word in PROTOCOLS:
        return PROTOCOLS[word]
    return number(word, highest)


def ends(name, word):
    """Low and high of one value, low-high, or address/bits."""
    if "/" in word:
        start, _, bits = word.partition("/")
        size = 1 << (32 - number(bits, 32))
        low = address(start)
        if low % size:
            raise Fault(f"{word} does not begin at a multiple of its size")
        return low, low + size - 1
    low, dash, high = word.partition("-")
    return value(name, low), value(name, high if dash else low)


def record(words):
    """The 27 bytes of a rule: its action, then field names each followed by a range."""
    if words[0] not in ACTIONS or len(words) % 2 == 0:
        raise Fault(f"not a rule: {' '.join(words)}")
    ranges = {}
    for name, word in zip(words[1::2], words[2::2]):
        if name not in FIELDS or name in ranges:
            raise Fault(f"{name} is no field, or is named twice")
        low, high = ends(name, word)
        if not low <= high <= FIELDS[name][0]:
            raise Fault(f"{name} {word} is no range up to {FIELDS[name][0]}")
        ranges[name] = low, high
    packed = [struct.pack(f">2{width}", *ranges.get(name, (0, highest))) for name, (highest, width) in FIELDS.items()]
    return b"".join(packed) + bytes([ACTIONS[words[0]]])


def read_lines(path, text, read):
    """Hands the words of each line that has some to `read`, and names the first line with a fault."""
    for place, line in enumerate(text.splitlines(), 1):
        words = line.split("#")[0].split()
        try:
            if words:
                read(words)
        except Fault as fault:
            sys.exit(f"{path}:{place}: {fault}")


def order_sheet(path, text):
    """Sections A and B, each behind its two-byte count."""
    sections = {"gate": [], "cell": []}
    current = None

    def read(words):
        nonlocal current
        if len(words) == 1 and words[0] in sections:
            current = sections[words[0]]
        elif current is None:
            raise Fault("a rule before the line gate or cell")
        else:
            current.append(record(words))

    read_lines(path, text, read)
    return b"".join(struct.pack(">H", len(rules)) + b"".join(rules) for rules in sections.values())


def packets(path, text):
    """13 bytes for each packet, as often as its line says."""
    parts = []

    def read(words):
        if len(words) not in (5, 6):
            raise Fault(f"{len(words)} values where a packet has five, and may have how often it came")
        times = number(words[5], MOST_PACKETS) if len(words) == 6 else 1
        values = [value(name, word) for name, word in zip(FIELDS, words)]
        parts.append(struct.pack(">IIHHB", *values) * times)

    read_lines(path, text, read)
    return b"".join(parts)


def readings(path, text):
    """Four bytes for each place: the earlier reading and the later one."""
    earlier, later = [], []

    def read(words):
        if len(words) != 3 or words[0] != str(len(earlier)):
            raise Fault(f"not place {len(earlier)}, its earlier and its later reading")
        earlier.append(number(words[1], HIGHEST_COUNTER))
        later.append(number(words[2], HIGHEST_COUNTER))

    read_lines(path, text, read)
    return [struct.pack(f">{len(counters)}I", *counters) for counters in (earlier, later)]


def written(path):
    """The files that a readable file gives."""
    try:
        text = path.read_text(encoding="utf-8", errors="replace")
    except OSError as error:
        sys.exit(f"{path}: {error.strerror}")
    if path.suffix == ".txt":
        return {path.with_suffix(".order"): order_sheet(path, text)}
    if path.suffix == ".capture":
        return {path.with_suffix(".packets"): packets(path, text)}
    if path.suffix == ".readings":
        earlier, later = readings(path, text)
        return {path.with_suffix(".earlier"): earlier, path.with_suffix(".later"): later}
    sys.exit(f"{path}: neither .txt nor .capture nor .readings")


def main():
    files = [file for path in sys.argv[1:] for file in written(pathlib.Path(path)).items()]
    for path, content in files:
        path.write_bytes(content)


if __name__ == "__main__":
    main()
