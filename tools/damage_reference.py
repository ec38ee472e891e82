#!/usr/bin/env python3
"""Says what the program trace_damage must print, by a reader of traces of its own.

    python3 tools/damage_reference.py > crates/trace_damage/stdout

The reader follows docs/sources.md and docs/records.md, and shares nothing with the code that it is compared with. Only the two traces
and the digest are written in both places.
"""

BYTES = bytes([
    1, 133, 0,
    4, 255, 255, 255, 255, 15, 1, 255, 255, 3, 63,
    2,
    3, 255, 31,
    1, 255, 255, 3,
    4, 0, 1, 0, 191, 128, 128, 128, 0,
])

TEXT = b"back\n\nunwind 04095\nsample 4294967295 00001 65535 63\ncall 065535"

CUT_SHORT, TOO_LARGE, UNKNOWN_KIND, OUT_OF_RANGE, BAD_FIELD = 1, 2, 3, 4, 5

LARGEST = 4294967295

# The fields of each kind, each by the first and the last number of its range.
FIELDS = {
    "call": [(1, 65535)],
    "return": [],
    "unwind": [(1, 4095)],
    "sample": [(0, LARGEST), (1, LARGEST), (0, 65535), (0, 63)],
}

KIND_OF_BYTE = {1: "call", 2: "return", 3: "unwind", 4: "sample"}
KIND_OF_WORD = {b"call": "call", b"back": "return", b"unwind": "unwind", b"sample": "sample"}


class Refused(Exception):
    def __init__(self, cause):
        super().__init__(cause)
        self.cause = cause


def in_range(kind, values):
    """The record, once all its fields are read."""
    for value, (first, last) in zip(values, FIELDS[kind]):
        if not first <= value <= last:
            raise Refused(OUT_OF_RANGE)
    return kind, values


# Bytes

def byte_number(data):
    """The number that the data begins with, and the data behind it."""
    groups = []
    for position in range(5):
        if position == len(data):
            raise Refused(CUT_SHORT)
        byte = data[position]
        if position == 4 and byte > 15:
            raise Refused(TOO_LARGE)
        groups.append(byte % 128)
        if byte < 128:
            break
    value = sum(group * 128 ** position for position, group in enumerate(groups))
    return value, data[len(groups):]


def byte_record(data):
    """The record that the data begins with, and the data behind it."""
    kind = KIND_OF_BYTE.get(data[0])
    if kind is None:
        raise Refused(UNKNOWN_KIND)
    behind = data[1:]
    values = []
    for _ in FIELDS[kind]:
        value, behind = byte_number(behind)
        values.append(value)
    return in_range(kind, values), behind


def read_bytes(data):
    """All records of the data, and its ending: None, or a cause and a place."""
    records = []
    left = data
    while left:
        try:
            record, behind = byte_record(left)
        except Refused as refused:
            return records, (refused.cause, len(data) - len(left))
        records.append(record)
        left = behind
    return records, None


# Text

def text_field(word):
    if word == b"" or any(byte not in b"0123456789" for byte in word):
        raise Refused(BAD_FIELD)
    if len(word) > 10 or int(word) > LARGEST:
        raise Refused(TOO_LARGE)
    return int(word)


def text_record(line):
    words = line.split(b" ")
    kind = KIND_OF_WORD.get(words[0])
    if kind is None:
        raise Refused(UNKNOWN_KIND)
    values = []
    for index in range(1, len(FIELDS[kind]) + 1):
        if index >= len(words):
            raise Refused(CUT_SHORT)
        values.append(text_field(words[index]))
    if len(words) > len(FIELDS[kind]) + 1:
        raise Refused(BAD_FIELD)
    return in_range(kind, values)


def read_text(text):
    """All records of the text, and its ending: None, or a cause and a place."""
    records = []
    place = 0
    for line in text.split(b"\n"):
        if line:
            try:
                records.append(text_record(line))
            except Refused as refused:
                return records, (refused.cause, place)
        place += len(line) + 1
    return records, None


# What is printed

def digest_of(numbers):
    digest = 1
    for number in numbers:
        digest = (digest * 1099511628211 + number) % 2 ** 64
    return digest


def numbers_of_record(record):
    kind, values = record
    return [{"call": 1, "return": 2, "unwind": 3, "sample": 4}[kind], *values]


def numbers_of_ending(ending):
    if ending is None:
        return [5]
    cause, place = ending
    # no layer has passed the fault up
    return [6, cause, place, 0]


def outcome(read, data):
    """How many records came, how it ended, and the digest of all answers: the source is asked for its ending three times."""
    records, ending = read(data)
    numbers = [number for record in records for number in numbers_of_record(record)]
    return len(records), ending, digest_of(numbers + 3 * numbers_of_ending(ending))


def print_prefixes(read, trace):
    for length in range(len(trace) + 1):
        count, ending, digest = outcome(read, trace[:length])
        how = "end" if ending is None else f"cause {ending[0]} at {ending[1]}"
        print(f"{length}: {count}, {how}, {digest:016x}")


def print_changes(read, trace):
    for place in range(len(trace)):
        tally = [0] * 6
        digests = []
        for value in range(256):
            _, ending, digest = outcome(read, trace[:place] + bytes([value]) + trace[place + 1:])
            tally[0 if ending is None else ending[0]] += 1
            digests.append(digest)
        counts = " ".join(map(str, tally))
        print(f"{place}: {counts}, {digest_of(digests):016x}")


def main():
    for name, read, trace in [("bytes", read_bytes, BYTES), ("text", read_text, TEXT)]:
        print(f"{name}, prefixes: length, records, ending, digest")
        print_prefixes(read, trace)
        print(f"{name}, changes: place, how many of 256 came to the end and to causes 1 to 5, digest")
        print_changes(read, trace)


main()
