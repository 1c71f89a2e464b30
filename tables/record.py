#!/bin/sh
''':'
# Python would end at a folder as input before its first line, so the shell looks for one; for Python these lines are a text.
[ -d /dev/stdin ] && { echo "record.py: the input is a folder" >&2; exit 5; }
exec python3 "$0" "$@"
'''
__doc__ = """The table record of docs/01-scope.md: fields of a tag, a length in two bytes and a payload, all little-endian.

  tables/record.py pack < TABLE.json > TABLE.rec    the record of a table that is written as JSON
  tables/record.py show < TABLE.rec > TABLE.json    a record as JSON, which packs to the same bytes

The JSON is {"degree": 1, "knots": [0, 0, 1, 1], "points": [[0, 0, 0], [2, 5, 0]], "weights": [1, 1]}; where weights
are left out, the record has no field of them, and the table is polynomial. A decimal is the double that is nearest to
it. A string of 16 hexadecimal digits is a double by its bits, as the listers print it: an infinity or a NaN can be
written in no other way. Whether the table is valid is not judged here: the last point may have fewer than three
coordinates, as in a record, and "weights": [] is a field of length 0. The programs refuse both.

Exit status: 0 done; 2 bad usage; 4 the input is no such JSON or no record; 5 it cannot be read, or the output failed.
"""
import json
import math
import os
import re
import struct
import sys

LONGEST_FIELD, LONGEST = 65535, 65536
# far above the decimals of any record, so that an endless input ends
LONGEST_JSON = 1 << 24
TAGS = {"knots": 2, "points": 3, "weights": 4}


class Malformed(Exception):
    """Says why there is no record."""


def double(bits):
    """The double of a bit pattern."""
    return struct.unpack("<d", struct.pack("<Q", bits))[0]


def doubles(xs):
    return b"".join(struct.pack("<d", x) for x in xs)


def field(tag, payload):
    if len(payload) > LONGEST_FIELD:
        raise Malformed(f"field {tag} would have {len(payload):,} bytes; a field has at most {LONGEST_FIELD:,}")
    return struct.pack("<BH", tag, len(payload)) + payload


def degree(p):
    return field(1, struct.pack("<H", p))


def knots(xs):
    return field(2, doubles(xs))


def points(ps):
    return field(3, doubles(x for p in ps for x in p))


def weights(xs):
    return field(4, doubles(xs))


def record(p, ks, ps, ws=None):
    """The record of a curve; without ws there is no weights field."""
    return degree(p) + knots(ks) + points(ps) + (b"" if ws is None else weights(ws))


def bits(x):
    """A double's bits as 16 hexadecimal digits."""
    return struct.pack(">d", x).hex()


def spans(p, count, ks):
    """What the span lister prints of a valid curve: a line for each s in p..=count-1 with ks[s] < ks[s+1]."""
    return "".join(f"{s} {bits(ks[s])} {bits(ks[s + 1])}\n" for s in range(p, count) if ks[s] < ks[s + 1])


def fields(data):
    """The payloads of a well-formed record by tag."""
    found, last, at = {}, 0, 0
    if len(data) > LONGEST:
        raise Malformed(f"more than {LONGEST:,} bytes")
    while at < len(data):
        tag, start = data[at], at + 3
        end = start + int.from_bytes(data[at + 1 : start], "little")
        if not last < tag <= 4:
            raise Malformed(f"tag {tag} at byte {at}, behind tag {last}" if last else f"tag {tag} at byte {at}")
        if max(start, end) > len(data):
            raise Malformed(f"field {tag} at byte {at} is cut")
        if (end - start) % 8 if tag > 1 else end - start != 2:
            raise Malformed(f"field {tag} has {end - start:,} bytes, which are {'no doubles' if tag > 1 else 'no degree'}")
        found[tag], last, at = data[start:end], tag, end
    for tag, name in enumerate(("degree", "knots", "points"), 1):
        if tag not in found:
            raise Malformed(f"no field {tag}, the {name}")
    return found


def curve(data):
    """Degree, knots, points and weights of a well-formed record, as `record` takes them."""
    found = fields(data)
    ks, xs, ws = ([x for (x,) in struct.iter_unpack("<d", found.get(tag, b""))] for tag in TAGS.values())
    ps = [tuple(xs[i : i + 3]) for i in range(0, len(xs), 3)]
    return int.from_bytes(found[1], "little"), ks, ps, ws if 4 in found else None


class Numeral(str):
    """A number of the JSON as it is written: -0 keeps its sign, and no digit is lost before the one rounding."""


def eight(x, where):
    """The eight bytes of a number of the JSON."""
    if isinstance(x, Numeral):
        if math.isinf(float(x)):
            raise Malformed(f"{where}: {x[:40]} is beyond the doubles")
        return struct.pack("<d", float(x))
    if isinstance(x, str) and re.fullmatch("[0-9a-f]{16}", x):
        return bytes.fromhex(x)[::-1]
    raise Malformed(f"{where}: neither a number nor a string of 16 hexadecimal digits")


def run(xs, where):
    """The bytes of a list of numbers."""
    if not isinstance(xs, list):
        raise Malformed(f"{where}: not a list")
    return b"".join(eight(x, f"{where}[{i}]") for i, x in enumerate(xs))


def triples(ps):
    """The bytes of a list of points."""
    if not isinstance(ps, list):
        raise Malformed("points: not a list")
    rows = [run(p, f"points[{i}]") for i, p in enumerate(ps)]
    for i, row in enumerate(rows):
        if len(row) != 24 and not (i == len(rows) - 1 and 0 < len(row) < 24):
            raise Malformed(f"points[{i}]: {len(row) // 8} numbers, and a point has three")
    return b"".join(rows)


def once(pairs):
    table = dict(pairs)
    if len(table) < len(pairs):
        raise Malformed("a name stands twice")
    return table


def constant(word):
    raise Malformed(f'{word} is no JSON; write its bits, as "7ff0000000000000" for an infinity')


def pack(text):
    """The record of a table that is written as JSON."""
    try:
        table = json.loads(text, object_pairs_hook=once, parse_int=Numeral, parse_float=Numeral, parse_constant=constant)
    except json.JSONDecodeError as wrong:
        raise Malformed(f"no JSON: {wrong}")
    if not isinstance(table, dict):
        raise Malformed('not of the form {"degree": .., "knots": [..], "points": [[..], ..]}')
    for name in table.keys() - {"degree", *TAGS}:
        raise Malformed(f"{name[:40]!r} is no part of a table")
    for name in ("degree", "knots", "points"):
        if name not in table:
            raise Malformed(f"no {name}")
    p = table["degree"]
    if not isinstance(p, Numeral) or not re.fullmatch("[0-9]{1,5}", p) or int(p) > 65535:
        raise Malformed("degree: not a whole number from 0 to 65,535")
    data = degree(int(p))
    for name, tag in TAGS.items():
        if name in table:
            data += field(tag, triples(table[name]) if name == "points" else run(table[name], name))
    if len(data) > LONGEST:
        raise Malformed(f"the record would have {len(data):,} bytes; a record has at most {LONGEST:,}")
    return data


def numbers(payload):
    """The numbers of a payload, each as JSON that packs to its bits."""
    for (b,) in struct.iter_unpack("<Q", payload):
        x = double(b)
        yield repr(x) if math.isfinite(x) else f'"{b:016x}"'


def show(data):
    """A well-formed record as JSON that packs to the same bytes."""
    found = fields(data)
    parts = [f'"degree": {int.from_bytes(found[1], "little")}']
    for name, tag in TAGS.items():
        if tag not in found:
            continue
        xs = list(numbers(found[tag]))
        if name == "points":
            xs = ["\n    [" + ", ".join(xs[i : i + 3]) + "]" for i in range(0, len(xs), 3)]
            parts.append('"points": [' + ",".join(xs) + ("\n  ]" if xs else "]"))
        else:
            parts.append(f'"{name}": [' + ", ".join(xs) + "]")
    return "{\n  " + ",\n  ".join(parts) + "\n}\n"


def put(data):
    while data:
        data = data[os.write(1, data) :]


def say(text):
    """To standard error, where it is open: print would turn to standard output."""
    if sys.stderr:
        sys.stderr.write(text)


def take(most):
    """Standard input, with at most one byte above `most`: by that it is known to be longer."""
    with open(0, "rb", closefd=False) as file:
        return file.read(most + 1)


def command(words):
    if words in (["-h"], ["--help"], ["help"]):
        put(__doc__.encode())
    elif words == ["pack"]:
        text = take(LONGEST_JSON)
        if len(text) > LONGEST_JSON:
            raise Malformed(f"more than {LONGEST_JSON:,} bytes of JSON")
        put(pack(text.decode()))
    elif words == ["show"]:
        put(show(take(LONGEST)).encode())
    else:
        say(__doc__)
        return 2
    return 0


def main():
    try:
        return command(sys.argv[1:])
    except (Malformed, UnicodeDecodeError, RecursionError) as wrong:
        say(f"record.py: {wrong}\n")
        return 4
    except OSError as wrong:
        say(f"record.py: {wrong}\n")
        return 5


if __name__ == "__main__":
    sys.exit(main())
