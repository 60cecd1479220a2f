#!/usr/bin/env python3
"""Writes the tables of Unicode properties, for the code and for the specs, from the Unicode Character Database.

    python3 tools/tables.py UCD_DIR

UCD_DIR holds DerivedCoreProperties.txt, PropList.txt and emoji-data.txt (the last may stand in emoji/), all of
version VERSION. What is written depends on these files alone, so running this again changes nothing. Another version,
a number that is no scalar value or a file that can't be read is refused with exit code 1, and nothing is written.
"""

import re
import sys
import textwrap
from pathlib import Path

VERSION = "15.0.0"

TOP = Path(__file__).resolve().parent.parent
CODE = TOP / "crates/ucd/src/tables.rt"
SPECS = TOP / "crates/ucd/specs/Ucd.antt"

# Property, file, name in the code, name in the specs.
TABLES = [
    ("XID_Start", "DerivedCoreProperties.txt", "XID_START", "xid_start"),
    ("XID_Continue", "DerivedCoreProperties.txt", "XID_CONTINUE", "xid_continue"),
    ("Emoji", "emoji-data.txt", "EMOJI", "emoji"),
    ("White_Space", "PropList.txt", "WHITE_SPACE", "white_space"),
]

CODE_HEAD = f"""\
// The ranges of the Unicode Character Database {VERSION}, low and high end in turn: written by tools/tables.py.
"""

SPECS_HEAD = f"""\
-- The characters of each property, as ranges in rising order: written by tools/tables.py from
-- DerivedCoreProperties.txt, PropList.txt and emoji-data.txt of the Unicode Character Database {VERSION}.
-- Assumes nothing.
use Rattle.characters.specs.Ranges.{{Range, ◌to◌}}
use Rattle.std.specs.Prelude.{{List, [], ◌∷◌}}

"""


class Refused(Exception):
    """The database's files aren't what is asked for."""


def read_file(ucd, name):
    """The text of the file, once it is seen to be of VERSION."""
    places = [ucd / name, ucd / "emoji" / name] if name == "emoji-data.txt" else [ucd / name]
    path = next((place for place in places if place.is_file()), None)
    if path is None:
        raise Refused(f"{name} isn't in {ucd}")
    text = path.read_text(encoding="utf-8")
    check_version(name, text)
    return text


def check_version(name, text):
    """A file names its version in its first line; emoji-data.txt in a later one, and by two numbers only."""
    if name == "emoji-data.txt":
        wanted = VERSION.rsplit(".", 1)[0]
        found = re.search(r"^# (?:Used with Emoji )?Version:? (\d+\.\d+)\b", text, re.MULTILINE)
    else:
        wanted = VERSION
        found = re.match(rf"# {re.escape(Path(name).stem)}-(\d+\.\d+\.\d+)\.txt\s", text)
    version = found.group(1) if found else "no version"
    if version != wanted:
        raise Refused(f"{name} names {version}, not {wanted}")


def read_ranges(text, prop):
    """The ranges that the text gives to the property, in rising order, adjacent ones merged."""
    ranges = []
    for line in text.splitlines():
        fields = [field.strip() for field in line.split("#")[0].split(";")]
        if len(fields) == 2 and fields[1] == prop:
            ranges.append(read_range(fields[0]))
    if not ranges:
        raise Refused(f"no range has the property {prop}")
    return merge(ranges)


def read_range(field):
    """The low and the high end of a field such as 0041..005A or 00AA."""
    found = re.fullmatch(r"([0-9A-F]{4,6})(?:\.\.([0-9A-F]{4,6}))?", field)
    if not found:
        raise Refused(f"{field} is no range")
    low = int(found.group(1), 16)
    high = int(found.group(2) or found.group(1), 16)
    if low > high:
        raise Refused(f"the range {field} is empty")
    if high > 0x10FFFF:
        raise Refused(f"the range {field} goes above 10FFFF")
    if low <= 0xDFFF and high >= 0xD800:
        raise Refused(f"the range {field} holds a surrogate")
    return low, high


def merge(ranges):
    """The same code points in as few ranges as there can be, in rising order."""
    merged = []
    for low, high in sorted(ranges):
        if merged and low <= merged[-1][1] + 1:
            merged[-1] = merged[-1][0], max(merged[-1][1], high)
        else:
            merged.append((low, high))
    return merged


def code_table(name, ranges):
    """The table in the code: low and high end in turn, as many in a line as `rt fmt` puts there."""
    numbers = [f"0x{end:04X}," for ends in ranges for end in ends]
    lines = textwrap.wrap(" ".join(numbers), 95)
    return f"pub static {name}: [u32; {len(numbers)}] = [\n{''.join(f'    {line}{chr(10)}' for line in lines)}];\n"


def specs_table(name, ranges):
    """The table in the specs: a list of ranges."""
    rows = [f"    0x{low:04X} to 0x{high:04X} ∷\n" for low, high in ranges]
    return f"unfoldable pub {name} : List Range\n{name} =\n{''.join(rows)}    []\n"


def write(path, text):
    """Writes the file, with its folder where there is none."""
    path.parent.mkdir(parents=True, exist_ok=True)
    path.write_text(text, encoding="utf-8", newline="\n")


def main(arguments):
    if len(arguments) != 1:
        raise Refused("usage: python3 tools/tables.py UCD_DIR")
    ucd = Path(arguments[0])
    code, specs = [], []
    for prop, name, in_code, in_specs in TABLES:
        ranges = read_ranges(read_file(ucd, name), prop)
        code.append(code_table(in_code, ranges))
        specs.append(specs_table(in_specs, ranges))
        print(f"{prop}: {len(ranges)} ranges, {sum(high - low + 1 for low, high in ranges)} code points")
    write(CODE, CODE_HEAD + "\n".join(code))
    write(SPECS, SPECS_HEAD + "\n".join(specs))


if __name__ == "__main__":
    try:
        main(sys.argv[1:])
    except (Refused, OSError, UnicodeDecodeError) as problem:
        sys.exit(f"tables.py: {problem}")
