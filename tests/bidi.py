"""What tests/bidi-classes and tests/bidi-characters share: many lines are shown at once, one a row, and the rows are read back from dumps.

Each character of a line is a letter of the private use area, one for each class and place, so that each can be told on the screen. A class
file gives the letters their classes. A display table shows the isolate controls as themselves, where they would be blanks. What X9 removes
stays a blank, which counts for nothing: Unicode's tests give it no place.
"""
import collections
import itertools
import os
import subprocess
import sys

UNICODE = "/usr/share/unicode"
CLASSES = "L R AL EN ES ET AN CS B S WS ON NSM BN LRE LRO RLE RLO PDF LRI RLI FSI PDI".split()
REMOVED = {"BN", "LRE", "LRO", "RLE", "RLO", "PDF"}
ISOLATES = ["LRI", "RLI", "FSI", "PDI"]
PLACES = 140
PRIVATE_USE = 0xE000
HEIGHT = 200

# A line to be shown: where it stands in Unicode's file, its direction (auto, left or right) and its characters. Then what of them is seen from
# the left to the right, and the base level, or None where the file does not say it.
Line = collections.namedtuple("Line", "where direction text seen base")


def letter(kind, place):
    return chr(PRIVATE_USE + CLASSES.index(kind) * PLACES + place)


def class_entries():
    """The lines of a class file for all letters, in ascending order."""
    for kind, place in itertools.product(CLASSES, range(PLACES)):
        yield f"{ord(letter(kind, place)):04X};LETTER;Lo;0;{kind};\n"


def skip_without_unicode():
    if not os.path.isdir(UNICODE):
        print(f"needs Unicode's files in {UNICODE}: apt-get install unicode-data")
        sys.exit(77)


def data_rows(name):
    """The lines of a file of Unicode without comments, with their numbers."""
    with open(f"{UNICODE}/{name}", encoding="utf-8") as file:
        for number, line in enumerate(file, 1):
            line = line.partition("#")[0].strip()
            if line:
                yield number, line


def op(name, /, **fields):
    members = ",".join(f'"{key}":{value}' for key, value in fields.items())
    return f'{{"op":"{name}",{members}}}\n'


def text_of(lines):
    """The text that shows each line in a row of its own: under `auto` each is a paragraph, so a blank line stands between them."""
    return ("\\n\\n" if lines[0].direction == "auto" else "\\n").join(line.text for line in lines)


def script_of(pages, width):
    """A script that shows the pages, lists of lines of one direction, one after the other."""
    shown_isolates = ",".join(
        f'[{ord(letter(kind, place))},"{letter(kind, place)}"]' for kind, place in itertools.product(ISOLATES, range(64))
    )
    yield op("frame", width=width, height=HEIGHT)
    yield op("table", entries=f"[{shown_isolates}]")
    yield op("setting", buffer='"main"', name='"table"', value=0)
    length = 0
    for lines in pages:
        text = text_of(lines)
        yield op("delete", buffer='"main"', **{"from": 1, "to": length + 1})
        yield op("setting", buffer='"main"', name='"direction"', value=f'"{lines[0].direction}"')
        yield op("insert", buffer='"main"', pos=1, text=f'"{text}"')
        yield '{"op":"redisplay"}\n'
        length = len(text.replace("\\n", "\n"))


def pages_of(lines):
    """The lines in pages of what one screen shows of one direction."""
    for direction in ("auto", "left", "right"):
        these = [line for line in lines if line.direction == direction]
        size = (HEIGHT - 1) // (2 if direction == "auto" else 1)
        yield from (these[at : at + size] for at in range(0, len(these), size))


def screens(report):
    """The texts of the rows of each dump of a report."""
    rows = []
    for line in report.split("\n"):
        if line.startswith("row "):
            rows.append(line[line.index("|") + 1 : line.rindex("|")])
        elif line.startswith("cursor "):
            yield rows
            rows = []


def fault(line, row):
    """What is wrong with the row of a line, or nothing."""
    seen = row.replace(" ", "")
    if seen != line.seen:
        return f"shows {names(seen)} and not {names(line.seen)}"
    if seen and line.base is not None and line.base != (row[: len(row) // 2].strip() == ""):
        return f"is not shown at base level {line.base}"
    return None


def names(text):
    """The characters of a text, letters by their class and place."""
    told = []
    for it in text:
        kind, place = divmod(ord(it) - PRIVATE_USE, PLACES)
        told.append(f"{CLASSES[kind]}{place}" if 0 <= kind < len(CLASSES) else it)
    return " ".join(told)


def faults(lines, files):
    """Shows all lines over the class, mirror and bracket files, and gives each that is shown otherwise than Unicode's file says."""
    for is_long in (False, True):
        these = [line for line in lines if (len(line.text) > 12) == is_long]
        if not these:
            continue
        width = 2 * max(len(line.text) for line in these) + 4
        pages = list(pages_of(these))
        words = [f"--{name}={file}" for name, file in zip(("data", "mirror", "brackets"), files)]
        ran = subprocess.run(
            [os.environ["REDISPLAY"], *words, "--dump"],
            input="".join(script_of(pages, width)).encode(),
            stdout=subprocess.DEVNULL,
            stderr=subprocess.PIPE,
        )
        report = ran.stderr.decode()
        shown = list(screens(report))
        if ran.returncode or len(shown) != len(pages):
            yield f"the run ended with status {ran.returncode}: {report.splitlines()[-1]}"
            return
        for page, rows in zip(pages, shown):
            if page[0].direction == "auto":
                rows = rows[::2]
            for line, row in zip(page, rows):
                wrong = fault(line, row)
                if wrong:
                    yield f"{line.where} ({line.direction}): {names(line.text)} {wrong}"


def judge(lines, files, note):
    """Ends the test: prints the faults, and how many lines were shown."""
    found = list(itertools.islice(faults(lines, files), 20))
    print(*found, sep="\n", end="\n" if found else "")
    print(f"{len(lines):,} lines{note}")
    sys.exit(1 if found else 0)
