"""What the checks of the pages share: the sections and the blocks of a page, and runs of the program.

The program is the one that the variable REDISPLAY names, else ./redisplay of this checkout, which proves and builds it first.
"""
import collections
import os
import re
import subprocess
import sys

TOP = os.path.dirname(os.path.dirname(os.path.abspath(__file__)))
UNICODE = os.path.join(TOP, "data", "unicode")
WORDS = [
    f"--data={UNICODE}/UnicodeData.txt",
    f"--mirror={UNICODE}/BidiMirroring.txt",
    f"--brackets={UNICODE}/BidiBrackets.txt",
    "--dump",
]
DUMP = re.compile(r"(window|row|cursor) ")

# A block of a page between two lines of three backquotes: the word behind the first of them, the lines, and where it stands.
Block = collections.namedtuple("Block", "kind lines place")

# A section of a page: the level and the text of its heading, its tables as lists of rows, its blocks, and where it stands.
Section = collections.namedtuple("Section", "level title tables blocks place")

# What a run leaves: its exit status, and the lines of its report.
Run = collections.namedtuple("Run", "status report")


def sections(page):
    """The sections of a page, in order."""
    found, block, within_table = [Section(0, "", [], [], page)], None, False
    with open(os.path.join(TOP, page), encoding="utf-8") as lines:
        for number, line in enumerate(lines, 1):
            line, place = line.rstrip("\n"), f"{page}:{number}"
            if line.startswith("```"):
                if block is None:
                    block = Block(line[3:], [], place)
                    found[-1].blocks.append(block)
                else:
                    block = None
            elif block is not None:
                block.lines.append(line)
            elif line.startswith("#"):
                marks, title = line.split(" ", 1)
                found.append(Section(len(marks), title, [], [], place))
            elif line.startswith("|"):
                if not within_table:
                    found[-1].tables.append([])
                found[-1].tables[-1].append([cell.strip() for cell in line[1:-1].split("|")])
            within_table = block is None and line.startswith("|")
    return found


def program():
    """The path of the program."""
    return os.environ.get("REDISPLAY") or os.path.join(TOP, "redisplay")


def build():
    """Sees that the program runs; the one of this checkout is built first where it must be, and tells of that on standard error."""
    if not os.environ.get("REDISPLAY"):
        subprocess.run([program(), *WORDS], stdin=subprocess.DEVNULL)
    ran = run(WORDS, [])
    if ran != Run(0, ["done 0 lines"]):
        sys.exit(f"{program()} does not run an empty script: {ran}")


def run(words, lines):
    """Runs the program with these words on a script of these lines."""
    script = "".join(line + "\n" for line in lines).encode()
    done = subprocess.run([program(), *words], input=script, stdout=subprocess.DEVNULL, stderr=subprocess.PIPE)
    return Run(done.returncode, done.stderr.decode().splitlines())


def said(report):
    """The lines of a report without those of dumps."""
    return [line for line in report if not DUMP.match(line)]


def last_dump(report):
    """The lines of the last dump of a report."""
    dump = []
    for line in report:
        if DUMP.match(line):
            dump.append(line)
        elif re.match(r"\d+: shown ", line):
            dump = []
    return dump


def picture(dump, with_windows):
    """A dump as a page draws it: rows without their numbers, and windows only where they are asked for."""
    drawn = []
    for line in dump:
        if line.startswith("row "):
            drawn.append(line.split(" ", 2)[2])
        elif with_windows or not line.startswith("window "):
            drawn.append(line)
    return drawn


class Faults:
    """What a check found. Each fault is told as it comes."""

    def __init__(self):
        self.count = 0

    def tell(self, place, text):
        self.count += 1
        print(f"{place}: {text}")

    def compare(self, place, drawn, found):
        """Tells where what a page has is not what was found."""
        if drawn != found:
            self.tell(place, "the page has\n  " + "\n  ".join(drawn) + "\nand the program gives\n  " + "\n  ".join(found))

    def end(self, checked):
        """Ends the check with its status."""
        print(f"{checked}, {self.count} faults")
        sys.exit(1 if self.count else 0)


def check_runs(section, faults):
    """Runs the scripts of a section, and tells how many screens, reports and refusals were compared."""
    lines, compared = [], 0
    for block in section.blocks:
        if block.kind in ("script", "then"):
            lines = block.lines if block.kind == "script" else lines + block.lines
        elif block.kind in ("screen", "report"):
            compared += 1
            check_shown(block, run(WORDS, lines), faults)
        elif block.kind == "refused":
            compared += len(block.lines)
            check_refused(block, lines, faults)
        else:
            faults.tell(block.place, f"there is no kind of block {block.kind}")
    return compared


def check_shown(block, ran, faults):
    """Compares a screen or a report with that of a run, which has to end well."""
    if ran.status != 0:
        faults.tell(block.place, f"the script above ends with status {ran.status}: {ran.report[-1:]}")
    elif block.kind == "report":
        faults.compare(block.place, block.lines, said(ran.report))
    else:
        with_windows = block.lines[0].startswith("window ")
        faults.compare(block.place, block.lines, picture(last_dump(ran.report), with_windows))


def check_refused(block, lines, faults):
    """Runs each line of a block of refused lines behind a script, and compares the kind that the report names."""
    for refused in block.lines:
        kind, line = refused.split(": ", 1)
        ran = run(WORDS, lines + [line])
        wanted = Run(4, f"script:{len(lines) + 1}: {kind}")
        found = Run(ran.status, ran.report[-1] if ran.report else "")
        if found != wanted:
            faults.tell(block.place, f"{line}\n  gives {found}, and the page says {wanted}")


def check_links(page, faults):
    """Tells of each link from a page to a page of this folder, or to a section, that leads nowhere."""
    folder = os.path.dirname(page)
    with open(os.path.join(TOP, page), encoding="utf-8") as it:
        text = re.sub(r"```.*?```", "", it.read(), flags=re.S)
    for target, anchor in re.findall(r"\]\(([\w./-]*)(?:#([\w-]+))?\)", text):
        other = os.path.normpath(os.path.join(folder, target)) if target else page
        if not os.path.exists(os.path.join(TOP, other)):
            faults.tell(page, f"there is no {other}")
        elif anchor and anchor not in anchors(other):
            faults.tell(page, f"{other} has no section #{anchor}")


def anchors(page):
    """The anchors of a page's headings: of a heading that comes again, with a number behind."""
    seen, names = collections.Counter(), set()
    for section in sections(page):
        name = re.sub(r"[^\w -]", "", section.title.lower()).replace(" ", "-")
        names.add(f"{name}-{seen[name]}" if seen[name] else name)
        seen[name] += 1
    return names
