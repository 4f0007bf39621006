"""What the measurements share: the program, how an op is written, and what a run of a script is.

The program is crates/rd_play/out/rd_play, which ./redisplay proves and builds, or the one that the variable PROGRAM names.
"""
import collections
import itertools
import json
import os
import subprocess
import sys
import tempfile
import threading

sys.dont_write_bytecode = True
TOP = os.path.dirname(os.path.dirname(os.path.abspath(__file__)))
PROGRAM = os.environ.get("PROGRAM", os.path.join(TOP, "crates", "rd_play", "out", "rd_play"))


def words_in(folder, classes, mirrors, brackets):
    files = [("data", classes), ("mirror", mirrors), ("brackets", brackets)]
    return [f"--{name}={os.path.join(TOP, folder, file)}" for name, file in files]


WORDS = words_in("data/unicode", "UnicodeData.txt", "BidiMirroring.txt", "BidiBrackets.txt")
SMALL_WORDS = words_in("examples/data", "classes.txt", "mirrors.txt", "brackets.txt")
REDISPLAY = b'{"op":"redisplay"}'

# Of a run: its exit status, the bytes of the screen, the lines of the report, the processor time in seconds, and the most resident memory
# in bytes; 0 where the program ended before its script did.
Run = collections.namedtuple("Run", "status screen report seconds peak")


def op(name, /, **fields):
    """A line of a script. `from_` stands for the field `from`."""
    return json.dumps({"op": name, **{key.rstrip("_"): it for key, it in fields.items()}}, separators=(",", ":")).encode()


def text_in(pieces, buffer="main"):
    """The lines that put pieces of text, one behind the other, into an empty buffer."""
    place = 1
    for it in pieces:
        yield op("insert", buffer=buffer, pos=place, text=it)
        place += len(it)


def cut(text, size=200_000):
    """Pieces of a text, so that a line of a script stays within its limit."""
    return (text[start : start + size] for start in range(0, len(text), size))


def run(lines, words=WORDS):
    """Runs a script whose last line is a redisplay, or refused. The lines are sent as they come, so a long script is never held."""
    with tempfile.TemporaryFile() as screen:
        program = subprocess.Popen([PROGRAM, *words], stdin=subprocess.PIPE, stdout=screen, stderr=subprocess.PIPE)
        report, told = [], threading.Condition()
        reader = threading.Thread(target=read_report, args=(program.stderr, report, told))
        reader.start()
        count = send(lines, program.stdin)
        await_answer(report, told, b"%d: " % count)
        peak = peak_of(program.pid)
        try:
            program.stdin.close()
        except BrokenPipeError:
            pass
        reader.join()
        _, status, usage = os.wait4(program.pid, 0)
        program.returncode = os.waitstatus_to_exitcode(status)
        screen.seek(0)
        return Run(program.returncode, screen.read(), report[:-1], usage.ru_utime + usage.ru_stime, peak)


def read_report(pipe, report, told):
    """Gathers the lines of a report, and None at its end."""
    with pipe:
        for line in itertools.chain(iter(pipe.readline, b""), [None]):
            with told:
                report.append(line and line.rstrip(b"\n"))
                told.notify()


def await_answer(report, told, answer):
    """Waits until a line of the report begins as an answer does, or the report has ended."""
    seen = 0
    with told:
        while not any(it is None or it.startswith(answer) for it in report[seen:]):
            seen = len(report)
            told.wait()


def send(lines, pipe):
    """Sends the lines, and answers how many they are."""
    count = 0
    try:
        for count, line in enumerate(lines, 1):
            pipe.write(line + b"\n")
        pipe.flush()
    except BrokenPipeError:
        pass
    return count


def peak_of(process):
    with open(f"/proc/{process}/status") as it:
        return sum(int(line.split()[1]) * 1024 for line in it if line.startswith("VmHWM:"))


def shown(lines, words=WORDS):
    """A run that must come to its end."""
    it = run(lines, words)
    if it.status != 0:
        sys.exit(f"the program ended with {it.status}: {b' '.join(it.report[-2:]).decode(errors='replace')}")
    return it


def cost(before, behind, times, tries=3):
    """Seconds of processor time that each of so many repetitions of lines takes behind others: the least of some tries."""
    without = [shown(itertools.chain(before(), [REDISPLAY])) for _ in range(tries)]
    whole = [shown(itertools.chain(before(), behind * times, [REDISPLAY])) for _ in range(tries)]
    return max(min(it.seconds for it in whole) - min(it.seconds for it in without), 0) / times


def megabytes(count):
    return f"{count / 2**20:.0f} MB"
