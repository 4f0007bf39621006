"""What the tests of the front ends share: how one is built, and a terminal in tmux that runs it.

A front end writes the screen, as the library reads it back, to the file that its word --screen names. `settle` waits until the terminal
shows just that, and what the test itself asks for.
"""
import itertools
import os
import shutil
import subprocess
import sys
import time

TOP = os.path.dirname(os.path.dirname(os.path.abspath(__file__)))
WORK = os.environ["WORK"]
EXAMPLES = os.path.join(TOP, "examples", "c")
RELEASE = os.path.join(TOP, "release")
BEFORE = "what stood here before"

terminals = itertools.count()


def need(command, package):
    """Skips a test where a command is not there, which a package of Debian has."""
    if shutil.which(command) is None:
        print(f"needs {command}: apt-get install {package}")
        sys.exit(77)


def need_library():
    """Skips a test where the library is not ready-made."""
    for name in ("libredisplay.a", "libredisplay_unicode.a"):
        if not os.path.exists(os.path.join(RELEASE, name)):
            print(f"needs release/{name}, which is not ready-made here")
            sys.exit(77)


def fail(why):
    sys.exit(why)


def build(name):
    """Builds a front end by cc alone from the ready-made files, and answers where it is."""
    need("cc", "gcc")
    need_library()
    program = os.path.join(WORK, name)
    sources = [os.path.join(EXAMPLES, it) for it in (f"{name}.c", "view.c", "terminal.c")]
    library = [os.path.join(RELEASE, it) for it in ("libredisplay_unicode.a", "libredisplay.a")]
    words = ["-std=c99", "-Wall", "-Wextra", "-Wpedantic", "-Werror", f"-I{TOP}/include", "-o", program]
    subprocess.run(["cc", *words, *sources, *library], check=True)
    return program


def link():
    """Links the shared library of the binding for Python, and answers where it is."""
    need("cc", "gcc")
    need_library()
    library = os.path.join(WORK, "libredisplay.so")
    subprocess.run([os.path.join(TOP, "bindings", "python", "link"), library], check=True)
    return library


class Terminal:
    """A terminal of tmux in which a shell runs a front end, and tells of it what `ended` answers."""

    def __init__(self, words, width=80, height=24):
        need("tmux", "tmux")
        need("pgrep", "procps")
        # one of its own for each terminal: the server of the one before may still be ending
        self.socket = f"redisplay-{os.getpid()}-{next(terminals)}"
        self.copy = os.path.join(WORK, "copy")
        for name in ("copy", "ended"):
            if os.path.exists(os.path.join(WORK, name)):
                os.remove(os.path.join(WORK, name))
        with open(os.path.join(WORK, "tmux.conf"), "w") as file:
            file.write("set -g status off\n")
        with open(os.path.join(WORK, "run"), "w") as file:
            file.write(f"cd '{WORK}'; exec 2>said; printf '{BEFORE}'; stty -g >before\n")
            file.write(f"{' '.join(words)}; echo $? >status; stty -g >after; mv after ended; exec sleep 1000\n")
        environment = {"PATH": os.environ["PATH"], "HOME": WORK, "LANG": "C.UTF-8", "TERM": "screen"}
        size = ["-x", str(width), "-y", str(height)]
        self.tmux("-f", os.path.join(WORK, "tmux.conf"), "-u", "new-session", "-d", *size, f"bash {WORK}/run", env=environment)

    def __enter__(self):
        """A front end takes no key before its first screen."""
        try:
            self.settle("the first screen is not shown")
        except SystemExit:
            self.tmux("kill-server")
            raise
        return self

    def __exit__(self, *_):
        self.tmux("kill-server")

    def tmux(self, *words, env=None):
        return subprocess.run(["tmux", "-L", self.socket, *words], env=env, check=True, stdout=subprocess.PIPE).stdout.decode()

    def keys(self, *names):
        """Presses keys by tmux's names for them."""
        self.tmux("send-keys", *names)

    def type(self, text):
        """Types a text, or the bytes of a report of the mouse."""
        self.tmux("send-keys", "-l", text)

    def click(self, row, column, button=0):
        """Presses a button of the mouse over a cell, and lets it go."""
        self.type(f"\x1b[<{button};{column + 1};{row + 1}M\x1b[<{button};{column + 1};{row + 1}m")

    def resize(self, width, height):
        self.tmux("resize-window", "-x", str(width), "-y", str(height))

    def told(self, name):
        return self.tmux("display-message", "-p", f"#{{{name}}}").strip()

    def shown(self):
        """The rows of the terminal without the blanks at their ends, and its cursor, as the front end writes them."""
        *rows, cursor, _ = self.tmux("capture-pane", "-p", ";", "display-message", "-p", "cursor #{cursor_y},#{cursor_x}").split("\n")
        return [row.rstrip() for row in rows] + [cursor]

    def read_back(self):
        try:
            with open(self.copy, encoding="utf-8") as file:
                return [row.rstrip() for row in file.read().splitlines()]
        except FileNotFoundError:
            return []

    def wait(self, holds, why):
        """Waits until something holds, thirty seconds at most."""
        end = time.monotonic() + 30
        while not holds():
            if time.monotonic() > end:
                shown, read_back = self.shown(), self.read_back()
                print("\n".join(["the terminal shows", *shown, "the library reads back", *read_back]))
                fail(why)
            time.sleep(0.02)

    def settle(self, what, **asked):
        """Waits until the terminal shows what the library reads back, with these rows, each told whole, by its front or by a test."""
        rows = asked.pop("rows", {})
        cursor = asked.pop("cursor", None)

        def holds():
            shown = self.shown()
            return (
                shown == self.read_back()
                and all(fits(shown[row], text) for row, text in rows.items())
                and (cursor is None or shown[-1] == f"cursor {cursor[0]},{cursor[1]}")
            )

        self.wait(holds, what)

    def colours(self, row):
        """A row of the terminal with the control sequences of its colours."""
        return self.tmux("capture-pane", "-p", "-e").split("\n")[row]

    def process(self):
        """The process of the front end."""
        return int(subprocess.run(["pgrep", "-P", self.told("pane_pid")], check=True, stdout=subprocess.PIPE).stdout.split()[0])

    def ended(self):
        """Waits until the front end has ended, sees that the terminal is as it was before, and answers the status."""
        self.wait(lambda: os.path.exists(os.path.join(WORK, "ended")), "the front end does not end")
        if contents("before") != contents("ended"):
            fail(f"the terminal has other modes: {contents('before')} before, {contents('ended')} behind")
        for name in ("alternate_on", "mouse_any_flag", "mouse_sgr_flag"):
            if self.told(name) != "0":
                fail(f"the terminal is left with {name}")
        last = f"cursor 0,{len(BEFORE)}"
        rows = [row for row in self.shown() if row]
        if rows != [BEFORE, last]:
            fail(f"the terminal shows {rows}, and not {BEFORE!r} alone")
        return int(contents("status"))


def fits(row, asked):
    """Whether a row is as asked: a text that ends in `...` tells its front."""
    return row.startswith(asked[:-3]) if asked.endswith("...") else row == asked


def contents(name):
    with open(os.path.join(WORK, name), "rb") as file:
        return file.read()


def write(name, text, mode="wb"):
    with open(os.path.join(WORK, name), mode) as file:
        file.write(text)
