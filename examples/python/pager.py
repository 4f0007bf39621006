#!/usr/bin/env python3
"""pager.py [--screen COPY] FILE: follows a file that grows until a key comes. Space, b, j, k, g, G move; / and n search; F follows; q leaves."""
import codecs, os, select, signal, sys, termios, tty

sys.path.insert(0, os.path.join(os.path.dirname(os.path.abspath(__file__)), "../../bindings/python"))
from redisplay import Kind, Session, Wrap, face

def show():
    session.update()
    os.write(1, session.fetch())
    if copy:
        cursor, rows = session.get_cursor(), map(session.get_row_text, range(session.get_frame().row))
        with open(copy, "w") as out: print(*rows, f"cursor {cursor.row},{cursor.column}", sep="\n", file=out)

def read_key(limit=None):
    if not typed and select.select([0], [], [], limit)[0]: typed.extend(os.read(0, 64).decode(errors="ignore"))
    return typed.pop(0) if typed else ""

def to_end():
    end = session.get_length(0) + 1
    session.point(0, end); session.start(0, end, 1000000); session.scroll(0, 2 - session.get_window(0).height)

def find(start):
    place = session.get_text(0, 1, session.get_length(0) + 1).find(pattern, start - 1) + 1
    session.echo("" if place else f"Not found: {pattern}")
    session.overlay_move(0, 0, place or 1, place + len(pattern) if place else 1)
    if place: session.point(0, place)

def ask(text=""):
    while (key := session.echo(f"/{text}") or show() or read_key()) != "\r":
        text = text[:-1] if key == "\x7f" else text + key
    return text

def act(key):
    global following, pattern
    window, following = session.get_window(0), key == "F"
    session.echo("Waiting for more; any key ends it" if following else "")
    if key in (rows := {" ": window.height - 1, "b": 1 - window.height, "j": 1, "k": -1}): session.scroll(0, rows[key])
    if key == "g": session.point(0, 1)
    if key == "/": pattern = ask(); find(window.start)
    if key == "n": find(window.point + 1)

session, file, copy = Session(), open(sys.argv[-1], "rb"), sys.argv[2] if sys.argv[1] == "--screen" else None
decoder, pattern, resized = codecs.getincrementaldecoder("utf-8")("replace"), "", [True]
typed, key, before = [], "F", termios.tcgetattr(0)
session.overlay(0, 1, 1); session.add_face(face(foreground=0, background=3)); session.overlay_put(0, 0, Kind.FACE, 0)
session.wrap(0, Wrap.CONTINUE); session.mode_line(0, "%b  %p")
for number in (signal.SIGTERM, signal.SIGHUP): signal.signal(number, lambda *_: sys.exit(1))
signal.signal(signal.SIGWINCH, lambda *_: resized.append(True))
try:
    tty.setraw(0); os.write(1, b"\x1b[?1049h")
    while key != "q":
        if text := decoder.decode(file.read()): session.insert(0, session.get_length(0) + 1, text)
        if resized: resized.clear(); session.frame(*map(max, os.get_terminal_size(), (12, 3)))
        if key: act(key)
        if following or key == "G": to_end()
        show()
        key = read_key(0.2)
finally:
    os.write(1, b"\x1b[r\x1b[0m\x1b[?1049l"); termios.tcsetattr(0, termios.TCSAFLUSH, before)
