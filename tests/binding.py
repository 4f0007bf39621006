"""The binding for Python: what a session shows and reads back, and how it refuses. tests/bindings runs it."""
import os
import sys

sys.dont_write_bytecode = True
sys.path.insert(0, os.path.join(os.path.dirname(os.path.abspath(__file__)), "..", "bindings", "python"))
from redisplay import BadDataFile, Kind, Part, Refused, Session, Setting, Side, Status, Wrap, face

TEXT = "A line that does not fit goes on at a word in the next row.\nWide 中文\n"
ROWS = ["A line that does not fit goes on at a", "word in the next row.", "Wide 中文", "", "* main  line 3  All", ""]


def same(what, found, wanted):
    if found != wanted:
        sys.exit(f"{what}: {found!r}, and not {wanted!r}")


def refused(what, status, call, *arguments):
    try:
        call(*arguments)
    except Refused as refusal:
        same(what, refusal.status, status)
        return str(refusal)
    return sys.exit(f"{what}: not refused")


def shown(session):
    session.update()
    return [session.get_row_text(row).rstrip() for row in range(session.get_frame().row)]


with Session() as session:
    session.frame(40, 6)
    session.mode_line(0, "%* %b  line %l  %p")
    session.wrap(0, Wrap.WORD)
    session.type(TEXT)
    same("rows", shown(session), ROWS)
    same("the first bytes", session.fetch(8), b"\x1b[0m\x1b[2J")
    same("the move to the cursor", session.fetch()[-6:], b"\x1b[4;1H")
    same("bytes behind the last", session.fetch(), b"")
    same("length", session.get_length(0), len(TEXT))
    same("text", session.get_text(0, 61, len(TEXT) + 1), TEXT[60:])
    wide = session.get_row(2)
    same("cells", [(it.code, it.width, it.part) for it in wide[4:8]], [(32, 1, 0), (0x4E2D, 2, 1), (0, 0, 2), (0x6587, 2, 1)])

    session.overlay(0, 1, 2)
    session.add_face(face(foreground=1, bold=True))
    session.overlay_put(0, 0, Kind.FACE, 0)
    session.update()
    look = session.get_row(0)[0].face
    same("face", (look.foreground, look.bold, look.inverse), (1, True, False))

    spot = session.get_under(0, 2)
    same("spot", (spot.part, spot.window, spot.position, spot.row, spot.column), (Part.TEXT, 0, 3, 0, 2))
    same("spot of a mode line", session.get_under(4, 0).part, Part.MODE_LINE)
    session.hit(0, 0, 2)
    session.go(0, Side.RIGHT)
    same("point", session.get_window(0).point, 4)
    session.update()
    same("cursor", (session.get_cursor().row, session.get_cursor().column), (0, 3))

    session.split(0, Side.RIGHT, 20)
    session.select(1)
    same("windows", (session.get_windows(), session.get_selected(), session.get_window(1).column), (2, 1, 20))
    session.buffer("notes")
    session.show(1, 1)
    session.insert(1, 1, "beside")
    session.setting(1, Setting.MODIFIED, 0)
    same("buffers", (session.get_buffers(), session.get_buffer_name(1)), (2, "notes"))
    same("a row of two windows", shown(session)[4], "* main  line 1  Top".ljust(20) + "- notes  line 1  All")

    words = refused("a window too small", Status.TOO_SMALL, session.split, 0, Side.BELOW, 1)
    same("words", words, "TooSmall")
    same("fault", (session.fault(), session.fault_text()), (Status.TOO_SMALL, "TooSmall"))
    refused("a line that is no op", Status.NO_SUCH_OP, session.line, '{"op":"nonsense"}')
    refused("a text that is no UTF-8", Status.BAD_TEXT, session.insert, 0, 1, "\udcff")
    refused("a row below the last", Status.NOT_THERE, session.get_row_text, 6)
    session.line('{"op":"insert_raw","buffer":"notes","pos":1,"bytes":[255]}')
    same("a raw byte", session.get_text(1, 1, 3), "\udcffb")
    same("a redisplay that stops", session.update_rows(0).status, Status.STOPPED)
session.close()
refused("a call after close", Status.NOT_OPEN, session.type, "x")

try:
    Session(b"0041;A;Lu;0;L\n0040;B;Lu;0;L\n")
except BadDataFile as refusal:
    same("a bad file", (refusal.bad.file, refusal.bad.line, refusal.bad.kind), (0, 2, 4))
