/* redisplay.h: the redisplay engine for C, version 0.1.0.
 *
 * A session holds buffers, windows, overlays and objects. Ops change it; a redisplay turns it into the bytes of a terminal.
 * Each op is also a line of JSON (docs/OPS.md); `redisplay_line` takes any such line.
 *
 * Units: positions count from 1, and `to` is one past the last position; rows and columns count from 0; lengths are in bytes
 * where they are of text in UTF-8, else in characters. Numbers of buffers, windows, overlays and objects count from 0 in order
 * of making; buffer 0 is `main`, window 0 the first one.
 *
 * What C owes, and nothing checks: a session is all zero or was opened here, is never copied while it is open, and is in one call
 * at a time, on one thread; no pointer is null but that of a buffer of length 0; buffers overlap neither the session nor one
 * another; a signal handler makes no call; the stack has REDISPLAY_STACK bytes.
 *
 * What is promised to stay within a major version: names, numbers, parameters, and the members of each struct with their order.
 * What is new comes beside. The library has no global, calls nothing back, prints nothing and never exits; it asks for memcpy,
 * memmove, memset and the three functions of heap.c over malloc, realloc and free. */
#ifndef REDISPLAY_H
#define REDISPLAY_H

#include <stdbool.h>
#include <stddef.h>
#include <stdint.h>

#define REDISPLAY_VERSION "0.1.0"
#define REDISPLAY_VERSION_NUMBER 0x000100u /* major, minor, patch: a byte each */
#define REDISPLAY_STACK 131072

#ifdef __cplusplus
extern "C" {
#endif

/* A session, kept by the caller: its members are the library's own. All zero it is closed. */
typedef struct redisplay {
    bool is_open;
    void *at;
} redisplay;
#define REDISPLAY_CLOSED { false, NULL }

/* How a call ended. After any status but DONE, SHOWN's STOPPED and NO_MEMORY of a redisplay the session is as it was. */
enum {
    REDISPLAY_DONE = 0,
    REDISPLAY_NOT_OPEN = 1,     /* the session is closed */
    REDISPLAY_IS_OPEN = 2,      /* of open: the session is open already */
    REDISPLAY_NO_MEMORY = 3,    /* the same call made again may succeed */
    REDISPLAY_STOPPED = 4,      /* a redisplay stopped at its most rows; more rows differ */
    REDISPLAY_BAD_DATA = 5,     /* of open: a data file is bad */
    REDISPLAY_NOT_THERE = 6,    /* nothing stands there: no such place, no known screen */
    REDISPLAY_BAD_TEXT = 7,     /* a text is no UTF-8 */
    REDISPLAY_BAD_ARGUMENT = 8, /* an argument is out of the range that the op's field has */

    REDISPLAY_NOT_JSON = 16,    /* a line that is no op: as the report names it */
    REDISPLAY_NOT_OBJECT = 17,
    REDISPLAY_NO_SUCH_OP = 18,
    REDISPLAY_MISSING = 19,
    REDISPLAY_BAD_FIELD = 20,
    REDISPLAY_EXTRA = 21,
    REDISPLAY_TOO_LONG = 22,    /* the line has more than 1,048,576 bytes */

    REDISPLAY_NO_BUFFER = 32,   /* an op that is refused: as the report names it */
    REDISPLAY_NO_WINDOW = 33,
    REDISPLAY_NO_OVERLAY = 34,
    REDISPLAY_NO_OBJECT = 35,
    REDISPLAY_OUT_OF_RANGE = 36,
    REDISPLAY_NAME_TAKEN = 37,
    REDISPLAY_TEXT_TOO_LARGE = 38,
    REDISPLAY_OBJECT_TOO_LONG = 39,
    REDISPLAY_TOO_MANY_BUFFERS = 40,
    REDISPLAY_TOO_MANY_WINDOWS = 41,
    REDISPLAY_TOO_MANY_OVERLAYS = 42,
    REDISPLAY_TOO_MANY_OBJECTS = 43,
    REDISPLAY_TOO_SMALL = 44,
    REDISPLAY_LAST_WINDOW = 45,
    REDISPLAY_BAD_FORMAT = 46,
    REDISPLAY_NOT_SHOWN = 47
};

/* ---- opening and closing ---- */

/* The first bad line of a data file: which file (0 the classes, 1 the mirrored characters, 2 the brackets) and its number from 1, 0 of a
 * file that is too large. */
typedef struct redisplay_bad_data {
    uint32_t file;
    uint32_t line;
    uint32_t kind; /* 1 BadLine, 2 BadCode, 3 BadClass, 4 NotAscending, 5 BadRange, 6 TooLarge: more than 8,388,608 bytes */
} redisplay_bad_data;

/* Opens a session over the bytes of UnicodeData.txt, BidiMirroring.txt and BidiBrackets.txt; length 0 stands for an empty file.
 * DONE, IS_OPEN, NO_MEMORY, or BAD_DATA with `bad` filled. */
uint32_t redisplay_open(redisplay *session, const uint8_t *classes, size_t classes_length, const uint8_t *mirrors, size_t mirrors_length,
                        const uint8_t *brackets, size_t brackets_length, redisplay_bad_data *bad);

/* The same over Unicode's data as they are built into the data object, which is linked beside the library. */
uint32_t redisplay_open_unicode(redisplay *session);

/* Closes a session and gives back all its memory. A closed one stays closed. */
void redisplay_close(redisplay *session);

/* ---- lines of JSON ---- */

/* How a redisplay ended, and how many rows it sent. */
typedef struct redisplay_shown {
    uint32_t status;
    uint32_t rows;
} redisplay_shown;

/* Does what a line says, an op or a redisplay. A blank line does nothing. Of an op `rows` is 0. */
redisplay_shown redisplay_line(redisplay *session, const uint8_t *line, size_t length);

/* ---- ops: what each does, its ranges and its refusals stand in docs/OPS.md under the op's name ---- */

#define REDISPLAY_NONE UINT32_MAX /* no value: a property, a colour, a string or a table is taken away */

enum { REDISPLAY_BELOW = 0, REDISPLAY_RIGHT = 1, REDISPLAY_LEFT = 2 };          /* sides of split; of go RIGHT and LEFT */
enum { REDISPLAY_TRUNCATE = 0, REDISPLAY_CONTINUE = 1, REDISPLAY_WORD = 2 };    /* modes of wrap */
enum {                                                                          /* kinds of properties; the last two of overlays alone */
    REDISPLAY_FACE = 0, REDISPLAY_DISPLAY = 1, REDISPLAY_INVISIBLE = 2, REDISPLAY_LINE_PREFIX = 3, REDISPLAY_WRAP_PREFIX = 4,
    REDISPLAY_BEFORE = 5, REDISPLAY_AFTER = 6
};
enum {                                                                          /* settings of a buffer, and their values */
    REDISPLAY_TAB_WIDTH = 0,        /* 1 to 32 */
    REDISPLAY_CTL_ARROW = 1,        /* 0 or 1 */
    REDISPLAY_DIRECTION = 2,        /* 0 auto, 1 left, 2 right */
    REDISPLAY_REORDER = 3,          /* 0 or 1 */
    REDISPLAY_TABLE = 4,            /* a table's number, or REDISPLAY_NONE */
    REDISPLAY_SET_LINE_PREFIX = 5,  /* a string's number, or REDISPLAY_NONE */
    REDISPLAY_SET_WRAP_PREFIX = 6,  /* a string's number, or REDISPLAY_NONE */
    REDISPLAY_MODIFIED = 7,         /* 0 or 1 */
    REDISPLAY_READ_ONLY = 8         /* 0 or 1 */
};

/* The look of a cell. `size` is sizeof(redisplay_face); a face of another size is refused as BAD_ARGUMENT. */
typedef struct redisplay_face {
    uint32_t size;
    uint32_t foreground; /* 0 to 7, or REDISPLAY_NONE */
    uint32_t background;
    bool bold;
    bool underline;
    bool inverse;
    bool reserved; /* false */
} redisplay_face;

uint32_t redisplay_frame(redisplay *session, uint32_t width, uint32_t height);
uint32_t redisplay_buffer(redisplay *session, const uint8_t *name, size_t length);
uint32_t redisplay_insert(redisplay *session, uint32_t buffer, uint32_t position, const uint8_t *text, size_t length);
uint32_t redisplay_type(redisplay *session, const uint8_t *text, size_t length);
uint32_t redisplay_delete(redisplay *session, uint32_t buffer, uint32_t from, uint32_t to);
uint32_t redisplay_narrow(redisplay *session, uint32_t buffer, uint32_t from, uint32_t to);
uint32_t redisplay_widen(redisplay *session, uint32_t buffer);
uint32_t redisplay_setting(redisplay *session, uint32_t buffer, uint32_t setting, uint32_t value);

uint32_t redisplay_put(redisplay *session, uint32_t buffer, uint32_t from, uint32_t to, uint32_t kind, uint32_t value);
uint32_t redisplay_overlay(redisplay *session, uint32_t buffer, uint32_t from, uint32_t to, int32_t priority, bool front, bool rear);
uint32_t redisplay_overlay_move(redisplay *session, uint32_t buffer, uint32_t overlay, uint32_t from, uint32_t to);
uint32_t redisplay_overlay_put(redisplay *session, uint32_t buffer, uint32_t overlay, uint32_t kind, uint32_t value);
uint32_t redisplay_overlay_drop(redisplay *session, uint32_t buffer, uint32_t overlay);

uint32_t redisplay_add_face(redisplay *session, const redisplay_face *face);
uint32_t redisplay_add_string(redisplay *session, const uint8_t *text, size_t length);

uint32_t redisplay_split(redisplay *session, uint32_t window, uint32_t side, uint32_t size);
uint32_t redisplay_remove(redisplay *session, uint32_t window);
uint32_t redisplay_select(redisplay *session, uint32_t window);
uint32_t redisplay_show(redisplay *session, uint32_t window, uint32_t buffer);
uint32_t redisplay_point(redisplay *session, uint32_t window, uint32_t position);
uint32_t redisplay_start(redisplay *session, uint32_t window, uint32_t position, uint32_t row);
uint32_t redisplay_scroll(redisplay *session, uint32_t window, int32_t rows);
uint32_t redisplay_hscroll(redisplay *session, uint32_t window, uint32_t columns);
uint32_t redisplay_wrap(redisplay *session, uint32_t window, uint32_t mode);
uint32_t redisplay_mode_line(redisplay *session, uint32_t window, const uint8_t *format, size_t length);
uint32_t redisplay_no_mode_line(redisplay *session, uint32_t window);
uint32_t redisplay_margin(redisplay *session, uint32_t window, uint32_t numbers, uint32_t strings);
uint32_t redisplay_scrolling(redisplay *session, uint32_t margin, uint32_t conservatively);
uint32_t redisplay_echo(redisplay *session, const uint8_t *text, size_t length);
uint32_t redisplay_shift(redisplay *session, bool on);
uint32_t redisplay_go(redisplay *session, uint32_t window, uint32_t side);
uint32_t redisplay_hit(redisplay *session, uint32_t window, uint32_t row, uint32_t column);

/* ---- the redisplay and its bytes ---- */

/* Redisplays whole, or up to so many rows. The terminal's bytes are pending then. NO_MEMORY: nothing is known of the screen, and the
 * next redisplay paints all; what is pending is to be sent all the same. */
redisplay_shown redisplay_update(redisplay *session);
redisplay_shown redisplay_update_rows(redisplay *session, uint32_t rows);

/* How many bytes are pending; 0 of a closed session. */
size_t redisplay_pending(redisplay *session);
/* Moves the first pending bytes to the buffer, as many as it has room for, and answers how many. */
size_t redisplay_fetch(redisplay *session, uint8_t *out, size_t room);

/* ---- faults ---- */

/* The status of the last op, line or redisplay; NOT_THERE of a closed session. */
uint32_t redisplay_fault(redisplay *session);
/* The same in the report's words ("BadField pos", "OutOfRange"), cut to the room; answers how many bytes. DONE has no words. */
size_t redisplay_fault_text(redisplay *session, uint8_t *out, size_t room);

/* ---- reading back: DONE, NOT_OPEN or NOT_THERE; nothing changes ---- */

typedef struct redisplay_place {
    uint32_t row;
    uint32_t column;
} redisplay_place;

typedef struct redisplay_window {
    uint32_t number;
    uint32_t buffer;
    uint32_t row;    /* its rectangle, with margins, mode line and border */
    uint32_t column;
    uint32_t height;
    uint32_t width;
    uint32_t start;      /* the position of the block at which it starts, and the row of that block */
    uint32_t start_row;
    uint32_t point;
    uint32_t cursor_row; /* of its text; REDISPLAY_NONE where no row shows point */
    uint32_t cursor_column;
    bool selected;
} redisplay_window;

enum { REDISPLAY_BLANK = 0, REDISPLAY_FIRST = 1, REDISPLAY_REST = 2 };
typedef struct redisplay_cell {
    uint32_t code;      /* the character; 32 of a blank cell, 0 of a later column of a character */
    uint32_t marks[6];  /* the codes of its combining marks */
    uint8_t mark_count;
    uint8_t width;      /* columns of the character; 0 of a later column */
    uint8_t part;       /* a blank, the first column of a character, or a later one */
    uint8_t reserved;
    redisplay_face face;
} redisplay_cell;

enum {
    REDISPLAY_PART_TEXT = 0, REDISPLAY_PART_MARGIN = 1, REDISPLAY_PART_MODE_LINE = 2, REDISPLAY_PART_BORDER = 3, REDISPLAY_PART_ECHO = 4
};
typedef struct redisplay_spot {
    uint32_t part;
    uint32_t window;   /* REDISPLAY_NONE in the echo area */
    uint32_t position; /* of text: what `hit` would move point to; REDISPLAY_NONE where the cell shows none or is not shown any more */
    uint32_t row;      /* within the part's text, of part TEXT */
    uint32_t column;
} redisplay_spot;

uint32_t redisplay_get_frame(redisplay *session, redisplay_place *size);
uint32_t redisplay_get_cursor(redisplay *session, redisplay_place *place);
uint32_t redisplay_get_windows(redisplay *session, uint32_t *count);
uint32_t redisplay_get_window(redisplay *session, uint32_t index, redisplay_window *window); /* in leaf order, from 0 */
uint32_t redisplay_get_selected(redisplay *session, uint32_t *window);

uint32_t redisplay_get_buffers(redisplay *session, uint32_t *count);
uint32_t redisplay_get_buffer_name(redisplay *session, uint32_t buffer, uint8_t *out, size_t room, size_t *length);
uint32_t redisplay_get_length(redisplay *session, uint32_t buffer, uint32_t *length);

/* How far a text was given: the bytes written, and the position behind the last character that is whole in them. */
typedef struct redisplay_text {
    size_t bytes;
    uint32_t next;
} redisplay_text;
/* The characters from `from` to one before `to` as UTF-8, as many as the room takes whole; a raw byte stands as itself. */
uint32_t redisplay_get_text(redisplay *session, uint32_t buffer, uint32_t from, uint32_t to, uint8_t *out, size_t room, redisplay_text *given);

/* The first cells of a row of the screen, as many as there is room for; `count` says how many. */
uint32_t redisplay_get_row(redisplay *session, uint32_t row, redisplay_cell *cells, size_t room, size_t *count);
/* The row's characters with their marks as UTF-8, as many as the room takes whole. */
uint32_t redisplay_get_row_text(redisplay *session, uint32_t row, uint8_t *out, size_t room, size_t *length);

/* What stands under a cell of the frame; point stays. */
uint32_t redisplay_get_under(redisplay *session, uint32_t row, uint32_t column, redisplay_spot *spot);

#ifdef __cplusplus
}
#endif
#endif
