/* What each call answers, one after the other: wrong use, bad input, ops and what is read back. Expected values are those of the header and
 * of docs/RULES.md. */
#include "redisplay.h"
#include "shared.h"

static unsigned long checks, faults;

static void expect(int holds, int line, const char *what)
{
    checks++;
    if (holds)
        return;
    faults++;
    fprintf(stderr, "tests/c/calls.c:%d: not so: %s\n", line, what);
}
#define EXPECT(what) expect((what), __LINE__, #what)
#define TEXT(text) (const uint8_t *)(text), sizeof(text) - 1

static redisplay session = REDISPLAY_CLOSED;
static uint8_t out[4096];
static size_t length;

static int out_is(const char *text)
{
    return length == strlen(text) && memcmp(out, text, length) == 0;
}

static int fault_is(uint32_t status, const char *words)
{
    length = redisplay_fault_text(&session, out, sizeof out);
    return redisplay_fault(&session) == status && out_is(words);
}

static void fetch_all(void)
{
    while (redisplay_fetch(&session, out, sizeof out) > 0)
        ;
}

/* Every call of a closed session says so, and the session stays closed. */
static void of_a_closed_session(redisplay *s)
{
    redisplay_face face = { sizeof face, 0, 0, false, false, false, false };
    redisplay_place place;
    redisplay_window window;
    redisplay_cell cell;
    redisplay_text given;
    redisplay_spot spot;
    uint32_t number;
    size_t count;
    EXPECT(redisplay_line(s, TEXT("{\"op\":\"redisplay\"}")).status == REDISPLAY_NOT_OPEN);
    EXPECT(redisplay_line(s, NULL, 0).status == REDISPLAY_NOT_OPEN);
    EXPECT(redisplay_frame(s, 80, 24) == REDISPLAY_NOT_OPEN);
    EXPECT(redisplay_buffer(s, TEXT("b")) == REDISPLAY_NOT_OPEN);
    EXPECT(redisplay_insert(s, 0, 1, TEXT("t")) == REDISPLAY_NOT_OPEN);
    EXPECT(redisplay_type(s, TEXT("\xff")) == REDISPLAY_NOT_OPEN);
    EXPECT(redisplay_delete(s, 0, 1, 1) == REDISPLAY_NOT_OPEN);
    EXPECT(redisplay_narrow(s, 0, 1, 1) == REDISPLAY_NOT_OPEN);
    EXPECT(redisplay_widen(s, 0) == REDISPLAY_NOT_OPEN);
    EXPECT(redisplay_setting(s, 0, REDISPLAY_TAB_WIDTH, 99) == REDISPLAY_NOT_OPEN);
    EXPECT(redisplay_put(s, 0, 1, 1, REDISPLAY_FACE, 0) == REDISPLAY_NOT_OPEN);
    EXPECT(redisplay_overlay(s, 0, 1, 1, 0, false, false) == REDISPLAY_NOT_OPEN);
    EXPECT(redisplay_overlay_move(s, 0, 0, 1, 1) == REDISPLAY_NOT_OPEN);
    EXPECT(redisplay_overlay_put(s, 0, 0, REDISPLAY_FACE, 0) == REDISPLAY_NOT_OPEN);
    EXPECT(redisplay_overlay_drop(s, 0, 0) == REDISPLAY_NOT_OPEN);
    EXPECT(redisplay_add_face(s, &face) == REDISPLAY_NOT_OPEN);
    EXPECT(redisplay_add_string(s, TEXT("t")) == REDISPLAY_NOT_OPEN);
    EXPECT(redisplay_split(s, 0, REDISPLAY_BELOW, 5) == REDISPLAY_NOT_OPEN);
    EXPECT(redisplay_remove(s, 0) == REDISPLAY_NOT_OPEN);
    EXPECT(redisplay_select(s, 0) == REDISPLAY_NOT_OPEN);
    EXPECT(redisplay_show(s, 0, 0) == REDISPLAY_NOT_OPEN);
    EXPECT(redisplay_point(s, 0, 1) == REDISPLAY_NOT_OPEN);
    EXPECT(redisplay_start(s, 0, 1, 0) == REDISPLAY_NOT_OPEN);
    EXPECT(redisplay_scroll(s, 0, 1) == REDISPLAY_NOT_OPEN);
    EXPECT(redisplay_hscroll(s, 0, 1) == REDISPLAY_NOT_OPEN);
    EXPECT(redisplay_wrap(s, 0, REDISPLAY_WORD) == REDISPLAY_NOT_OPEN);
    EXPECT(redisplay_mode_line(s, 0, TEXT("%b")) == REDISPLAY_NOT_OPEN);
    EXPECT(redisplay_no_mode_line(s, 0) == REDISPLAY_NOT_OPEN);
    EXPECT(redisplay_margin(s, 0, 0, 0) == REDISPLAY_NOT_OPEN);
    EXPECT(redisplay_scrolling(s, 0, 0) == REDISPLAY_NOT_OPEN);
    EXPECT(redisplay_echo(s, TEXT("t")) == REDISPLAY_NOT_OPEN);
    EXPECT(redisplay_shift(s, true) == REDISPLAY_NOT_OPEN);
    EXPECT(redisplay_go(s, 0, REDISPLAY_LEFT) == REDISPLAY_NOT_OPEN);
    EXPECT(redisplay_hit(s, 0, 0, 0) == REDISPLAY_NOT_OPEN);
    EXPECT(redisplay_update(s).status == REDISPLAY_NOT_OPEN);
    EXPECT(redisplay_update_rows(s, 3).status == REDISPLAY_NOT_OPEN);
    EXPECT(redisplay_pending(s) == 0);
    EXPECT(redisplay_fetch(s, out, sizeof out) == 0);
    EXPECT(redisplay_fault(s) == REDISPLAY_NOT_THERE);
    EXPECT(redisplay_fault_text(s, out, sizeof out) == 0);
    EXPECT(redisplay_get_frame(s, &place) == REDISPLAY_NOT_OPEN);
    EXPECT(redisplay_get_cursor(s, &place) == REDISPLAY_NOT_OPEN);
    EXPECT(redisplay_get_windows(s, &number) == REDISPLAY_NOT_OPEN);
    EXPECT(redisplay_get_window(s, 0, &window) == REDISPLAY_NOT_OPEN);
    EXPECT(redisplay_get_selected(s, &number) == REDISPLAY_NOT_OPEN);
    EXPECT(redisplay_get_buffers(s, &number) == REDISPLAY_NOT_OPEN);
    EXPECT(redisplay_get_buffer_name(s, 0, out, sizeof out, &count) == REDISPLAY_NOT_OPEN);
    EXPECT(redisplay_get_length(s, 0, &number) == REDISPLAY_NOT_OPEN);
    EXPECT(redisplay_get_text(s, 0, 1, 1, out, sizeof out, &given) == REDISPLAY_NOT_OPEN);
    EXPECT(redisplay_get_row(s, 0, &cell, 1, &count) == REDISPLAY_NOT_OPEN);
    EXPECT(redisplay_get_row_text(s, 0, out, sizeof out, &count) == REDISPLAY_NOT_OPEN);
    EXPECT(redisplay_get_under(s, 0, 0, &spot) == REDISPLAY_NOT_OPEN);
    EXPECT(!s->is_open);
}

static void opening(void)
{
    redisplay_bad_data bad = { 9, 9, 9 };
    static const char classes[] = "0041;A;;;L\n05D0;HEBREW;;;R\n";
    EXPECT(redisplay_open(&session, TEXT("0041;A;;;L\n0040;A;;;L\n"), NULL, 0, NULL, 0, &bad) == REDISPLAY_BAD_DATA);
    EXPECT(bad.file == 0 && bad.line == 2 && bad.kind == 4 && !session.is_open);
    EXPECT(redisplay_open(&session, TEXT("0041;A;;;Q\n"), NULL, 0, NULL, 0, &bad) == REDISPLAY_BAD_DATA);
    EXPECT(bad.file == 0 && bad.line == 1 && bad.kind == 3);
    EXPECT(redisplay_open(&session, TEXT(classes), TEXT("\n\n0028\n"), NULL, 0, &bad) == REDISPLAY_BAD_DATA);
    EXPECT(bad.file == 1 && bad.line == 3 && bad.kind == 1);
    EXPECT(redisplay_open(&session, TEXT(classes), NULL, 0, TEXT("x; 0028; o\n"), &bad) == REDISPLAY_BAD_DATA);
    EXPECT(bad.file == 2 && bad.line == 1 && bad.kind == 2);
    EXPECT(redisplay_open(&session, TEXT("0041;A, First>;;;L\n"), NULL, 0, NULL, 0, &bad) == REDISPLAY_BAD_DATA);
    EXPECT(bad.file == 0 && bad.line == 1 && bad.kind == 5 && !session.is_open);
    EXPECT(redisplay_open(&session, TEXT(classes), NULL, 0, NULL, 0, &bad) == REDISPLAY_DONE && session.is_open);
    EXPECT(redisplay_open(&session, TEXT(classes), NULL, 0, NULL, 0, &bad) == REDISPLAY_IS_OPEN && session.is_open);
    EXPECT(redisplay_open_unicode(&session) == REDISPLAY_IS_OPEN && session.is_open);
    redisplay_close(&session);
    EXPECT(!session.is_open);
    redisplay_close(&session);
    EXPECT(!session.is_open);
    EXPECT(redisplay_open(&session, NULL, 0, NULL, 0, NULL, 0, &bad) == REDISPLAY_DONE);
    redisplay_close(&session);
    EXPECT(redisplay_open_unicode(&session) == REDISPLAY_DONE && session.is_open);
}

static void lines(void)
{
    static uint8_t spaces[1048577];
    memset(spaces, ' ', sizeof spaces);
    EXPECT(redisplay_line(&session, spaces, 1048576).status == REDISPLAY_DONE);
    EXPECT(redisplay_line(&session, spaces, 1048577).status == REDISPLAY_TOO_LONG && fault_is(REDISPLAY_TOO_LONG, "TooLong"));
    EXPECT(redisplay_line(&session, NULL, 0).status == REDISPLAY_DONE && fault_is(REDISPLAY_DONE, ""));
    EXPECT(redisplay_line(&session, TEXT("{")).status == REDISPLAY_NOT_JSON && fault_is(REDISPLAY_NOT_JSON, "NotJson"));
    EXPECT(redisplay_line(&session, TEXT("\"\xff\"")).status == REDISPLAY_NOT_JSON && fault_is(REDISPLAY_NOT_JSON, "NotJson"));
    EXPECT(redisplay_line(&session, TEXT("[]")).status == REDISPLAY_NOT_OBJECT && fault_is(REDISPLAY_NOT_OBJECT, "NotObject"));
    EXPECT(redisplay_line(&session, TEXT("{\"op\":\"x\"}")).status == REDISPLAY_NO_SUCH_OP && fault_is(REDISPLAY_NO_SUCH_OP, "NoSuchOp"));
    EXPECT(redisplay_line(&session, TEXT("{\"op\":\"type\"}")).status == REDISPLAY_MISSING && fault_is(REDISPLAY_MISSING, "Missing text"));
    EXPECT(redisplay_line(&session, TEXT("{\"op\":\"type\",\"text\":1}")).status == REDISPLAY_BAD_FIELD &&
           fault_is(REDISPLAY_BAD_FIELD, "BadField text"));
    EXPECT(redisplay_line(&session, TEXT("{\"op\":\"type\",\"text\":\"a\",\"more\":1}")).status == REDISPLAY_EXTRA &&
           fault_is(REDISPLAY_EXTRA, "Extra more"));
    EXPECT(redisplay_fault_text(&session, out, 4) == 4 && memcmp(out, "Extr", 4) == 0 && redisplay_fault_text(&session, NULL, 0) == 0);
    EXPECT(redisplay_line(&session, TEXT("{\"op\":\"remove\",\"window\":0}")).status == REDISPLAY_LAST_WINDOW &&
           fault_is(REDISPLAY_LAST_WINDOW, "LastWindow"));
    EXPECT(redisplay_line(&session, TEXT("{\"op\":\"mode_line\",\"window\":0,\"format\":\"ab%\"}")).status == REDISPLAY_BAD_FORMAT &&
           fault_is(REDISPLAY_BAD_FORMAT, "BadFormat 2"));
}

/* Arguments that are out of the range of the op's field, texts that are no UTF-8, and refusals. */
static void refusals(void)
{
    redisplay_face face = { sizeof face, 8, REDISPLAY_NONE, false, false, false, false };
    EXPECT(redisplay_type(&session, TEXT("a\xff")) == REDISPLAY_BAD_TEXT && fault_is(REDISPLAY_BAD_TEXT, "BadText"));
    EXPECT(redisplay_insert(&session, 0, 1, TEXT("\xed\xa0\x80")) == REDISPLAY_BAD_TEXT);
    EXPECT(redisplay_insert(&session, 9, 1, TEXT("a")) == REDISPLAY_NO_BUFFER && fault_is(REDISPLAY_NO_BUFFER, "NoBuffer"));
    EXPECT(redisplay_insert(&session, 0, 2, TEXT("a")) == REDISPLAY_OUT_OF_RANGE);
    EXPECT(redisplay_insert(&session, 0, 1, NULL, 0) == REDISPLAY_DONE);
    EXPECT(redisplay_echo(&session, TEXT("\xc3")) == REDISPLAY_BAD_TEXT);
    EXPECT(redisplay_buffer(&session, TEXT("main")) == REDISPLAY_NAME_TAKEN);
    EXPECT(redisplay_frame(&session, 11, 10) == REDISPLAY_BAD_ARGUMENT && fault_is(REDISPLAY_BAD_ARGUMENT, "BadArgument"));
    EXPECT(redisplay_frame(&session, 401, 10) == REDISPLAY_BAD_ARGUMENT);
    EXPECT(redisplay_setting(&session, 0, REDISPLAY_TAB_WIDTH, 33) == REDISPLAY_BAD_ARGUMENT);
    EXPECT(redisplay_setting(&session, 0, REDISPLAY_TAB_WIDTH, 0) == REDISPLAY_BAD_ARGUMENT);
    EXPECT(redisplay_setting(&session, 0, 99, 1) == REDISPLAY_BAD_ARGUMENT);
    EXPECT(redisplay_setting(&session, 0, REDISPLAY_MODIFIED, 2) == REDISPLAY_BAD_ARGUMENT);
    EXPECT(redisplay_setting(&session, 0, REDISPLAY_TABLE, 0) == REDISPLAY_NO_OBJECT);
    EXPECT(redisplay_put(&session, 0, 1, 1, REDISPLAY_BEFORE, 0) == REDISPLAY_BAD_ARGUMENT);
    EXPECT(redisplay_put(&session, 0, 1, 1, 7, 0) == REDISPLAY_BAD_ARGUMENT);
    EXPECT(redisplay_overlay_drop(&session, 0, 0) == REDISPLAY_NO_OVERLAY);
    EXPECT(redisplay_split(&session, 0, 2, 5) == REDISPLAY_BAD_ARGUMENT);
    EXPECT(redisplay_split(&session, 0, REDISPLAY_BELOW, 400) == REDISPLAY_TOO_SMALL);
    EXPECT(redisplay_wrap(&session, 0, 3) == REDISPLAY_BAD_ARGUMENT);
    EXPECT(redisplay_go(&session, 0, 0) == REDISPLAY_BAD_ARGUMENT);
    EXPECT(redisplay_select(&session, 1) == REDISPLAY_NO_WINDOW && fault_is(REDISPLAY_NO_WINDOW, "NoWindow"));
    EXPECT(redisplay_add_face(&session, &face) == REDISPLAY_BAD_ARGUMENT);
    face.foreground = 7;
    face.size--;
    EXPECT(redisplay_add_face(&session, &face) == REDISPLAY_BAD_ARGUMENT);
    face.size++;
    EXPECT(redisplay_add_face(&session, &face) == REDISPLAY_DONE);
    EXPECT(redisplay_mode_line(&session, 0, TEXT("a%")) == REDISPLAY_BAD_FORMAT && fault_is(REDISPLAY_BAD_FORMAT, "BadFormat 1"));
    EXPECT(redisplay_remove(&session, 0) == REDISPLAY_LAST_WINDOW);
    EXPECT(redisplay_hit(&session, 0, 0, 0) == REDISPLAY_NOT_SHOWN && fault_is(REDISPLAY_NOT_SHOWN, "NotShown"));
}

/* What is made counts from 0, in order of making; a window that was taken away leaves its number unused. */
static void numbers(void)
{
    redisplay_face face = { sizeof face, 1, REDISPLAY_NONE, true, false, false, false };
    redisplay_window window;
    uint32_t number = 99;
    EXPECT(redisplay_buffer(&session, TEXT("notes")) == REDISPLAY_DONE);
    EXPECT(redisplay_get_buffers(&session, &number) == REDISPLAY_DONE && number == 2);
    EXPECT(redisplay_get_buffer_name(&session, 1, out, sizeof out, &length) == REDISPLAY_DONE && out_is("notes"));
    EXPECT(redisplay_get_buffer_name(&session, 0, out, 2, &length) == REDISPLAY_DONE && out_is("ma"));
    EXPECT(redisplay_get_buffer_name(&session, 2, out, sizeof out, &length) == REDISPLAY_NOT_THERE);
    EXPECT(redisplay_add_face(&session, &face) == REDISPLAY_DONE);
    EXPECT(redisplay_put(&session, 0, 1, 1, REDISPLAY_FACE, 1) == REDISPLAY_DONE);
    EXPECT(redisplay_put(&session, 0, 1, 1, REDISPLAY_FACE, 2) == REDISPLAY_NO_OBJECT);
    EXPECT(redisplay_add_string(&session, TEXT("s")) == REDISPLAY_DONE);
    EXPECT(redisplay_setting(&session, 0, REDISPLAY_SET_LINE_PREFIX, 1) == REDISPLAY_NO_OBJECT);
    EXPECT(redisplay_setting(&session, 0, REDISPLAY_SET_LINE_PREFIX, 0) == REDISPLAY_DONE);
    EXPECT(redisplay_setting(&session, 0, REDISPLAY_SET_LINE_PREFIX, REDISPLAY_NONE) == REDISPLAY_DONE);
    EXPECT(redisplay_overlay(&session, 0, 1, 1, -5, false, true) == REDISPLAY_DONE);
    EXPECT(redisplay_overlay_move(&session, 0, 1, 1, 1) == REDISPLAY_NO_OVERLAY);
    EXPECT(redisplay_overlay_move(&session, 0, 0, 1, 1) == REDISPLAY_DONE);
    EXPECT(redisplay_overlay_drop(&session, 0, 0) == REDISPLAY_DONE);
    EXPECT(redisplay_split(&session, 0, REDISPLAY_RIGHT, 40) == REDISPLAY_DONE);
    EXPECT(redisplay_get_windows(&session, &number) == REDISPLAY_DONE && number == 2);
    EXPECT(redisplay_get_window(&session, 1, &window) == REDISPLAY_DONE && window.number == 1 && window.column == 40);
    EXPECT(redisplay_select(&session, 1) == REDISPLAY_DONE);
    EXPECT(redisplay_get_selected(&session, &number) == REDISPLAY_DONE && number == 1);
    EXPECT(redisplay_remove(&session, 1) == REDISPLAY_DONE);
    EXPECT(redisplay_get_selected(&session, &number) == REDISPLAY_DONE && number == 0);
}

static void texts(void)
{
    redisplay_text given;
    uint32_t characters;
    EXPECT(redisplay_type(&session, TEXT("h\xc3\xa9 \xe4\xb8\xad\xf0\x9f\x98\x80")) == REDISPLAY_DONE);
    EXPECT(redisplay_get_length(&session, 0, &characters) == REDISPLAY_DONE && characters == 5);
    EXPECT(redisplay_get_length(&session, 7, &characters) == REDISPLAY_NOT_THERE);
    EXPECT(redisplay_get_text(&session, 0, 1, 6, out, sizeof out, &given) == REDISPLAY_DONE);
    length = given.bytes;
    EXPECT(out_is("h\xc3\xa9 \xe4\xb8\xad\xf0\x9f\x98\x80") && given.next == 6);
    EXPECT(redisplay_get_text(&session, 0, 1, 6, out, 6, &given) == REDISPLAY_DONE && given.bytes == 4 && given.next == 4);
    EXPECT(redisplay_get_text(&session, 0, 4, 6, out, 3, &given) == REDISPLAY_DONE && given.bytes == 3 && given.next == 5);
    EXPECT(redisplay_get_text(&session, 0, 2, 3, NULL, 0, &given) == REDISPLAY_DONE && given.bytes == 0 && given.next == 2);
    EXPECT(redisplay_get_text(&session, 0, 1, 1, out, sizeof out, &given) == REDISPLAY_DONE && given.bytes == 0 && given.next == 1);
    EXPECT(redisplay_get_text(&session, 0, 1, 7, out, sizeof out, &given) == REDISPLAY_NOT_THERE);
    EXPECT(redisplay_get_text(&session, 0, 3, 2, out, sizeof out, &given) == REDISPLAY_NOT_THERE);
    EXPECT(redisplay_get_text(&session, 0, 0, 2, out, sizeof out, &given) == REDISPLAY_NOT_THERE);
    EXPECT(redisplay_line(&session, TEXT("{\"op\":\"insert_raw\",\"buffer\":\"main\",\"pos\":1,\"bytes\":[200]}")).status == REDISPLAY_DONE);
    EXPECT(redisplay_get_text(&session, 0, 1, 3, out, sizeof out, &given) == REDISPLAY_DONE);
    length = given.bytes;
    EXPECT(out_is("\xc8h") && given.next == 3);
    EXPECT(redisplay_delete(&session, 0, 1, 7) == REDISPLAY_DONE);
}

/* A frame of two windows side by side with mode lines, a margin and an echo, cell by cell. */
static void screens(void)
{
    redisplay_place place;
    redisplay_window window;
    redisplay_spot spot;
    redisplay_cell cells[30];
    uint32_t count;
    fetch_all();
    EXPECT(redisplay_get_row(&session, 0, cells, 30, &length) == REDISPLAY_NOT_THERE);
    EXPECT(redisplay_frame(&session, 30, 6) == REDISPLAY_DONE);
    EXPECT(redisplay_get_cursor(&session, &place) == REDISPLAY_NOT_THERE);
    EXPECT(redisplay_get_row_text(&session, 0, out, sizeof out, &length) == REDISPLAY_NOT_THERE);
    EXPECT(redisplay_get_frame(&session, &place) == REDISPLAY_DONE && place.row == 6 && place.column == 30);
    EXPECT(redisplay_type(&session, TEXT("ab\n\xe4\xb8\xad" "e\xcc\x81")) == REDISPLAY_DONE);
    EXPECT(redisplay_put(&session, 0, 1, 2, REDISPLAY_FACE, 1) == REDISPLAY_DONE);
    EXPECT(redisplay_split(&session, 0, REDISPLAY_RIGHT, 15) == REDISPLAY_DONE);
    EXPECT(redisplay_mode_line(&session, 0, TEXT("%b")) == REDISPLAY_DONE);
    EXPECT(redisplay_echo(&session, TEXT("echo")) == REDISPLAY_DONE);
    EXPECT(redisplay_update_rows(&session, 2).status == REDISPLAY_STOPPED && redisplay_fault(&session) == REDISPLAY_STOPPED);
    redisplay_shown shown = redisplay_update(&session);
    EXPECT(shown.status == REDISPLAY_DONE && shown.rows >= 1 && redisplay_fault(&session) == REDISPLAY_DONE);
    EXPECT(redisplay_pending(&session) > 0 && redisplay_fetch(&session, NULL, 0) == 0);
    fetch_all();
    EXPECT(redisplay_pending(&session) == 0 && redisplay_update(&session).rows == 0);
    fetch_all();
    EXPECT(redisplay_get_windows(&session, &count) == REDISPLAY_DONE && count == 2);
    EXPECT(redisplay_get_window(&session, 2, &window) == REDISPLAY_NOT_THERE);
    EXPECT(redisplay_get_window(&session, 0, &window) == REDISPLAY_DONE);
    EXPECT(window.number == 0 && window.buffer == 0 && window.row == 0 && window.column == 0 && window.height == 5 && window.width == 15);
    EXPECT(window.start == 1 && window.start_row == 0 && window.point == 7 && window.cursor_row == 1 && window.cursor_column == 3);
    EXPECT(window.selected);
    EXPECT(redisplay_get_window(&session, 1, &window) == REDISPLAY_DONE && window.number == 2 && window.column == 15 && !window.selected);
    EXPECT(redisplay_get_cursor(&session, &place) == REDISPLAY_DONE && place.row == 1 && place.column == 3);
    EXPECT(redisplay_get_row(&session, 6, cells, 30, &length) == REDISPLAY_NOT_THERE);
    EXPECT(redisplay_get_row(&session, 0, cells, 30, &length) == REDISPLAY_DONE && length == 30);
    EXPECT(cells[0].code == 'a' && cells[0].part == REDISPLAY_FIRST && cells[0].width == 1 && cells[0].mark_count == 0);
    EXPECT(cells[0].face.size == sizeof(redisplay_face) && cells[0].face.bold && cells[0].face.foreground == 1);
    EXPECT(cells[0].face.background == REDISPLAY_NONE && !cells[0].face.underline && !cells[0].face.inverse);
    EXPECT(cells[1].code == 'b' && !cells[1].face.bold && cells[1].face.foreground == REDISPLAY_NONE);
    EXPECT(cells[2].code == 32 && cells[2].part == REDISPLAY_BLANK);
    EXPECT(redisplay_get_row(&session, 1, cells, 3, &length) == REDISPLAY_DONE && length == 3);
    EXPECT(cells[0].code == 0x4e2d && cells[0].width == 2 && cells[1].code == 0 && cells[1].width == 0 && cells[1].part == REDISPLAY_REST);
    EXPECT(cells[2].code == 'e' && cells[2].mark_count == 1 && cells[2].marks[0] == 0x301);
    EXPECT(redisplay_get_row_text(&session, 1, out, 6, &length) == REDISPLAY_DONE && out_is("\xe4\xb8\xad" "e\xcc\x81"));
    EXPECT(redisplay_get_row_text(&session, 1, out, 5, &length) == REDISPLAY_DONE && length < 6);
    EXPECT(redisplay_get_row_text(&session, 5, out, sizeof out, &length) == REDISPLAY_DONE && memcmp(out, "echo", 4) == 0 && length == 30);
    EXPECT(redisplay_get_under(&session, 0, 1, &spot) == REDISPLAY_DONE && spot.part == REDISPLAY_PART_TEXT && spot.window == 0);
    EXPECT(spot.position == 2 && spot.row == 0 && spot.column == 1);
    EXPECT(redisplay_get_under(&session, 1, 1, &spot) == REDISPLAY_DONE && spot.position == 4);
    EXPECT(redisplay_get_under(&session, 4, 0, &spot) == REDISPLAY_DONE && spot.part == REDISPLAY_PART_MODE_LINE && spot.window == 0);
    EXPECT(redisplay_get_under(&session, 5, 0, &spot) == REDISPLAY_DONE && spot.part == REDISPLAY_PART_ECHO && spot.window == REDISPLAY_NONE);
    EXPECT(redisplay_get_under(&session, 0, 14, &spot) == REDISPLAY_DONE && spot.part == REDISPLAY_PART_BORDER && spot.window == 0);
    EXPECT(redisplay_get_under(&session, 0, 16, &spot) == REDISPLAY_DONE && spot.part == REDISPLAY_PART_TEXT && spot.window == 2);
    EXPECT(redisplay_get_under(&session, 6, 0, &spot) == REDISPLAY_NOT_THERE && redisplay_get_under(&session, 0, 30, &spot) == REDISPLAY_NOT_THERE);
    EXPECT(redisplay_get_window(&session, 0, &window) == REDISPLAY_DONE && window.point == 7);
    EXPECT(redisplay_hit(&session, 0, 0, 1) == REDISPLAY_DONE);
    EXPECT(redisplay_get_window(&session, 0, &window) == REDISPLAY_DONE && window.point == 2);
    EXPECT(redisplay_go(&session, 0, REDISPLAY_RIGHT) == REDISPLAY_DONE && redisplay_get_window(&session, 0, &window) == REDISPLAY_DONE &&
           window.point == 3);
}

int main(void)
{
    redisplay zero;
    memset(&zero, 0, sizeof zero);
    of_a_closed_session(&zero);
    opening();
    lines();
    refusals();
    numbers();
    texts();
    screens();
    redisplay_close(&session);
    of_a_closed_session(&session);
    printf("%lu checks, %lu faults\n", checks, faults);
    return faults == 0 && checks > 0 ? 0 : 1;
}
