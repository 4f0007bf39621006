/* A small editor: edit [--screen COPY] FILE
 *
 * Arrows, C-f, C-b, C-n, C-p, Home, End   characters and rows      C-s      search; C-s again the next, C-g back, Enter stays
 * C-v, M-v, PageDown, PageUp, M-<, M->    pages, whole text        C-x l    line numbers
 * Backspace, C-d, Delete, C-_             delete, undo             C-x w    wrap: truncate, continue, word
 * C-x 2, C-x 3, C-x 0, C-x o              split, remove, other     C-x d    direction: auto, left, right
 * C-x C-s, C-x C-c, C-l                   save, leave, repaint
 *
 * A click selects a window and moves point. With --screen the file COPY gets the screen after each redisplay, as it is read back. */
#define _DEFAULT_SOURCE
#include "redisplay.h"
#include "terminal.h"
#include "view.h"

#include <errno.h>
#include <stdio.h>
#include <stdlib.h>
#include <string.h>

#define PREFIXED(key) ((key) | 1024) /* a key behind C-x */

enum { NUMBER_COLUMNS = 6, WHEEL_ROWS = 3 };

/* What an edit did at a position: so many characters were put in, or the character with these bytes was taken away. */
struct edit {
    uint32_t position, inserted;
    uint8_t removed[4];
    size_t removed_length;
};

struct editor {
    redisplay session;
    struct terminal terminal;
    const char *path, *copy;
    struct edit *edits; /* what can be undone, the last one last */
    size_t edit_count, edit_room;
    uint32_t goal; /* the column to which motion by rows keeps, or REDISPLAY_NONE */
    uint32_t numbers, wrap, direction;
    bool is_typing, is_prefixed, is_modified, is_warned, is_done;
};

/* Tells in the report's words why a call was refused. */
static bool accepted(struct editor *editor, uint32_t status) {
    uint8_t words[80];
    if (status == REDISPLAY_DONE)
        return true;
    size_t length = redisplay_fault_text(&editor->session, words, sizeof words);
    redisplay_echo(&editor->session, words, length);
    return false;
}

/* Moves the selected window's point; a position outside of the text is refused, and point stays. */
static void move_to(struct editor *editor, uint32_t position) {
    redisplay_point(&editor->session, view_selected(&editor->session).number, position);
}

/* ---- edits ---- */

/* An edit marks the buffer as modified by itself; that it is saved the library must be told. */
static void set_saved(struct editor *editor) {
    editor->is_modified = false;
    redisplay_setting(&editor->session, MAIN, REDISPLAY_MODIFIED, 0);
}

/* Keeps an edit so that it can be undone. Where memory is wanting, no edit so far can be undone any more. */
static void keep(struct editor *editor, const struct edit *edit) {
    editor->is_modified = true;
    editor->is_warned = false;
    if (editor->edit_count == editor->edit_room) {
        size_t room = editor->edit_room ? 2 * editor->edit_room : 64;
        struct edit *edits = realloc(editor->edits, room * sizeof *edits);
        if (edits == NULL) {
            editor->edit_count = 0;
            return;
        }
        editor->edits = edits;
        editor->edit_room = room;
    }
    editor->edits[editor->edit_count++] = *edit;
}

/* Characters that are typed one behind the other are one edit. */
static void type(struct editor *editor, const struct key *key) {
    struct edit edit = {.position = view_selected(&editor->session).point, .inserted = 1};
    if (!accepted(editor, redisplay_type(&editor->session, key->text, key->length)))
        return;
    if (editor->is_typing && editor->edit_count > 0)
        editor->edits[editor->edit_count - 1].inserted++;
    else
        keep(editor, &edit);
    editor->is_typing = true;
}

static void type_character(struct editor *editor, char character) {
    struct key key = {.code = character, .text = {(uint8_t)character}, .length = 1};
    type(editor, &key);
}

static void delete_at(struct editor *editor, uint32_t position) {
    struct edit edit = {.position = position};
    redisplay_text given;
    if (position < 1 || position >= view_end(&editor->session))
        return;
    redisplay_get_text(&editor->session, MAIN, position, position + 1, edit.removed, sizeof edit.removed, &given);
    edit.removed_length = given.bytes;
    if (!accepted(editor, redisplay_delete(&editor->session, MAIN, position, position + 1)))
        return;
    keep(editor, &edit);
}

static void delete_before(struct editor *editor) { delete_at(editor, view_selected(&editor->session).point - 1); }
static void delete_behind(struct editor *editor) { delete_at(editor, view_selected(&editor->session).point); }
static void new_line(struct editor *editor) { type_character(editor, '\n'); }
static void tab(struct editor *editor) { type_character(editor, '\t'); }

static void undo(struct editor *editor) {
    if (editor->edit_count == 0) {
        view_say(&editor->session, "Nothing to undo");
        return;
    }
    const struct edit *edit = &editor->edits[editor->edit_count - 1];
    uint32_t from = edit->position, to = from + edit->inserted, status;
    if (edit->inserted > 0)
        status = redisplay_delete(&editor->session, MAIN, from, to);
    else
        status = view_insert(&editor->session, from, edit->removed, edit->removed_length);
    if (!accepted(editor, status))
        return;
    move_to(editor, edit->inserted > 0 ? from : from + 1);
    editor->edit_count--;
    editor->is_modified = true;
}

/* ---- motion ---- */

/* Up and down are no ops. After a redisplay a window knows point's row and column, and `hit` moves point to what another row shows in
 * that column. Past the window's edge it is scrolled by a row first, and back where nothing stands behind the text's end. */
static void move_by_row(struct editor *editor, int32_t step) {
    redisplay *session = &editor->session;
    redisplay_update(session);
    redisplay_window window = view_selected(session);
    uint32_t edge = step < 0 ? 0 : view_rows(&window) - 1, row = window.cursor_row + (uint32_t)step;
    bool is_at_edge = window.cursor_row == edge;
    if (editor->goal == REDISPLAY_NONE)
        editor->goal = window.cursor_column;
    if (window.cursor_row == REDISPLAY_NONE || editor->goal == REDISPLAY_NONE)
        return;
    if (is_at_edge) {
        row = edge;
        redisplay_scroll(session, window.number, step);
        redisplay_update(session);
    }
    redisplay_hit(session, window.number, row, editor->goal);
    if (is_at_edge && step > 0 && view_selected(session).point == window.point)
        redisplay_scroll(session, window.number, -step);
}

/* The redisplay moves a point that the scrolling leaves behind. */
static void move_by_page(struct editor *editor, int32_t step) {
    redisplay_update(&editor->session);
    redisplay_window window = view_selected(&editor->session);
    uint32_t rows = view_rows(&window);
    if (step > 0 && view_shows_end(&editor->session, &window))
        move_to(editor, view_end(&editor->session));
    else
        redisplay_scroll(&editor->session, window.number, step * (rows > 2 ? (int32_t)rows - 2 : 1));
}

static void move_to_edge(struct editor *editor, bool is_right) {
    redisplay_update(&editor->session);
    redisplay_window window = view_selected(&editor->session);
    uint32_t last = view_spot(&editor->session, &window, window.cursor_row, window.width - 2).column;
    redisplay_hit(&editor->session, window.number, window.cursor_row, is_right ? last : 0);
}

static void go_left(struct editor *editor) { redisplay_go(&editor->session, view_selected(&editor->session).number, REDISPLAY_LEFT); }
static void go_right(struct editor *editor) { redisplay_go(&editor->session, view_selected(&editor->session).number, REDISPLAY_RIGHT); }
static void backward(struct editor *editor) { move_to(editor, view_selected(&editor->session).point - 1); }
static void forward(struct editor *editor) { move_to(editor, view_selected(&editor->session).point + 1); }
static void up(struct editor *editor) { move_by_row(editor, -1); }
static void down(struct editor *editor) { move_by_row(editor, 1); }
static void page_up(struct editor *editor) { move_by_page(editor, -1); }
static void page_down(struct editor *editor) { move_by_page(editor, 1); }
static void left_edge(struct editor *editor) { move_to_edge(editor, false); }
static void right_edge(struct editor *editor) { move_to_edge(editor, true); }
static void beginning(struct editor *editor) { move_to(editor, 1); }
static void end(struct editor *editor) { move_to(editor, view_end(&editor->session)); }

/* ---- windows ---- */

static void split(struct editor *editor, uint32_t side) {
    redisplay_window window = view_selected(&editor->session);
    uint32_t size = (side == REDISPLAY_BELOW ? window.height : window.width) / 2;
    accepted(editor, redisplay_split(&editor->session, window.number, side, size));
}

static void split_below(struct editor *editor) { split(editor, REDISPLAY_BELOW); }
static void split_right(struct editor *editor) { split(editor, REDISPLAY_RIGHT); }

static void remove_window(struct editor *editor) {
    accepted(editor, redisplay_remove(&editor->session, view_selected(&editor->session).number));
}

/* Behind the last window comes the first. */
static void other_window(struct editor *editor) {
    redisplay_window window, next;
    redisplay_get_window(&editor->session, 0, &next);
    for (uint32_t index = 0; redisplay_get_window(&editor->session, index, &window) == REDISPLAY_DONE; index++)
        if (window.selected)
            redisplay_get_window(&editor->session, index + 1, &next);
    redisplay_select(&editor->session, next.number);
}

/* A frame that is too small for its windows loses them one by one. */
static void resize(struct editor *editor) {
    while (view_fit(&editor->session) == REDISPLAY_TOO_SMALL) {
        other_window(editor);
        if (redisplay_remove(&editor->session, view_selected(&editor->session).number) != REDISPLAY_DONE)
            return;
    }
}

static void click(struct editor *editor, const struct key *key) {
    redisplay_spot spot;
    if (redisplay_get_under(&editor->session, key->row, key->column, &spot) != REDISPLAY_DONE || spot.window == REDISPLAY_NONE)
        return;
    redisplay_select(&editor->session, spot.window);
    if (spot.part == REDISPLAY_PART_TEXT)
        redisplay_hit(&editor->session, spot.window, spot.row, spot.column);
}

static void turn_wheel(struct editor *editor, const struct key *key) {
    redisplay_spot spot;
    if (redisplay_get_under(&editor->session, key->row, key->column, &spot) == REDISPLAY_DONE && spot.window != REDISPLAY_NONE)
        redisplay_scroll(&editor->session, spot.window, key->code == KEY_WHEEL_UP ? -WHEEL_ROWS : WHEEL_ROWS);
}

/* ---- how the text is shown ---- */

/* Gives all windows what the editor has of line numbers and wrap. */
static void set_windows(struct editor *editor) {
    redisplay_window window;
    for (uint32_t index = 0; redisplay_get_window(&editor->session, index, &window) == REDISPLAY_DONE; index++) {
        accepted(editor, redisplay_margin(&editor->session, window.number, editor->numbers, 0));
        accepted(editor, redisplay_wrap(&editor->session, window.number, editor->wrap));
    }
}

static void toggle_numbers(struct editor *editor) {
    editor->numbers = NUMBER_COLUMNS - editor->numbers;
    set_windows(editor);
}

static void next_wrap(struct editor *editor) {
    static const char *const names[] = {"truncate", "continue", "word"};
    editor->wrap = (editor->wrap + 1) % 3;
    view_say(&editor->session, "Wrap: %s", names[editor->wrap]);
    set_windows(editor);
}

static void next_direction(struct editor *editor) {
    static const char *const names[] = {"auto", "left", "right"};
    editor->direction = (editor->direction + 1) % 3;
    view_say(&editor->session, "Direction: %s", names[editor->direction]);
    accepted(editor, redisplay_setting(&editor->session, MAIN, REDISPLAY_DIRECTION, editor->direction));
}

/* ---- search ---- */

/* Highlights the first match from a position on, or from the beginning where none stands there, and moves point behind it. */
static bool find(struct editor *editor, const struct pattern *pattern, uint32_t from) {
    struct range found = {1, 1};
    bool is_found = view_find(&editor->session, pattern, from, &found) || view_find(&editor->session, pattern, 1, &found);
    view_highlight(&editor->session, &found);
    if (is_found)
        move_to(editor, found.to);
    return is_found || pattern->length == 0;
}

static void act(struct editor *editor, const struct key *key);

/* Looks for what is typed so far from where it began. Another key ends the search, and is then obeyed. */
static void search(struct editor *editor) {
    struct pattern pattern = {.length = 0};
    uint32_t origin = view_selected(&editor->session).point;
    bool is_found = true;
    struct key key;
    for (;;) {
        view_say(&editor->session, "%s%.*s", is_found ? "Search: " : "Not found: ", (int)pattern.length, (const char *)pattern.text);
        view_show(&editor->session, editor->copy);
        key = terminal_key(&editor->terminal, -1);
        if (pattern_take(&pattern, &key))
            is_found = find(editor, &pattern, origin);
        else if (key.code == CONTROL('s'))
            is_found = find(editor, &pattern, view_selected(&editor->session).point);
        else if (key.code == KEY_RESIZE)
            resize(editor);
        else
            break;
    }
    view_highlight(&editor->session, &(struct range){1, 1});
    view_say(&editor->session, "");
    if (key.code == CONTROL('g'))
        move_to(editor, origin);
    else if (key.code != KEY_ENTER && key.code != KEY_ESCAPE)
        act(editor, &key);
}

/* ---- the file ---- */

static void save(struct editor *editor) {
    bool is_saved = view_save(&editor->session, editor->path);
    if (is_saved)
        set_saved(editor);
    view_say(&editor->session, "%s: %s", editor->path, is_saved ? "saved" : strerror(errno));
}

static void leave(struct editor *editor) {
    editor->is_done = !editor->is_modified || editor->is_warned;
    editor->is_warned = true;
    view_say(&editor->session, "Modified: C-x C-s saves, C-x C-c once more leaves");
}

/* ---- keys ---- */

static void prefix(struct editor *editor) { editor->is_prefixed = true; }

static const struct command {
    int key;
    void (*run)(struct editor *editor);
} commands[] = {
    {KEY_LEFT, go_left}, {KEY_RIGHT, go_right}, {CONTROL('b'), backward}, {CONTROL('f'), forward},
    {KEY_UP, up}, {CONTROL('p'), up}, {KEY_DOWN, down}, {CONTROL('n'), down},
    {KEY_PAGE_UP, page_up}, {META('v'), page_up}, {KEY_PAGE_DOWN, page_down}, {CONTROL('v'), page_down},
    {KEY_HOME, left_edge}, {KEY_END, right_edge}, {META('<'), beginning}, {META('>'), end},
    {KEY_ENTER, new_line}, {CONTROL('j'), new_line}, {CONTROL('i'), tab},
    {KEY_BACKSPACE, delete_before}, {CONTROL('h'), delete_before}, {KEY_DELETE, delete_behind}, {CONTROL('d'), delete_behind},
    {CONTROL('_'), undo}, {CONTROL('s'), search}, {CONTROL('l'), resize}, {KEY_RESIZE, resize}, {CONTROL('x'), prefix},
    {PREFIXED('2'), split_below}, {PREFIXED('3'), split_right}, {PREFIXED('0'), remove_window}, {PREFIXED('o'), other_window},
    {PREFIXED('l'), toggle_numbers}, {PREFIXED('w'), next_wrap}, {PREFIXED('d'), next_direction},
    {PREFIXED(CONTROL('s')), save}, {PREFIXED(CONTROL('c')), leave},
};

static void run_command(struct editor *editor, int code) {
    for (size_t at = 0; at < sizeof commands / sizeof *commands; at++)
        if (commands[at].key == code)
            commands[at].run(editor);
}

/* A run of typed characters, and the column of a run of rows, end with the first other key. */
static void act(struct editor *editor, const struct key *key) {
    bool was_prefixed = editor->is_prefixed;
    bool is_row = key->code == KEY_UP || key->code == KEY_DOWN || key->code == CONTROL('p') || key->code == CONTROL('n');
    bool is_text = key->length > 0 && !was_prefixed;
    editor->is_prefixed = false;
    if (!is_row)
        editor->goal = REDISPLAY_NONE;
    if (!is_text)
        editor->is_typing = false;
    if (key->code != CONTROL('x'))
        view_say(&editor->session, "");
    if (is_text)
        type(editor, key);
    else if (key->code == KEY_CLICK)
        click(editor, key);
    else if (key->code == KEY_WHEEL_UP || key->code == KEY_WHEEL_DOWN)
        turn_wheel(editor, key);
    else
        run_command(editor, was_prefixed ? PREFIXED(key->code) : key->code);
}

int main(int count, char **words) {
    struct editor editor = {.session = REDISPLAY_CLOSED, .goal = REDISPLAY_NONE, .wrap = REDISPLAY_CONTINUE};
    bool has_copy = count == 4 && strcmp(words[1], "--screen") == 0;
    if (count != 2 && !has_copy) {
        fprintf(stderr, "usage: edit [--screen COPY] FILE\n");
        return 2;
    }
    editor.path = words[count - 1];
    editor.copy = has_copy ? words[2] : NULL;
    view_open(&editor.session, editor.path);
    view_load(&editor.session, editor.path);
    redisplay_point(&editor.session, 0, 1);
    set_saved(&editor);
    set_windows(&editor);
    terminal_open();
    resize(&editor);
    while (!editor.is_done) {
        if (!terminal_has_key(&editor.terminal))
            view_show(&editor.session, editor.copy);
        struct key key = terminal_key(&editor.terminal, -1);
        act(&editor, &key);
    }
    terminal_close();
    redisplay_close(&editor.session);
    free(editor.edits);
    return 0;
}
