/* What the front ends do with a session, over the library's calls alone. */
#define _DEFAULT_SOURCE
#include "view.h"

#include <errno.h>
#include <fcntl.h>
#include <stdarg.h>
#include <stdio.h>
#include <stdlib.h>
#include <string.h>
#include <unistd.h>

/* A cell has a character and six marks, of four bytes each at most, and a row up to 400 cells. */
#define ROW_BYTES (400 * 7 * 4)

/* How much is read or searched at once. */
#define PIECE 65536

/* The number of the overlay that highlights a range. */
enum { HIGHLIGHT = 0 };

/* Ends the program where a call that has to succeed did not. */
static void expect(redisplay *session, uint32_t status, const char *what) {
    uint8_t words[80];
    if (status == REDISPLAY_DONE)
        return;
    size_t length = redisplay_fault_text(session, words, sizeof words);
    terminal_close();
    fprintf(stderr, "%s: %.*s\n", what, (int)length, (const char *)words);
    exit(EXIT_FAILURE);
}

/* The last part of a path as a piece of a mode line, where `%` stands for itself only when doubled. */
static void quote_name(const char *path, char *out, size_t room) {
    const char *slash = strrchr(path, '/');
    size_t at = 0;
    for (const char *name = slash ? slash + 1 : path; *name && at + 2 < room; name++) {
        if (*name == '%')
            out[at++] = '%';
        out[at++] = *name;
    }
    out[at] = '\0';
}

/* The first face and the first overlay have number 0. The overlay covers nothing yet. */
static void make_highlight(redisplay *session) {
    redisplay_face face = {.size = sizeof face, .foreground = 0, .background = 3};
    expect(session, redisplay_add_face(session, &face), "a face");
    expect(session, redisplay_overlay(session, MAIN, 1, 1, 0, false, false), "an overlay");
    expect(session, redisplay_overlay_put(session, MAIN, HIGHLIGHT, REDISPLAY_FACE, 0), "an overlay's face");
}

void view_open(redisplay *session, const char *path) {
    char name[512], format[600];
    expect(session, redisplay_open_unicode(session), "opening a session");
    quote_name(path, name, sizeof name);
    int length = snprintf(format, sizeof format, "%%* %s  line %%l  %%p", name);
    if (redisplay_mode_line(session, 0, (const uint8_t *)format, (size_t)length) == REDISPLAY_BAD_TEXT)
        expect(session, redisplay_mode_line(session, 0, (const uint8_t *)"%* line %l  %p", 14), "the mode line");
    expect(session, redisplay_shift(session, true), "line shifts");
    expect(session, redisplay_scrolling(session, 0, 100), "scrolling");
    make_highlight(session);
}

static uint32_t between(uint32_t least, uint32_t number, uint32_t most) {
    return number < least ? least : number > most ? most : number;
}

uint32_t view_fit(redisplay *session) {
    uint32_t width, height;
    terminal_size(&width, &height);
    return redisplay_frame(session, between(12, width, 400), between(2, height, 200));
}

static void copy_screen(redisplay *session, const char *path) {
    uint8_t text[ROW_BYTES];
    size_t length;
    redisplay_place cursor = {0, 0};
    FILE *copy = fopen(path, "w");
    if (copy == NULL)
        give_up(path);
    for (uint32_t row = 0; redisplay_get_row_text(session, row, text, sizeof text, &length) == REDISPLAY_DONE; row++)
        fprintf(copy, "%.*s\n", (int)length, (const char *)text);
    redisplay_get_cursor(session, &cursor);
    fprintf(copy, "cursor %u,%u\n", (unsigned)cursor.row, (unsigned)cursor.column);
    bool is_written = !ferror(copy);
    if (fclose(copy) != 0 || !is_written)
        give_up(path);
}

/* Where memory was wanting the next redisplay paints all; what is pending is sent all the same. */
void view_show(redisplay *session, const char *copy) {
    uint8_t bytes[4096];
    size_t count;
    redisplay_update(session);
    while ((count = redisplay_fetch(session, bytes, sizeof bytes)) > 0)
        terminal_write(bytes, count);
    if (copy != NULL)
        copy_screen(session, copy);
}

void view_say(redisplay *session, const char *format, ...) {
    char text[512];
    va_list values;
    va_start(values, format);
    int length = vsnprintf(text, sizeof text, format, values);
    va_end(values);
    if (length >= 0)
        redisplay_echo(session, (const uint8_t *)text, strlen(text));
}

uint32_t view_end(redisplay *session) {
    uint32_t length = 0;
    redisplay_get_length(session, MAIN, &length);
    return length + 1;
}

redisplay_window view_selected(redisplay *session) {
    redisplay_window window = {0};
    for (uint32_t index = 0; redisplay_get_window(session, index, &window) == REDISPLAY_DONE; index++)
        if (window.selected)
            break;
    return window;
}

uint32_t view_rows(const redisplay_window *window) {
    return window->height - 1;
}

redisplay_spot view_spot(redisplay *session, const redisplay_window *window, uint32_t row, uint32_t column) {
    redisplay_spot spot = {.window = REDISPLAY_NONE, .position = REDISPLAY_NONE};
    redisplay_get_under(session, window->row + row, window->column + column, &spot);
    return spot;
}

/* Below the end no row shows a position. A border is one column wide, so the column before the last one is of the text. */
bool view_shows_end(redisplay *session, const redisplay_window *window) {
    uint32_t position = view_spot(session, window, view_rows(window) - 1, window->width - 2).position;
    return position == REDISPLAY_NONE || position == view_end(session);
}

/* How many bytes a character of UTF-8 has by its first one; 0 where none begins so. */
static size_t length_by(uint8_t first) {
    return first < 0x80 ? 1 : first < 0xc2 ? 0 : first < 0xe0 ? 2 : first < 0xf0 ? 3 : first < 0xf5 ? 4 : 0;
}

/* How many bytes the character at the front has; 0 where no whole one stands there. */
static size_t character_length(const uint8_t *bytes, size_t length) {
    size_t count = length_by(bytes[0]);
    if (count > length)
        return 0;
    for (size_t at = 1; at < count; at++)
        if ((bytes[at] & 0xc0) != 0x80)
            return 0;
    bool is_overlong = (bytes[0] == 0xe0 && bytes[1] < 0xa0) || (bytes[0] == 0xf0 && bytes[1] < 0x90);
    bool is_no_code = (bytes[0] == 0xed && bytes[1] > 0x9f) || (bytes[0] == 0xf4 && bytes[1] > 0x8f);
    return is_overlong || is_no_code ? 0 : count;
}

/* A raw byte has no call of its own: it goes in by a line. */
static uint32_t insert_raw(redisplay *session, uint32_t position, uint8_t byte) {
    char line[100];
    int length = snprintf(line, sizeof line, "{\"op\":\"insert_raw\",\"buffer\":\"main\",\"pos\":%u,\"bytes\":[%u]}",
                          (unsigned)position, (unsigned)byte);
    return redisplay_line(session, (const uint8_t *)line, (size_t)length).status;
}

uint32_t view_insert(redisplay *session, uint32_t position, const uint8_t *bytes, size_t length) {
    uint32_t status = REDISPLAY_DONE;
    while (length > 0 && status == REDISPLAY_DONE) {
        uint32_t characters = 0;
        size_t run = 0, next;
        while (run < length && (next = character_length(bytes + run, length - run)) > 0) {
            run += next;
            characters++;
        }
        if (run == 0) {
            status = insert_raw(session, position, bytes[0]);
            run = characters = 1;
        } else {
            status = redisplay_insert(session, MAIN, position, bytes, run);
        }
        position += characters;
        bytes += run;
        length -= run;
    }
    return status;
}

/* How many bytes at the end are the front of a character whose rest is missing. */
static size_t cut_at_end(const uint8_t *bytes, size_t length) {
    for (size_t back = 1; back <= 3 && back <= length; back++)
        if (length_by(bytes[length - back]) > 0)
            return length_by(bytes[length - back]) > back ? back : 0;
    return 0;
}

size_t source_read(struct source *source, redisplay *session) {
    uint8_t bytes[PIECE];
    ssize_t count;
    memcpy(bytes, source->held, source->count);
    do
        count = read(source->file, bytes + source->count, sizeof bytes - source->count);
    while (count < 0 && errno == EINTR);
    if (count < 0)
        give_up("reading the file");
    size_t length = source->count + (size_t)count, cut = cut_at_end(bytes, length);
    expect(session, view_insert(session, view_end(session), bytes, length - cut), "reading the file");
    memcpy(source->held, bytes + length - cut, cut);
    source->count = cut;
    return (size_t)count;
}

void source_end(struct source *source, redisplay *session) {
    expect(session, view_insert(session, view_end(session), source->held, source->count), "reading the file");
    source->count = 0;
}

void view_load(redisplay *session, const char *path) {
    struct source source = {.file = open(path, O_RDONLY)};
    if (source.file < 0 && errno == ENOENT)
        return;
    if (source.file < 0)
        give_up(path);
    while (source_read(&source, session) > 0)
        continue;
    source_end(&source, session);
    if (close(source.file) < 0)
        give_up(path);
}

static bool write_text(redisplay *session, FILE *file) {
    uint8_t bytes[PIECE];
    uint32_t end = view_end(session);
    redisplay_text given = {0, 1};
    while (given.next < end) {
        redisplay_get_text(session, MAIN, given.next, end, bytes, sizeof bytes, &given);
        if (fwrite(bytes, 1, given.bytes, file) != given.bytes)
            return false;
    }
    return true;
}

bool view_save(redisplay *session, const char *path) {
    FILE *file = fopen(path, "w");
    if (file == NULL)
        return false;
    bool is_written = write_text(session, file);
    return fclose(file) == 0 && is_written;
}

bool pattern_take(struct pattern *pattern, const struct key *key) {
    bool is_backspace = key->code == KEY_BACKSPACE || key->code == CONTROL('h');
    if (is_backspace) {
        while (pattern->length > 0 && (pattern->text[--pattern->length] & 0xc0) == 0x80)
            continue;
    } else if (key->length <= sizeof pattern->text - pattern->length) {
        memcpy(pattern->text + pattern->length, key->text, key->length);
        pattern->length += key->length;
    }
    return is_backspace || key->length > 0;
}

/* Where a pattern first stands in a text, or NULL. */
static const uint8_t *search(const uint8_t *text, size_t length, const struct pattern *pattern) {
    for (size_t at = 0; at + pattern->length <= length; at++)
        if (memcmp(text + at, pattern->text, pattern->length) == 0)
            return text + at;
    return NULL;
}

/* The pieces overlap by more characters than the pattern has, so that none of its places is cut in all of them. */
bool view_find(redisplay *session, const struct pattern *pattern, uint32_t from, struct range *found) {
    uint8_t text[PIECE];
    uint32_t end = view_end(session);
    redisplay_text given;
    while (pattern->length > 0 && redisplay_get_text(session, MAIN, from, end, text, sizeof text, &given) == REDISPLAY_DONE) {
        const uint8_t *place = search(text, given.bytes, pattern);
        if (place != NULL) {
            redisplay_get_text(session, MAIN, from, end, text, (size_t)(place - text), &given);
            found->from = given.next;
            redisplay_get_text(session, MAIN, found->from, end, text, pattern->length, &given);
            found->to = given.next;
            return true;
        }
        if (given.next >= end)
            return false;
        from = given.next - (uint32_t)pattern->length;
    }
    return false;
}

void view_highlight(redisplay *session, const struct range *range) {
    redisplay_overlay_move(session, MAIN, HIGHLIGHT, range->from, range->to);
}
