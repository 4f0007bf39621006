/* Plays a script as the program does, through the library alone.
 *
 *     play [CLASSES MIRRORS BRACKETS] <SCRIPT     over data files, of which a name may be empty, or over the built-in data
 *
 * The terminal's bytes go to standard output, and to standard error the report with its dumps, which are made of what the library reads
 * back. The status is the program's; 9 says that two calls do not agree, and 8 that this program itself failed. */
#include "redisplay.h"
#include "shared.h"

#define MOST_LINES 1000000

static redisplay session = REDISPLAY_CLOSED;

static void must(int holds, const char *what)
{
    if (!holds) {
        fprintf(stderr, "calls do not agree: %s\n", what);
        exit(9);
    }
}

static void tell_fault(unsigned long number, uint32_t status)
{
    uint8_t words[64];
    size_t length = redisplay_fault_text(&session, words, sizeof words);
    must(redisplay_fault(&session) == status, "the status of a line, and the fault");
    fprintf(stderr, "script:%lu: %.*s\n", number, (int)length, (const char *)words);
}

static void send_pending(void)
{
    uint8_t piece[777];
    size_t count, all = 0, pending = redisplay_pending(&session);
    while ((count = redisplay_fetch(&session, piece, sizeof piece)) > 0) {
        all += count;
        if (fwrite(piece, 1, count, stdout) != count)
            exit(6);
    }
    must(all == pending, "pending bytes, and those that were fetched");
    if (fflush(stdout) != 0)
        exit(6);
}

static size_t put_code(uint8_t *out, uint32_t code)
{
    if (code < 0x80) {
        out[0] = (uint8_t)code;
        return 1;
    }
    size_t length = code < 0x800 ? 2 : code < 0x10000 ? 3 : 4;
    for (size_t i = length - 1; i > 0; i--, code >>= 6)
        out[i] = (uint8_t)(0x80 | (code & 0x3f));
    out[0] = (uint8_t)((0xf00 >> length) | code);
    return length;
}

static int is_plain(const redisplay_face *face)
{
    return !face->bold && !face->underline && !face->inverse && face->foreground == REDISPLAY_NONE && face->background == REDISPLAY_NONE;
}

static int are_alike(const redisplay_face *one, const redisplay_face *other)
{
    return one->bold == other->bold && one->underline == other->underline && one->inverse == other->inverse &&
           one->foreground == other->foreground && one->background == other->background;
}

static void dump_face(const redisplay_face *face)
{
    unsigned codes[5], count = 0;
    if (face->bold)
        codes[count++] = 1;
    if (face->underline)
        codes[count++] = 4;
    if (face->inverse)
        codes[count++] = 7;
    if (face->foreground != REDISPLAY_NONE)
        codes[count++] = 30 + face->foreground;
    if (face->background != REDISPLAY_NONE)
        codes[count++] = 40 + face->background;
    for (unsigned i = 0; i < count; i++)
        fprintf(stderr, "%s%u", i > 0 ? ";" : "", codes[i]);
}

static void dump_row(uint32_t row, uint32_t width)
{
    static redisplay_cell cells[400];
    static uint8_t text[400 * 28], again[400 * 28];
    size_t count, length = 0, length_again;
    must(redisplay_get_row(&session, row, cells, 400, &count) == REDISPLAY_DONE && count == width, "the cells of a row");
    for (size_t i = 0; i < count; i++) {
        if (cells[i].part == REDISPLAY_REST)
            continue;
        length += put_code(text + length, cells[i].code);
        for (unsigned mark = 0; mark < cells[i].mark_count; mark++)
            length += put_code(text + length, cells[i].marks[mark]);
    }
    must(redisplay_get_row_text(&session, row, again, sizeof again, &length_again) == REDISPLAY_DONE && length == length_again &&
             memcmp(text, again, length) == 0,
         "a row's cells, and its text");
    fprintf(stderr, "row %u |", (unsigned)row);
    fwrite(text, 1, length, stderr);
    fprintf(stderr, "|");
    for (size_t from = 0, to; from < count; from = to) {
        for (to = from + 1; to < count && (cells[to].part == REDISPLAY_REST || are_alike(&cells[from].face, &cells[to].face)); to++)
            ;
        if (!is_plain(&cells[from].face)) {
            fprintf(stderr, " %zu-%zu:", from, to - 1);
            dump_face(&cells[from].face);
        }
    }
    fprintf(stderr, "\n");
}

static void dump_window(uint32_t index)
{
    redisplay_window window;
    must(redisplay_get_window(&session, index, &window) == REDISPLAY_DONE, "the number of windows, and a window");
    fprintf(stderr, "window %u at %u,%u size %ux%u start %u.%u point %u cursor ", (unsigned)window.number, (unsigned)window.row,
            (unsigned)window.column, (unsigned)window.width, (unsigned)window.height, (unsigned)window.start, (unsigned)window.start_row,
            (unsigned)window.point);
    if (window.cursor_row == REDISPLAY_NONE)
        fprintf(stderr, "none\n");
    else
        fprintf(stderr, "%u,%u\n", (unsigned)window.cursor_row, (unsigned)window.cursor_column);
}

static void dump(void)
{
    uint32_t windows;
    redisplay_place frame, cursor;
    must(redisplay_get_windows(&session, &windows) == REDISPLAY_DONE, "an open session has windows");
    must(redisplay_get_frame(&session, &frame) == REDISPLAY_DONE, "an open session has a frame");
    must(redisplay_get_cursor(&session, &cursor) == REDISPLAY_DONE, "a screen that is known has a cursor");
    for (uint32_t i = 0; i < windows; i++)
        dump_window(i);
    for (uint32_t row = 0; row < frame.row; row++)
        dump_row(row, frame.column);
    fprintf(stderr, "cursor %u,%u\n", (unsigned)cursor.row, (unsigned)cursor.column);
}

/* Whether a line is a redisplay: of an op no bytes can be pending, and a redisplay that was shown has a line in the report. */
static int is_redisplay(const uint8_t *line, size_t length)
{
    static const char name[] = "\"redisplay\"";
    for (size_t at = 0; at + sizeof name - 1 <= length; at++)
        if (memcmp(line + at, name, sizeof name - 1) == 0)
            return 1;
    return 0;
}

static int play(const uint8_t *script, size_t length, int dumps)
{
    unsigned long number = 0;
    for (size_t at = 0; at < length;) {
        const uint8_t *line = script + at, *end = memchr(line, '\n', length - at);
        size_t count = end != NULL ? (size_t)(end - line) : length - at;
        at += count + (end != NULL);
        if (++number > MOST_LINES) {
            fprintf(stderr, "script:%lu: TooMany\n", number);
            return 4;
        }
        redisplay_shown shown = redisplay_line(&session, line, count);
        send_pending();
        if (shown.status == REDISPLAY_NO_MEMORY) {
            fprintf(stderr, "no memory\n");
            return 7;
        }
        if (shown.status != REDISPLAY_DONE && shown.status != REDISPLAY_STOPPED) {
            tell_fault(number, shown.status);
            return 4;
        }
        if (!is_redisplay(line, count))
            continue;
        fprintf(stderr, "%lu: %s %u rows\n", number, shown.status == REDISPLAY_DONE ? "shown" : "stopped", (unsigned)shown.rows);
        if (dumps && shown.status == REDISPLAY_DONE)
            dump();
    }
    fprintf(stderr, "done %lu lines\n", number);
    return 0;
}

static int tell_bad_data(uint32_t status, const redisplay_bad_data *bad)
{
    static const char *const files[] = { "data", "mirror", "brackets" };
    static const char *const kinds[] = { "", "BadLine", "BadCode", "BadClass", "NotAscending", "BadRange", "TooLarge" };
    if (status == REDISPLAY_NO_MEMORY) {
        fprintf(stderr, "no memory\n");
        return 7;
    }
    must(status == REDISPLAY_BAD_DATA && bad->file < 3 && bad->kind >= 1 && bad->kind <= 6, "a status of open");
    fprintf(stderr, "%s:%u: %s\n", files[bad->file], (unsigned)bad->line, kinds[bad->kind]);
    return 3;
}

/* Opens over three files, of which a name may be empty; the status of the program where that fails, else 0. */
static int open_files(char **names)
{
    struct text texts[3];
    redisplay_bad_data bad = { 0, 0, 0 };
    for (int i = 0; i < 3; i++)
        texts[i] = names[i][0] != '\0' ? file_text(names[i]) : (struct text){ NULL, 0 };
    uint32_t status = redisplay_open(&session, texts[0].bytes, texts[0].length, texts[1].bytes, texts[1].length, texts[2].bytes,
                                     texts[2].length, &bad);
    for (int i = 0; i < 3; i++)
        free(texts[i].bytes);
    return status == REDISPLAY_DONE ? 0 : tell_bad_data(status, &bad);
}

int main(int argc, char **argv)
{
    int dumps = argc > 1 && strcmp(argv[1], "--dump") == 0, given = argc - 1 - dumps;
    if (given != 0 && given != 3) {
        fprintf(stderr, "usage: play [--dump] [CLASSES MIRRORS BRACKETS]\n");
        return 8;
    }
    int status = given == 3 ? open_files(argv + 1 + dumps) : redisplay_open_unicode(&session) == REDISPLAY_DONE ? 0 : 8;
    if (status != 0)
        return status;
    struct text script = stream_text(stdin);
    status = play(script.bytes, script.length, dumps);
    free(script.bytes);
    redisplay_close(&session);
    return status;
}
