/* What calls of the library take, in microseconds: the least of five tries each.
 *
 *     c CLASSES MIRRORS BRACKETS
 */
#include "redisplay.h"
#include <stdio.h>
#include <stdlib.h>
#include <string.h>
#include <time.h>

#define TRIES 5
#define TEXT_BYTES 4000000u
#define PIECE 200000u

static redisplay session = REDISPLAY_CLOSED;

static double now(void)
{
    struct timespec time;
    clock_gettime(CLOCK_PROCESS_CPUTIME_ID, &time);
    return (double)time.tv_sec * 1e6 + (double)time.tv_nsec * 1e-3;
}

static void must(int holds, const char *what)
{
    if (!holds) {
        fprintf(stderr, "bench/c: %s\n", what);
        exit(1);
    }
}

/* The least time of one of so many calls, over the tries. */
#define LEAST(name, times, before, call)                                  \
    do {                                                                  \
        double least = 1e30;                                              \
        for (int try = 0; try < TRIES; try++) {                           \
            before;                                                       \
            double from = now();                                          \
            for (int time = 0; time < (times); time++) {                  \
                call;                                                     \
            }                                                             \
            double each = (now() - from) / (times);                       \
            least = each < least ? each : least;                          \
        }                                                                 \
        printf("%-44s %10.2f\n", (name), least);                          \
    } while (0)

static void fetch_all(void)
{
    uint8_t out[4096];
    while (redisplay_fetch(&session, out, sizeof out) > 0)
        ;
}

static void show(void)
{
    must(redisplay_update(&session).status == REDISPLAY_DONE, "a redisplay");
    fetch_all();
}

/* A frame over a text of 4 MB, with point at a position. */
static void begin(uint32_t point)
{
    static const char line[] = "a line of text as it stands in a file, of sixty characters.\n";
    static uint8_t piece[PIECE];
    redisplay_close(&session);
    must(redisplay_open_unicode(&session) == REDISPLAY_DONE, "open");
    for (uint32_t at = 0; at < TEXT_BYTES; at += PIECE) {
        for (uint32_t i = 0; i < PIECE; i++)
            piece[i] = (uint8_t)line[(at + i) % (sizeof line - 1)];
        must(redisplay_insert(&session, 0, at + 1, piece, PIECE) == REDISPLAY_DONE, "insert");
    }
    must(redisplay_point(&session, 0, point) == REDISPLAY_DONE, "point");
    show();
    must(redisplay_type(&session, (const uint8_t *)"x", 1) == REDISPLAY_DONE, "type");
    show();
}

static void type_key(void)
{
    must(redisplay_type(&session, (const uint8_t *)"x", 1) == REDISPLAY_DONE, "type");
    show();
}

static void type_line(void)
{
    static const char line[] = "{\"op\":\"type\",\"text\":\"x\"}", update[] = "{\"op\":\"redisplay\"}";
    must(redisplay_line(&session, (const uint8_t *)line, sizeof line - 1).status == REDISPLAY_DONE, "a line");
    must(redisplay_line(&session, (const uint8_t *)update, sizeof update - 1).status == REDISPLAY_DONE, "a line");
    fetch_all();
}

static void open_builtin(void)
{
    redisplay_close(&session);
    must(redisplay_open_unicode(&session) == REDISPLAY_DONE, "open");
}

struct file {
    uint8_t *bytes;
    size_t length;
};

static struct file load(const char *name)
{
    struct file file = { NULL, 0 };
    FILE *stream = fopen(name, "rb");
    must(stream != NULL && fseek(stream, 0, SEEK_END) == 0, name);
    file.length = (size_t)ftell(stream);
    rewind(stream);
    file.bytes = malloc(file.length + 1);
    must(file.bytes != NULL && fread(file.bytes, 1, file.length, stream) == file.length, name);
    fclose(stream);
    return file;
}

int main(int argc, char **argv)
{
    must(argc == 4, "usage: c CLASSES MIRRORS BRACKETS");
    struct file files[3] = { load(argv[1]), load(argv[2]), load(argv[3]) };
    redisplay_bad_data bad;
    LEAST("open, all of Unicode's data", 1, redisplay_close(&session),
          must(redisplay_open(&session, files[0].bytes, files[0].length, files[1].bytes, files[1].length, files[2].bytes, files[2].length,
                              &bad) == REDISPLAY_DONE, "open"));
    LEAST("open, the built-in data", 10, redisplay_close(&session), open_builtin());
    static const struct {
        const char *name, *by_line;
        uint32_t point;
    } places[] = {
        { "a key at the start of 4 MB", "the same by lines of JSON", 1 },
        { "a key at the middle of 4 MB", "the same by lines of JSON", TEXT_BYTES / 2 },
        { "a key at the end of 4 MB", "the same by lines of JSON", TEXT_BYTES + 1 },
    };
    for (size_t i = 0; i < sizeof places / sizeof *places; i++) {
        LEAST(places[i].name, 200, begin(places[i].point), type_key());
        LEAST(places[i].by_line, 200, begin(places[i].point), type_line());
    }
    static redisplay_cell cells[80];
    static uint8_t text[400];
    size_t count;
    redisplay_place place;
    redisplay_window window;
    redisplay_spot spot;
    redisplay_text given;
    LEAST("a row of 80 columns read back as cells", 10000, (void)0,
          must(redisplay_get_row(&session, 3, cells, 80, &count) == REDISPLAY_DONE && count == 80, "get_row"));
    LEAST("the same as text", 10000, (void)0, must(redisplay_get_row_text(&session, 3, text, 400, &count) == REDISPLAY_DONE, "get_row_text"));
    LEAST("80 characters of a buffer", 10000, (void)0,
          must(redisplay_get_text(&session, 0, 2000000, 2000080, text, 400, &given) == REDISPLAY_DONE && given.bytes == 80, "get_text"));
    LEAST("the cursor", 10000, (void)0, must(redisplay_get_cursor(&session, &place) == REDISPLAY_DONE, "get_cursor"));
    LEAST("a window", 10000, (void)0, must(redisplay_get_window(&session, 0, &window) == REDISPLAY_DONE, "get_window"));
    LEAST("what is under a cell", 10000, (void)0, must(redisplay_get_under(&session, 3, 5, &spot) == REDISPLAY_DONE, "get_under"));
    redisplay_close(&session);
    for (int i = 0; i < 3; i++)
        free(files[i].bytes);
    return 0;
}
