/* Refuses each allocation in turn, once.
 *
 *     starved SCRIPT
 *
 * A session is opened over the built-in data, the script is played, and then each op is called once as a call of its own. A run for each
 * allocation of that: it is refused, and one call has to say so, once, by the status NO_MEMORY; the same call made again has to succeed; in
 * the end the session has to show what it shows where nothing is refused, and to give all blocks back. */
#include "heap_counts.h"
#include "redisplay.h"
#include "shared.h"

static redisplay session = REDISPLAY_CLOSED;
static long told;

static void fail(const char *what, uint32_t status)
{
    fprintf(stderr, "allocation %ld: %s: status %u\n", heap.refuse_at, what, (unsigned)status);
    exit(1);
}

/* A call, made again where there was no memory. */
#define CALL(call)                                             \
    do {                                                       \
        uint32_t status;                                       \
        while ((status = (call)) == REDISPLAY_NO_MEMORY)       \
            told++;                                            \
        if (status != REDISPLAY_DONE)                          \
            fail(#call, status);                               \
    } while (0)

static void fetch_all(void)
{
    uint8_t out[512];
    while (redisplay_fetch(&session, out, sizeof out) > 0)
        ;
}

static void play(const struct text *script)
{
    for (size_t at = 0; at < script->length;) {
        const uint8_t *line = script->bytes + at, *end = memchr(line, '\n', script->length - at);
        size_t count = end != NULL ? (size_t)(end - line) : script->length - at;
        CALL(redisplay_line(&session, line, count).status);
        fetch_all();
        at += count + (end != NULL);
    }
}

#define TEXT(text) (const uint8_t *)(text), sizeof(text) - 1

static void call_each_op(void)
{
    redisplay_face face = { sizeof face, 1, REDISPLAY_NONE, true, false, false, false };
    redisplay_text given;
    redisplay_cell cells[20];
    uint8_t out[40];
    size_t count;
    CALL(redisplay_frame(&session, 60, 20));
    CALL(redisplay_buffer(&session, TEXT("another")));
    CALL(redisplay_insert(&session, 1, 1, TEXT("one line\nand \xd7\x90\xd7\x91 another\n")));
    CALL(redisplay_show(&session, 0, 1));
    CALL(redisplay_point(&session, 0, 3));
    CALL(redisplay_type(&session, TEXT("typed")));
    CALL(redisplay_delete(&session, 1, 1, 3));
    CALL(redisplay_narrow(&session, 1, 2, 12));
    CALL(redisplay_widen(&session, 1));
    CALL(redisplay_setting(&session, 1, REDISPLAY_TAB_WIDTH, 4));
    CALL(redisplay_add_face(&session, &face));
    CALL(redisplay_add_string(&session, TEXT("a string")));
    CALL(redisplay_put(&session, 1, 2, 6, REDISPLAY_FACE, 0));
    CALL(redisplay_overlay(&session, 1, 3, 9, 1, false, true));
    CALL(redisplay_overlay_move(&session, 1, 0, 2, 7));
    CALL(redisplay_overlay_put(&session, 1, 0, REDISPLAY_BEFORE, 0));
    CALL(redisplay_update(&session).status);
    CALL(redisplay_overlay_drop(&session, 1, 0));
    CALL(redisplay_split(&session, 0, REDISPLAY_BELOW, 8));
    CALL(redisplay_select(&session, 0));
    CALL(redisplay_start(&session, 0, 1, 0));
    CALL(redisplay_scroll(&session, 0, 1));
    CALL(redisplay_hscroll(&session, 0, 2));
    CALL(redisplay_wrap(&session, 0, REDISPLAY_WORD));
    CALL(redisplay_mode_line(&session, 0, TEXT("%b %l")));
    CALL(redisplay_no_mode_line(&session, 0));
    CALL(redisplay_margin(&session, 0, 4, 0));
    CALL(redisplay_scrolling(&session, 1, 1));
    CALL(redisplay_echo(&session, TEXT("echoed")));
    CALL(redisplay_shift(&session, true));
    CALL(redisplay_go(&session, 0, REDISPLAY_RIGHT));
    CALL(redisplay_update_rows(&session, 100).status);
    CALL(redisplay_hit(&session, 0, 0, 1));
    CALL(redisplay_get_text(&session, 1, 1, 4, out, sizeof out, &given));
    CALL(redisplay_get_row(&session, 0, cells, 20, &count));
    CALL(redisplay_get_row_text(&session, 0, out, sizeof out, &count));
    CALL(redisplay_update(&session).status);
    fetch_all();
}

/* The text of the whole screen. */
static struct text screen(void)
{
    static uint8_t bytes[200 * 400 * 4];
    redisplay_place frame;
    struct text text = { bytes, 0 };
    CALL(redisplay_get_frame(&session, &frame));
    for (uint32_t row = 0; row < frame.row; row++) {
        size_t length;
        CALL(redisplay_get_row_text(&session, row, bytes + text.length, sizeof bytes - text.length, &length));
        text.length += length;
        bytes[text.length++] = '\n';
    }
    return text;
}

static struct text run(const struct text *script)
{
    heap.allocations = 0;
    told = 0;
    long before = heap.blocks;
    CALL(redisplay_open_unicode(&session));
    play(script);
    call_each_op();
    struct text shown = screen();
    redisplay_close(&session);
    if (heap.blocks != before)
        fail("blocks are left", (uint32_t)heap.blocks);
    return shown;
}

int main(int argc, char **argv)
{
    if (argc != 2)
        return 8;
    struct text script = file_text(argv[1]), shown = run(&script);
    long allocations = heap.allocations;
    struct text ample = { malloc(shown.length), shown.length };
    memcpy(ample.bytes, shown.bytes, shown.length);
    for (long n = 1; n <= allocations; n++) {
        heap.refuse_at = n;
        shown = run(&script);
        if (told != 1)
            fail("want of memory was not told once", (uint32_t)told);
        if (shown.length != ample.length || memcmp(shown.bytes, ample.bytes, shown.length) != 0)
            fail("another screen", 0);
    }
    free(ample.bytes);
    free(script.bytes);
    printf("each of %ld allocations was refused in turn\n", allocations);
    return allocations > 0 ? 0 : 1;
}
