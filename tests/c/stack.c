/* How much of the stack the library uses: scripts are played on threads whose stacks were filled with a pattern, and the bytes that are no
 * longer of the pattern are counted. It fails where they are more than REDISPLAY_STACK.
 *
 *     stack SCRIPT..
 */
#include "redisplay.h"
#include "shared.h"
#include <pthread.h>

#define ROOM (1u << 20)
#define PATTERN 0xa5

static struct text script;

static void *play(void *unused)
{
    redisplay session = REDISPLAY_CLOSED;
    uint8_t out[64];
    redisplay_cell cells[2];
    redisplay_spot spot;
    redisplay_text given;
    size_t count;
    (void)unused;
    if (redisplay_open_unicode(&session) != REDISPLAY_DONE)
        exit(8);
    for (size_t at = 0; at < script.length;) {
        const uint8_t *line = script.bytes + at, *end = memchr(line, '\n', script.length - at);
        size_t length = end != NULL ? (size_t)(end - line) : script.length - at;
        redisplay_line(&session, line, length);
        while (redisplay_fetch(&session, out, sizeof out) > 0)
            ;
        at += length + (end != NULL);
    }
    redisplay_get_row(&session, 0, cells, 2, &count);
    redisplay_get_row_text(&session, 0, out, sizeof out, &count);
    redisplay_get_under(&session, 0, 0, &spot);
    redisplay_get_text(&session, 0, 1, 2, out, sizeof out, &given);
    redisplay_fault_text(&session, out, sizeof out);
    redisplay_close(&session);
    return NULL;
}

/* The bytes of a stack that the playing of the script took. */
static size_t taken(void)
{
    pthread_t thread;
    pthread_attr_t attributes;
    uint8_t *stack = aligned_alloc(4096, ROOM);
    if (stack == NULL)
        exit(8);
    memset(stack, PATTERN, ROOM);
    if (pthread_attr_init(&attributes) != 0 || pthread_attr_setstack(&attributes, stack, ROOM) != 0 ||
        pthread_create(&thread, &attributes, play, NULL) != 0 || pthread_join(thread, NULL) != 0)
        exit(8);
    size_t untouched = 0;
    while (untouched < ROOM && stack[untouched] == PATTERN)
        untouched++;
    free(stack);
    return ROOM - untouched;
}

int main(int argc, char **argv)
{
    size_t most = 0, empty = taken();
    for (int i = 1; i < argc; i++) {
        script = file_text(argv[i]);
        size_t count = taken();
        if (count > most)
            most = count;
        free(script.bytes);
    }
    printf("stack: %zu bytes at most over %d scripts, %zu to open and close\n", most, argc - 1, empty);
    return argc > 1 && most <= REDISPLAY_STACK ? 0 : 1;
}
