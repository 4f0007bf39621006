/* Shows two lines of text, as examples/first.jsonl does: the smallest program over the library. It writes the terminal's bytes and ends. */
#include "redisplay.h"
#include <stdio.h>
#include <string.h>

#define TEXT(text) (const uint8_t *)(text), strlen(text)

int main(void)
{
    redisplay session = REDISPLAY_CLOSED;
    redisplay_face green = { sizeof green, 2, REDISPLAY_NONE, true, false, false, false };
    uint8_t bytes[4096];
    size_t count;

    if (redisplay_open_unicode(&session) != REDISPLAY_DONE)
        return 1;
    redisplay_frame(&session, 30, 4);
    redisplay_add_face(&session, &green);
    redisplay_type(&session, TEXT("Hello, 世界, and (שלום 123)!\nA line that is too long for it."));
    redisplay_put(&session, 0, 1, 6, REDISPLAY_FACE, 0);
    redisplay_mode_line(&session, 0, TEXT(" %b  line %l"));
    redisplay_update(&session);
    while ((count = redisplay_fetch(&session, bytes, sizeof bytes)) > 0)
        fwrite(bytes, 1, count, stdout);
    redisplay_close(&session);
    return 0;
}
