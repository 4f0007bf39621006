/* What the front ends do with a session: a file comes in, a text is looked for, and the screen goes out. All is of buffer 0. */
#ifndef VIEW_H
#define VIEW_H

#include "redisplay.h"
#include "terminal.h"

enum { MAIN = 0 };

/* A file that is read in pieces, and the first bytes of a character whose rest was not there yet. */
struct source {
    int file;
    uint8_t held[3];
    size_t count;
};

/* What is looked for, in UTF-8. */
struct pattern {
    uint8_t text[256];
    size_t length;
};

/* The positions from `from` to the one before `to`. */
struct range {
    uint32_t from, to;
};

/* Opens a session with a mode line that names a file, with line shifts, scrolled row by row, and ready to highlight a range. */
void view_open(redisplay *session, const char *path);

/* Gives the frame the terminal's size; TOO_SMALL where the windows do not fit. */
uint32_t view_fit(redisplay *session);

/* Redisplays, and sends the bytes. Where `copy` names a file, it gets the rows and the cursor as the library reads them back. */
void view_show(redisplay *session, const char *copy);

/* Shows a text in the echo area, made as by printf. */
void view_say(redisplay *session, const char *format, ...);

/* The position behind the text. */
uint32_t view_end(redisplay *session);

/* The selected window, and how many rows of text a window has above its mode line. */
redisplay_window view_selected(redisplay *session);
uint32_t view_rows(const redisplay_window *window);

/* What stands in a row and a column of a window, as the last redisplay showed it. */
redisplay_spot view_spot(redisplay *session, const redisplay_window *window, uint32_t row, uint32_t column);

/* Whether the text's end is in view. */
bool view_shows_end(redisplay *session, const redisplay_window *window);

/* Puts bytes in at a position; each one that is no part of a character in UTF-8 as a raw byte. */
uint32_t view_insert(redisplay *session, uint32_t position, const uint8_t *bytes, size_t length);

/* Puts the next piece of a file in behind the text, and answers how many bytes it read; behind the last one `source_end`. */
size_t source_read(struct source *source, redisplay *session);
void source_end(struct source *source, redisplay *session);

/* Puts a whole file in; one that is not there is empty. */
void view_load(redisplay *session, const char *path);

/* Writes the text to a file, and answers whether it was written; `errno` says why not. */
bool view_save(redisplay *session, const char *path);

/* Changes a pattern by a key, and answers whether the key was one for it: a character or a backspace. */
bool pattern_take(struct pattern *pattern, const struct key *key);

/* Looks for a pattern from a position on. */
bool view_find(redisplay *session, const struct pattern *pattern, uint32_t from, struct range *found);

/* Highlights a range in place of the one before; an empty one takes the highlight away. */
void view_highlight(redisplay *session, const struct range *range);

#endif
