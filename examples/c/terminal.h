/* The terminal of a front end: raw, on its alternate screen, with mouse reports. At exit and by signal it is as it was before. */
#ifndef TERMINAL_H
#define TERMINAL_H

#include <stdbool.h>
#include <stddef.h>
#include <stdint.h>

/* What a key is: a character of ASCII as itself, CONTROL or META of one, or one of `key_code`. */
#define CONTROL(letter) ((letter) & 31)
#define META(letter) ((letter) | 256)

enum key_code {
    KEY_ENTER = 13,
    KEY_ESCAPE = 27,
    KEY_BACKSPACE = 127,
    KEY_CHARACTER = 512, /* one beyond ASCII */
    KEY_UP,
    KEY_DOWN,
    KEY_RIGHT,
    KEY_LEFT,
    KEY_HOME,
    KEY_END,
    KEY_PAGE_UP,
    KEY_PAGE_DOWN,
    KEY_DELETE,
    KEY_CLICK,
    KEY_WHEEL_UP,
    KEY_WHEEL_DOWN,
    KEY_RESIZE, /* the terminal has another size */
    KEY_IDLE,   /* no key came in time */
    KEY_OTHER
};

struct key {
    int code;
    uint8_t text[4]; /* the character in UTF-8 where the key is one, else of length 0 */
    size_t length;
    uint32_t row, column; /* the cell under the mouse, from 0 */
};

/* The bytes that were read and made no key yet; all zero there are none. */
struct terminal {
    uint8_t bytes[1024];
    size_t next, count;
};

/* Each of these ends the program with a message where the system refuses what they ask for. */
void terminal_open(void);
void terminal_size(uint32_t *width, uint32_t *height);
void terminal_write(const uint8_t *bytes, size_t length);

/* Waits for a key, so many milliseconds; below 0 as long as it takes. */
struct key terminal_key(struct terminal *terminal, int milliseconds);

/* Whether bytes are there already that make the next key. */
bool terminal_has_key(const struct terminal *terminal);

/* Leaves the terminal as it was found; twice is fine. */
void terminal_close(void);

/* Leaves the terminal, tells what failed and why, and ends the program. */
void give_up(const char *what);

#endif
