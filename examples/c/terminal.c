/* The terminal of a front end, by termios and the control sequences of xterm. */
#define _DEFAULT_SOURCE
#include "terminal.h"

#include <errno.h>
#include <fcntl.h>
#include <signal.h>
#include <stdio.h>
#include <stdlib.h>
#include <string.h>
#include <sys/ioctl.h>
#include <sys/select.h>
#include <termios.h>
#include <unistd.h>

/* The alternate screen, reports of the mouse's buttons, and those in the form of SGR; then all of it back, and a plain pen. */
#define ENTER "\033[?1049h\033[?1000h\033[?1006h"
#define LEAVE "\033[r\033[0m\033[?1006l\033[?1000l\033[?1049l"

/* How long the rest of a sequence may take, in milliseconds. */
#define REST 50

/* What the signal handlers need. */
static volatile sig_atomic_t device = -1;
static struct termios before;
static volatile sig_atomic_t resized;

/* A signal handler calls this too, so it calls nothing but write and tcsetattr. A terminal that is gone needs nothing put right. */
void terminal_close(void) {
    if (device < 0)
        return;
    if (write(device, LEAVE, sizeof LEAVE - 1) >= 0)
        tcsetattr(device, TCSAFLUSH, &before);
    device = -1;
}

void give_up(const char *what) {
    int cause = errno;
    terminal_close();
    fprintf(stderr, "%s: %s\n", what, strerror(cause));
    exit(EXIT_FAILURE);
}

/* The handler is reset by now, so the signal ends the program once this returns. */
static void leave_by(int number) {
    terminal_close();
    raise(number);
}

static void note_resize(int number) {
    (void)number;
    resized = 1;
}

static void handle(int number, void (*handler)(int), int flags) {
    struct sigaction action;
    memset(&action, 0, sizeof action);
    sigemptyset(&action.sa_mask);
    action.sa_handler = handler;
    action.sa_flags = flags;
    if (sigaction(number, &action, NULL) < 0)
        give_up("sigaction");
}

/* A resize is let in only while a key is waited for, so that none is missed in between. */
static void handle_signals(void) {
    sigset_t resize;
    sigemptyset(&resize);
    sigaddset(&resize, SIGWINCH);
    if (sigprocmask(SIG_BLOCK, &resize, NULL) < 0)
        give_up("sigprocmask");
    handle(SIGWINCH, note_resize, 0);
    handle(SIGINT, leave_by, (int)SA_RESETHAND);
    handle(SIGHUP, leave_by, (int)SA_RESETHAND);
    handle(SIGTERM, leave_by, (int)SA_RESETHAND);
    handle(SIGQUIT, leave_by, (int)SA_RESETHAND);
}

void terminal_open(void) {
    int opened = open("/dev/tty", O_RDWR | O_CLOEXEC);
    if (opened < 0 || tcgetattr(opened, &before) < 0)
        give_up("/dev/tty");
    struct termios raw = before;
    cfmakeraw(&raw);
    device = opened;
    handle_signals();
    if (atexit(terminal_close) != 0 || tcsetattr(device, TCSAFLUSH, &raw) < 0)
        give_up("/dev/tty");
    terminal_write((const uint8_t *)ENTER, sizeof ENTER - 1);
}

/* A terminal that does not know its size says 0. */
void terminal_size(uint32_t *width, uint32_t *height) {
    struct winsize size;
    if (ioctl(device, TIOCGWINSZ, &size) < 0)
        give_up("the terminal's size");
    *width = size.ws_col > 0 ? size.ws_col : 80;
    *height = size.ws_row > 0 ? size.ws_row : 24;
}

void terminal_write(const uint8_t *bytes, size_t length) {
    while (length > 0) {
        ssize_t written = write(device, bytes, length);
        if (written < 0 && errno != EINTR)
            give_up("writing to the terminal");
        if (written > 0) {
            bytes += written;
            length -= (size_t)written;
        }
    }
}

bool terminal_has_key(const struct terminal *terminal) {
    return terminal->next < terminal->count;
}

/* Whether there is something to read within so many milliseconds; a resize ends the wait. */
static bool is_ready(int milliseconds) {
    struct timespec limit = {milliseconds / 1000, milliseconds % 1000 * 1000000L};
    fd_set readable;
    sigset_t open_mask;
    FD_ZERO(&readable);
    FD_SET(device, &readable);
    if (sigprocmask(SIG_SETMASK, NULL, &open_mask) < 0)
        give_up("sigprocmask");
    sigdelset(&open_mask, SIGWINCH);
    int ready = pselect(device + 1, &readable, NULL, NULL, milliseconds < 0 ? NULL : &limit, &open_mask);
    if (ready < 0 && errno != EINTR)
        give_up("waiting for a key");
    return ready > 0;
}

/* The next byte, or -1 where none comes in time. */
static int next_byte(struct terminal *terminal, int milliseconds) {
    if (!terminal_has_key(terminal)) {
        if (!is_ready(milliseconds))
            return -1;
        ssize_t count = read(device, terminal->bytes, sizeof terminal->bytes);
        if (count < 0 && errno == EINTR)
            return -1;
        if (count <= 0)
            give_up("reading from the terminal");
        terminal->next = 0;
        terminal->count = (size_t)count;
    }
    return terminal->bytes[terminal->next++];
}

/* How many bytes a character of UTF-8 has by its first one. */
static size_t length_by(int first) {
    return first < 0xc0 ? 1 : first < 0xe0 ? 2 : first < 0xf0 ? 3 : 4;
}

static struct key character_key(struct terminal *terminal, int first) {
    struct key key = {.code = first < 128 ? first : KEY_CHARACTER, .text = {(uint8_t)first}, .length = 1};
    while (key.length < length_by(first)) {
        int byte = next_byte(terminal, REST);
        if (byte < 0)
            return (struct key){.code = KEY_OTHER};
        key.text[key.length++] = (uint8_t)byte;
    }
    return key;
}

/* The key of a report of the mouse: its button, then the column and the row from 1. Releases are no keys. */
static struct key mouse_key(const uint32_t *numbers, int last) {
    struct key key = {.code = KEY_OTHER, .row = numbers[2] - 1, .column = numbers[1] - 1};
    if (last == 'M')
        key.code = numbers[0] == 0 ? KEY_CLICK : numbers[0] == 64 ? KEY_WHEEL_UP : numbers[0] == 65 ? KEY_WHEEL_DOWN : KEY_OTHER;
    return key;
}

/* The key that a sequence is by its first number and its last byte. */
static int sequence_code(uint32_t number, int last) {
    static const int letters[] = {['A'] = KEY_UP, ['B'] = KEY_DOWN, ['C'] = KEY_RIGHT, ['D'] = KEY_LEFT, ['F'] = KEY_END, ['H'] = KEY_HOME};
    static const int numbered[] = {[1] = KEY_HOME, [3] = KEY_DELETE, [4] = KEY_END, [5] = KEY_PAGE_UP, [6] = KEY_PAGE_DOWN};
    if (last == '~')
        return number < sizeof numbered / sizeof *numbered && numbered[number] ? numbered[number] : KEY_OTHER;
    return last < (int)(sizeof letters / sizeof *letters) && letters[last] ? letters[last] : KEY_OTHER;
}

/* A sequence behind ESC [ or ESC O: numbers with `;` between them, and a last byte from 64 on. */
static struct key sequence_key(struct terminal *terminal) {
    uint32_t numbers[3] = {0};
    size_t at = 0;
    bool is_mouse = false;
    int byte;
    while ((byte = next_byte(terminal, REST)) >= 0 && byte < 64) {
        if (byte == '<')
            is_mouse = true;
        else if (byte == ';')
            at++;
        else if (byte >= '0' && byte <= '9' && at < 3)
            numbers[at] = numbers[at] * 10 + (uint32_t)(byte - '0');
    }
    if (is_mouse)
        return mouse_key(numbers, byte);
    return (struct key){.code = byte < 0 ? KEY_OTHER : sequence_code(numbers[0], byte)};
}

/* What stands behind an ESC: nothing, a sequence, or the character of META. */
static struct key escape_key(struct terminal *terminal) {
    int byte = next_byte(terminal, REST);
    if (byte == '[' || byte == 'O')
        return sequence_key(terminal);
    return (struct key){.code = byte < 0 ? KEY_ESCAPE : byte < 128 ? META(byte) : KEY_OTHER};
}

struct key terminal_key(struct terminal *terminal, int milliseconds) {
    int byte = -1;
    do
        byte = resized ? -1 : next_byte(terminal, milliseconds);
    while (byte < 0 && !resized && milliseconds < 0);
    if (byte == KEY_ESCAPE)
        return escape_key(terminal);
    if (byte >= 32 && byte != KEY_BACKSPACE)
        return character_key(terminal, byte);
    if (byte >= 0)
        return (struct key){.code = byte};
    struct key key = {.code = resized ? KEY_RESIZE : KEY_IDLE};
    resized = 0;
    return key;
}
