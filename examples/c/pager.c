/* A small pager: pager [--screen COPY] [+F] FILE
 *
 * Space, b, PageDown, PageUp   pages             /   search, by Enter     F, +F   follow a file that grows; any key ends it
 * j, k, arrows, the wheel      rows              n   the next match       q       leave
 * g, G                         beginning, end
 *
 * What is put behind the file's end is read as it comes. With --screen the file COPY gets the screen after each redisplay. */
#define _DEFAULT_SOURCE
#include "redisplay.h"
#include "terminal.h"
#include "view.h"

#include <fcntl.h>
#include <stdio.h>
#include <string.h>
#include <unistd.h>

/* How often a file that grows is looked at, in milliseconds. */
enum { TICK = 200, WHEEL_ROWS = 3 };

struct pager {
    redisplay session;
    struct terminal terminal;
    struct source source;
    const char *copy;
    struct pattern pattern;
    struct range found; /* the last match */
    bool is_following;
};

/* The window starts so many rows before the text's last one that its last row shows it. */
static void show_end(struct pager *pager) {
    redisplay_window window = view_selected(&pager->session);
    uint32_t end = view_end(&pager->session);
    redisplay_point(&pager->session, 0, end);
    redisplay_start(&pager->session, 0, end, 1000000);
    redisplay_scroll(&pager->session, 0, 1 - (int32_t)view_rows(&window));
}

static void show_beginning(struct pager *pager) {
    redisplay_point(&pager->session, 0, 1);
    redisplay_start(&pager->session, 0, 1, 0);
}

static void scroll(struct pager *pager, int32_t rows) {
    redisplay_update(&pager->session);
    redisplay_window window = view_selected(&pager->session);
    if (rows < 0 || !view_shows_end(&pager->session, &window))
        redisplay_scroll(&pager->session, 0, rows);
}

static void scroll_pages(struct pager *pager, int32_t pages) {
    redisplay_window window = view_selected(&pager->session);
    scroll(pager, pages * (int32_t)view_rows(&window));
}

/* Point goes to the match, so the window shows it. */
static void find_from(struct pager *pager, uint32_t from) {
    if (!view_find(&pager->session, &pager->pattern, from, &pager->found)) {
        view_say(&pager->session, "Not found: %.*s", (int)pager->pattern.length, (const char *)pager->pattern.text);
        return;
    }
    view_highlight(&pager->session, &pager->found);
    redisplay_point(&pager->session, 0, pager->found.from);
}

/* Asks for a pattern in the echo area, and looks for it from the window's start on. */
static void search(struct pager *pager) {
    struct key key;
    pager->pattern.length = 0;
    do {
        view_say(&pager->session, "/%.*s", (int)pager->pattern.length, (const char *)pager->pattern.text);
        view_show(&pager->session, pager->copy);
        key = terminal_key(&pager->terminal, -1);
        if (key.code == KEY_RESIZE)
            view_fit(&pager->session);
    } while (pattern_take(&pager->pattern, &key) || key.code == KEY_RESIZE);
    view_say(&pager->session, "");
    if (key.code == KEY_ENTER)
        find_from(pager, view_selected(&pager->session).start);
}

static void follow(struct pager *pager) {
    pager->is_following = true;
    view_say(&pager->session, "Waiting for more; any key ends it");
    show_end(pager);
}

/* Reads what there is, and answers whether there was more; a window that follows goes to its end. */
static bool read_on(struct pager *pager) {
    bool has_grown = false;
    while (source_read(&pager->source, &pager->session) > 0)
        has_grown = true;
    if (has_grown && pager->is_following)
        show_end(pager);
    return has_grown;
}

/* Obeys a key, and answers whether the pager goes on. */
static bool act(struct pager *pager, const struct key *key) {
    if (key->code != KEY_IDLE && key->code != KEY_RESIZE) {
        pager->is_following = false;
        view_say(&pager->session, "");
    }
    switch (key->code) {
    case 'q': return false;
    case 'g': case KEY_HOME: show_beginning(pager); break;
    case 'G': case KEY_END: show_end(pager); break;
    case ' ': case KEY_PAGE_DOWN: scroll_pages(pager, 1); break;
    case 'b': case KEY_PAGE_UP: scroll_pages(pager, -1); break;
    case 'j': case KEY_DOWN: case KEY_ENTER: scroll(pager, 1); break;
    case 'k': case KEY_UP: scroll(pager, -1); break;
    case KEY_WHEEL_DOWN: scroll(pager, WHEEL_ROWS); break;
    case KEY_WHEEL_UP: scroll(pager, -WHEEL_ROWS); break;
    case 'F': follow(pager); break;
    case '/': search(pager); break;
    case 'n': find_from(pager, pager->found.to); break;
    case KEY_RESIZE: case CONTROL('l'): view_fit(&pager->session); break;
    }
    if (key->code == KEY_RESIZE && pager->is_following)
        show_end(pager);
    return true;
}

static void run(struct pager *pager) {
    struct key key = {.code = KEY_RESIZE};
    while (act(pager, &key)) {
        bool has_news = read_on(pager) || key.code != KEY_IDLE;
        if (has_news && !terminal_has_key(&pager->terminal))
            view_show(&pager->session, pager->copy);
        key = terminal_key(&pager->terminal, TICK);
    }
}

int main(int count, char **words) {
    struct pager pager = {.session = REDISPLAY_CLOSED, .found = {1, 1}};
    bool has_copy = count > 3 && strcmp(words[1], "--screen") == 0;
    bool is_following = count > 2 && strcmp(words[count - 2], "+F") == 0;
    if (count != 2 + 2 * has_copy + is_following) {
        fprintf(stderr, "usage: pager [--screen COPY] [+F] FILE\n");
        return 2;
    }
    pager.copy = has_copy ? words[2] : NULL;
    pager.source.file = open(words[count - 1], O_RDONLY);
    if (pager.source.file < 0)
        give_up(words[count - 1]);
    view_open(&pager.session, words[count - 1]);
    redisplay_wrap(&pager.session, 0, REDISPLAY_CONTINUE);
    terminal_open();
    view_fit(&pager.session);
    read_on(&pager);
    if (is_following)
        follow(&pager);
    run(&pager);
    terminal_close();
    redisplay_close(&pager.session);
    return close(pager.source.file) < 0;
}
