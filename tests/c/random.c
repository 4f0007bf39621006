/* Random calls in random order, from a seed.
 *
 *     random SEED CALLS
 *
 * Three sessions are opened, used and closed at random, on a heap that refuses an allocation now and then. Arguments are mostly near what
 * the session has, and sometimes anything. It fails (status 1, with a line) where a status is not one of the call's, where a closed session
 * answers another status than NOT_OPEN, where a call that is refused changes what can be read back, or where a block is left when all
 * sessions are closed. */
#include "heap_counts.h"
#include "redisplay.h"
#include "shared.h"

#define SESSIONS 3

static redisplay sessions[SESSIONS];
static unsigned long seed, call_number;
static uint64_t state;

static uint32_t number_below(uint32_t bound)
{
    state = state * 6364136223846793005u + 1442695040888963407u;
    return (uint32_t)((state >> 33) % bound);
}

static int one_in(uint32_t bound)
{
    return number_below(bound) == 0;
}

static void fail(const char *call, uint32_t status)
{
    fprintf(stderr, "seed %lu, call %lu, %s: status %u\n", seed, call_number, call, (unsigned)status);
    exit(1);
}

/* ---- arguments ---- */

static uint8_t bytes[1200000];

/* Fills `bytes` with a text, mostly UTF-8, and answers its length. */
static size_t random_text(void)
{
    static const char *const pieces[] = { "a", "word ", "\t", "\n", "\xc3\xa9", "\xd7\x90\xd7\x91", "\xe4\xb8\xad", "e\xcc\x81", "\x01",
                                          "(", ")", "%b", "%", "\xf0\x9f\x98\x80", "\xff", "\xc3", "\xed\xa0\x80", "0123456789 and more of it\n" };
    size_t length = 0, count = one_in(40) ? number_below(2000) : number_below(12);
    for (size_t i = 0; i < count; i++) {
        const char *piece = pieces[one_in(20) ? number_below(18) : number_below(14)];
        size_t size = strlen(piece);
        memcpy(bytes + length, piece, size);
        length += size;
    }
    return length;
}

static uint32_t random_number(void)
{
    static const uint32_t odd[] = { 0, 1, 0x7fffffff, 0x80000000, 0xfffffffe, 0xffffffff, 0x110000, 65536, 1000000 };
    return one_in(12) ? odd[number_below(9)] : number_below(one_in(4) ? 300 : 5);
}

static uint32_t random_place(void)
{
    return one_in(10) ? random_number() : 1 + number_below(40);
}

/* A line: an op as JSON, mostly right. */
static size_t random_line(void)
{
    static const char *const lines[] = {
        "{\"op\":\"redisplay\"}", "{\"op\":\"redisplay\",\"stop\":2}", "{\"op\":\"type\",\"text\":\"line\\n\"}",
        "{\"op\":\"insert_raw\",\"buffer\":\"main\",\"pos\":1,\"bytes\":[200,255]}", "{\"op\":\"go\",\"window\":0,\"side\":\"right\"}",
        "{\"op\":\"add_spec\",\"kind\":\"space\",\"width\":4}", "{\"op\":\"add_table\",\"truncation\":\"<\"}", "{\"op\":\"nothing\"}", "{", "[]", "", " \t\r",
        "{\"op\":\"scroll\",\"window\":0,\"rows\":3,\"more\":1}", "{\"op\":\"frame\",\"width\":40}", "{\"op\":\"frame\",\"width\":40,\"height\":10}",
        "{\"op\":\"add_string\",\"text\":\"ab\",\"runs\":[{\"from\":0,\"to\":1,\"face\":0}]}", "\xff\xfe"
    };
    if (one_in(200)) {
        memset(bytes, ' ', 1048577);
        return 1048577;
    }
    const char *line = lines[number_below(sizeof lines / sizeof *lines)];
    memcpy(bytes, line, strlen(line));
    return strlen(line);
}

static const uint8_t *text_at(size_t length)
{
    return length > 0 || one_in(2) ? bytes : NULL;
}

/* ---- what can be read back ---- */

static uint64_t mixed(uint64_t sum, uint64_t value)
{
    return (sum ^ value) * 1099511628211u;
}

/* A sum over what can be read back of a session, other than its last status. */
static uint64_t sum_of(redisplay *session)
{
    static uint8_t text[4096];
    uint64_t sum = 14695981039346656037u;
    uint32_t count = 0, value = 0;
    redisplay_place place = { 0, 0 };
    redisplay_window window;
    redisplay_text given;
    size_t length = 0;
    redisplay_get_frame(session, &place);
    sum = mixed(mixed(sum, place.row), place.column);
    if (redisplay_get_cursor(session, &place) == REDISPLAY_DONE)
        sum = mixed(mixed(sum, place.row), place.column);
    redisplay_get_selected(session, &value);
    redisplay_get_windows(session, &count);
    sum = mixed(mixed(sum, value), count);
    for (uint32_t i = 0; i < count; i++) {
        if (redisplay_get_window(session, i, &window) != REDISPLAY_DONE)
            fail("get_window", i);
        sum = mixed(mixed(mixed(sum, window.number), window.buffer), window.row);
        sum = mixed(mixed(mixed(sum, window.column), window.height), window.width);
        sum = mixed(mixed(mixed(sum, window.start), window.start_row), window.point);
        sum = mixed(mixed(mixed(sum, window.cursor_row), window.cursor_column), window.selected);
    }
    redisplay_get_buffers(session, &count);
    for (uint32_t i = 0; i < count; i++) {
        if (redisplay_get_length(session, i, &value) != REDISPLAY_DONE)
            fail("get_length", i);
        if (redisplay_get_text(session, i, 1, value + 1, text, sizeof text, &given) != REDISPLAY_DONE)
            fail("get_text", i);
        sum = mixed(mixed(sum, value), given.bytes);
        for (size_t at = 0; at < given.bytes; at += 17)
            sum = mixed(sum, text[at]);
    }
    for (uint32_t row = 0; row < 8; row++)
        if (redisplay_get_row_text(session, row, text, sizeof text, &length) == REDISPLAY_DONE)
            for (size_t at = 0; at < length; at++)
                sum = mixed(sum, text[at]);
    return mixed(sum, redisplay_pending(session));
}

/* ---- the calls ---- */

static int is_op_status(uint32_t status)
{
    return status == REDISPLAY_DONE || status == REDISPLAY_NO_MEMORY || status == REDISPLAY_BAD_TEXT || status == REDISPLAY_BAD_ARGUMENT ||
           (status >= REDISPLAY_NO_BUFFER && status <= REDISPLAY_NOT_SHOWN);
}

static int is_line_status(uint32_t status)
{
    return status == REDISPLAY_DONE || status == REDISPLAY_NO_MEMORY || status == REDISPLAY_STOPPED ||
           (status >= REDISPLAY_NOT_JSON && status <= REDISPLAY_TOO_LONG) || (status >= REDISPLAY_NO_BUFFER && status <= REDISPLAY_NOT_SHOWN);
}

static uint32_t call_op(redisplay *s, uint32_t which)
{
    size_t length = 0;
    redisplay_face face = { sizeof face, REDISPLAY_NONE, number_below(10), one_in(2), one_in(2), one_in(2), 0 };
    if (one_in(10))
        face.size = random_number();
    if (one_in(2))
        face.foreground = number_below(8);
    switch (which) {
    case 0: return redisplay_frame(s, one_in(5) ? random_number() : 12 + number_below(60), one_in(5) ? random_number() : 2 + number_below(20));
    case 1: return length = random_text(), redisplay_buffer(s, text_at(length), length);
    case 2: case 3: return length = random_text(), redisplay_insert(s, random_number(), random_place(), text_at(length), length);
    case 4: case 5: return length = random_text(), redisplay_type(s, text_at(length), length);
    case 6: return redisplay_delete(s, random_number(), random_place(), random_place());
    case 7: return redisplay_narrow(s, random_number(), random_place(), random_place());
    case 8: return redisplay_widen(s, random_number());
    case 9: return redisplay_setting(s, random_number(), number_below(11), random_number());
    case 10: return redisplay_put(s, random_number(), random_place(), random_place(), number_below(8), random_number());
    case 11: return redisplay_overlay(s, random_number(), random_place(), random_place(), (int32_t)random_number(), one_in(2), one_in(2));
    case 12: return redisplay_overlay_move(s, random_number(), random_number(), random_place(), random_place());
    case 13: return redisplay_overlay_put(s, random_number(), random_number(), number_below(9), random_number());
    case 14: return redisplay_overlay_drop(s, random_number(), random_number());
    case 15: return redisplay_add_face(s, &face);
    case 16: return length = random_text(), redisplay_add_string(s, text_at(length), length);
    case 17: return redisplay_split(s, random_number(), number_below(4), random_number());
    case 18: return redisplay_remove(s, random_number());
    case 19: return redisplay_select(s, random_number());
    case 20: return redisplay_show(s, random_number(), random_number());
    case 21: return redisplay_point(s, random_number(), random_place());
    case 22: return redisplay_start(s, random_number(), random_place(), random_number());
    case 23: return redisplay_scroll(s, random_number(), (int32_t)random_number());
    case 24: return redisplay_hscroll(s, random_number(), random_number());
    case 25: return redisplay_wrap(s, random_number(), number_below(4));
    case 26: return length = random_text(), redisplay_mode_line(s, random_number(), text_at(length), length);
    case 27: return redisplay_no_mode_line(s, random_number());
    case 28: return redisplay_margin(s, random_number(), random_number(), random_number());
    case 29: return redisplay_scrolling(s, random_number(), random_number());
    case 30: return length = random_text(), redisplay_echo(s, text_at(length), length);
    case 31: return redisplay_shift(s, one_in(2));
    case 32: return redisplay_go(s, random_number(), number_below(4));
    default: return redisplay_hit(s, random_number(), random_number(), random_number());
    }
}

static uint32_t call_get(redisplay *s, uint32_t which)
{
    static redisplay_cell cells[500];
    static uint8_t out[300];
    uint32_t number;
    size_t length;
    redisplay_place place;
    redisplay_window window;
    redisplay_spot spot;
    redisplay_text given;
    size_t room = one_in(5) ? 0 : number_below(sizeof out);
    uint8_t *to = room > 0 || one_in(2) ? out : NULL;
    switch (which) {
    case 0: return redisplay_get_frame(s, &place);
    case 1: return redisplay_get_cursor(s, &place);
    case 2: return redisplay_get_windows(s, &number);
    case 3: return redisplay_get_window(s, random_number(), &window);
    case 4: return redisplay_get_selected(s, &number);
    case 5: return redisplay_get_buffers(s, &number);
    case 6: return redisplay_get_buffer_name(s, random_number(), to, room, &length);
    case 7: return redisplay_get_length(s, random_number(), &number);
    case 8: return redisplay_get_text(s, random_number(), random_place(), random_place(), to, room, &given);
    case 9: return redisplay_get_row(s, random_number(), cells, number_below(500), &length);
    case 10: return redisplay_get_row_text(s, random_number(), to, room, &length);
    default: return redisplay_get_under(s, random_number(), random_number(), &spot);
    }
}

static void open_one(redisplay *s, int was_open)
{
    static const char classes[] = "0041;A;;;L\n05D0;, First>;;;R\n05EA;, Last>;;;R\n", bad[] = "0041;A;;;L\n0040;A;;;L\n";
    redisplay_bad_data told = { 9, 9, 9 };
    const char *text = one_in(4) ? bad : classes;
    int is_builtin = one_in(3);
    uint32_t status = is_builtin ? redisplay_open_unicode(s)
                                 : redisplay_open(s, (const uint8_t *)text, strlen(text), NULL, 0, NULL, 0, &told);
    if (was_open ? status != REDISPLAY_IS_OPEN : status == REDISPLAY_IS_OPEN)
        fail("open", status);
    if (!was_open && !is_builtin && text == bad && status != REDISPLAY_NO_MEMORY &&
        (status != REDISPLAY_BAD_DATA || told.file != 0 || told.line != 2 || told.kind != 4))
        fail("open of bad data", status);
}

static void change_one(redisplay *s, int was_open)
{
    uint64_t before = sum_of(s);
    int is_line = one_in(4);
    size_t length = is_line ? random_line() : 0;
    uint32_t which = number_below(34);
    uint32_t status = is_line ? redisplay_line(s, text_at(length), length).status : call_op(s, which);
    const char *name = is_line ? "line" : "op";
    if (!was_open) {
        if (status != REDISPLAY_NOT_OPEN)
            fail(name, status);
        return;
    }
    if (is_line ? !is_line_status(status) : !is_op_status(status))
        fail(name, status);
    if (redisplay_fault(s) != status)
        fail("fault", redisplay_fault(s));
    if (status != REDISPLAY_DONE && status != REDISPLAY_STOPPED && !(is_line && status == REDISPLAY_NO_MEMORY) && sum_of(s) != before)
        fail("a refused call changed the session", status);
}

static void update_one(redisplay *s, int was_open)
{
    redisplay_shown shown = one_in(2) ? redisplay_update(s) : redisplay_update_rows(s, number_below(6));
    int is_known = shown.status == REDISPLAY_DONE || shown.status == REDISPLAY_STOPPED || shown.status == REDISPLAY_NO_MEMORY;
    if (was_open ? !is_known : shown.status != REDISPLAY_NOT_OPEN)
        fail("update", shown.status);
}

static void fetch_one(redisplay *s)
{
    static uint8_t out[600];
    size_t pending = redisplay_pending(s), room = number_below(sizeof out), count = redisplay_fetch(s, room > 0 ? out : NULL, room);
    if (count != (pending < room ? pending : room) || redisplay_pending(s) != pending - count)
        fail("fetch", (uint32_t)count);
}

static void get_one(redisplay *s, int was_open)
{
    uint32_t status = call_get(s, number_below(12));
    if (was_open ? status != REDISPLAY_DONE && status != REDISPLAY_NOT_THERE : status != REDISPLAY_NOT_OPEN)
        fail("get", status);
}

static void fault_one(redisplay *s, int was_open)
{
    static uint8_t out[64];
    size_t room = number_below(sizeof out), length = redisplay_fault_text(s, room > 0 ? out : NULL, room);
    if (length > room || (!was_open && redisplay_fault(s) != REDISPLAY_NOT_THERE))
        fail("fault_text", (uint32_t)length);
}

static void call_one(redisplay *s)
{
    int was_open = s->is_open;
    uint32_t kind = number_below(100);
    if (one_in(10))
        heap.refuse_at = heap.allocations + 1 + number_below(20);
    if (kind < 70)
        change_one(s, was_open);
    else if (kind < 80)
        update_one(s, was_open);
    else if (kind < 87)
        fetch_one(s);
    else if (kind < 94)
        get_one(s, was_open);
    else if (kind < 96)
        fault_one(s, was_open);
    else if (kind < 99)
        open_one(s, was_open);
    else if (one_in(3))
        redisplay_close(s);
    heap.refuse_at = 0;
}

int main(int argc, char **argv)
{
    if (argc != 3)
        return 8;
    seed = strtoul(argv[1], NULL, 10);
    state = seed * 2862933555777941757u + 3037000493u;
    unsigned long calls = strtoul(argv[2], NULL, 10);
    for (call_number = 1; call_number <= calls; call_number++)
        call_one(&sessions[number_below(SESSIONS)]);
    for (int i = 0; i < SESSIONS; i++) {
        redisplay_close(&sessions[i]);
        redisplay_close(&sessions[i]);
        if (sessions[i].is_open)
            fail("close", 0);
    }
    if (heap.blocks != 0)
        fail("blocks are left", (uint32_t)heap.blocks);
    printf("seed %lu: %lu calls, %ld allocations, %ld of them refused\n", seed, calls, heap.allocations, heap.refused);
    return 0;
}
