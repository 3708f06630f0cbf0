/* hb_controller_start, _send and _hear: runs by hand, every status and many made-up states, and random runs on random books, good, damaged and
 * altered between steps, against the reader of stored.c and a controller that stands here (the header has its rules). controllers.rs tries others,
 * against another model. */
#include "stored.h"

enum { RUNNING, DONE, STOPPED };

/* ---- a controller a second time */

/* What a book is to the controller: why it is refused, or its frames in the order of their places. */
static struct {
    uint32_t fault;
    size_t count;
    held frames[SETTINGS];
} content;

/* The frame that begins where the one before it ends. */
static void read_next(const uint8_t *book, size_t at) {
    held *next = &content.frames[content.count++];
    for (const row *r = rows; r < rows + KINDS; r++)
        if (slot(r->kind) >= 0 && offset_of(book, r->kind) == at) *next = (held){.kind = r->kind, .len = r->len};
    memcpy(next->bytes, book + at, next->len);
}

static void read_content(const uint8_t *book, size_t n) {
    content.fault = fault(book, n);
    content.count = 0;
    if (content.fault) return;
    for (size_t at = START; content.count < book[1]; at += content.frames[content.count - 1].len) read_next(book, at);
}

/* Nothing is left to do in any state but a running one, nor there if it has more frames sent than there are, or there are none. */
static bool is_over(hb_controller state) {
    return state.outcome != RUNNING || !content.count || state.count > content.count;
}

/* Bits 11 to 9 of a status say Ok by 2 and Data by 3; a byte that is missing is 0. */
static bool is_good(const uint8_t *status, size_t n) {
    unsigned bits = n ? status[0] >> 1 & 7 : 0;
    return bits == 2 || bits == 3;
}

static hb_control started(void) {
    return (hb_control){content.fault, 0, {content.fault || !content.count ? DONE : RUNNING, 0}};
}

static hb_sending sent(hb_controller state) {
    hb_sending right = {.refusal = content.fault, .over = !content.fault && is_over(state)};
    if (content.fault || right.over || state.count == content.count) return right;
    right.len = content.frames[state.count].len;
    memcpy(right.bytes, content.frames[state.count].bytes, right.len);
    return right;
}

static hb_control heard(hb_controller state, const uint8_t *status, size_t n) {
    hb_controller next = {RUNNING, state.count + 1};
    if (state.count == content.count) next = (hb_controller){DONE, 0};
    /* The status judges the frame before the one that it came back with, and the first judges none. */
    if (state.count && !is_good(status, n)) next = (hb_controller){STOPPED, state.count};
    return (hb_control){content.fault, 0, content.fault || is_over(state) ? state : next};
}

/* ---- calls on a lent book */

static const uint8_t *book;
static size_t size;

/* How often each came: a state's outcome behind a hear, over and the final read of a send, and refusals. */
static struct {
    uint64_t outcomes[3], over, reads, refused[17], kept, made_up;
} met;

/* The book from here on; it stays lent until the next. */
static void on(const uint8_t *bytes, size_t n) {
    lent = 0;
    book = n ? lend_const(bytes, n) : NULL;
    size = n;
    read_content(bytes, n);
}

static void same_control(hb_control got, hb_control right) {
    same("refusal", got.refusal, right.refusal);
    same("place", got.place, right.place);
    same("outcome", got.state.outcome, right.state.outcome);
    same("count", got.state.count, right.state.count);
}

static hb_controller start(void) {
    hb_control right = started(), got = hb_controller_start(book, size);
    same_control(got, right);
    met.refused[right.refusal]++;
    return got.state;
}

static hb_sending sends(hb_controller state) {
    hb_sending right = sent(state), got = hb_controller_send(book, size, state);
    same("refusal", got.refusal, right.refusal);
    same("place", got.place, right.place);
    same("over", got.over, right.over);
    same("length", got.len, right.len);
    same_bytes(got.bytes, right.bytes, 12, 12);
    met.refused[right.refusal]++;
    met.over += right.over;
    met.reads += !right.refusal && !right.over && !right.len;
    return got;
}

/* A status of no bytes is null. */
static hb_controller hears(hb_controller state, const uint8_t *status, size_t n) {
    hb_control right = heard(state, status, n), got = hb_controller_hear(book, size, state, n ? lend_const(status, n) : NULL, n);
    if (n) lent--;
    same_control(got, right);
    met.refused[right.refusal]++;
    if (right.state.outcome < 3) met.outcomes[right.state.outcome]++;
    met.kept += is_over(state);
    met.made_up += state.outcome > STOPPED || (state.outcome == RUNNING && state.count > content.count);
    return got.state;
}

static hb_controller steps(hb_controller state, const uint8_t *status, size_t n) {
    sends(state);
    return hears(state, status, n);
}

/* ---- by hand */

/* A book of these frames, in as many bytes as it takes. */
static void on_list(void) {
    static uint8_t bytes[LONGEST];
    written(bytes, end_of_list());
    on(bytes, end_of_list());
}

static void short_list(void) {
    list.count = 0;
    add(26, "02 01 01 04"), add(24, "02 00 33 BE 27 A0");
    on_list();
}

/* A run by these statuses ends so, and has sent these frames, which is told in words. */
static void runs(const char *statuses, const char *frames, uint64_t outcome, uint64_t count) {
    uint8_t status[16], right[16], out[16];
    size_t n = hex(statuses, status), len = 0;
    trying("a run", statuses, count);
    hb_controller state = start();
    for (size_t i = 0; i < n; i += 2) {
        hb_sending s = sends(state);
        memcpy(out + len, s.bytes, s.len);
        len += s.len;
        state = hears(state, status + i, 2);
    }
    same("outcome", state.outcome, outcome);
    same("count", state.count, count);
    same("bytes sent", len, hex(frames, right));
    same_bytes(out, right, len, len);
}

static void by_hand(void) {
    short_list();
    runs("", "", RUNNING, 0);
    runs("04 00", "02 01 01 04", RUNNING, 1);
    runs("04 00 06 00", "02 01 01 04 02 00 33 BE 27 A0", RUNNING, 2);
    runs("04 00 06 00 F5 FF", "02 01 01 04 02 00 33 BE 27 A0", DONE, 0);
    /* The first status judges nothing, each later one the frame before. */
    runs("00 00 05 00 07 00", "02 01 01 04 02 00 33 BE 27 A0", DONE, 0);
    runs("04 00 00 00", "02 01 01 04 02 00 33 BE 27 A0", STOPPED, 1);
    runs("04 00 04 00 02 00", "02 01 01 04 02 00 33 BE 27 A0", STOPPED, 2);
    runs("02 00 08 00", "02 01 01 04 02 00 33 BE 27 A0", STOPPED, 1);
    /* What comes behind the end changes nothing. */
    runs("04 00 0E 00 04 00", "02 01 01 04 02 00 33 BE 27 A0", STOPPED, 1);
    runs("04 00 04 00 04 00 00 00", "02 01 01 04 02 00 33 BE 27 A0", DONE, 0);
    list.count = 0;
    on_list();
    runs("", "", DONE, 0);
    runs("00 00", "", DONE, 0);
}

/* ---- states, statuses and buffers */

/* A state of each outcome and each count, also numbers whose low bytes are of another. */
static void every_state(void) {
    const uint64_t outcomes[] = {0, 1, 2, 3, 7, 255, 256, (uint64_t)1 << 32, (uint64_t)1 << 63, UINT64_MAX};
    const uint64_t counts[] = {0, 1, 2, 3, 4, 256, 257, 65537, (uint64_t)1 << 31, ((uint64_t)1 << 32) + 1, (uint64_t)1 << 63, UINT64_MAX - 1, UINT64_MAX};
    trying("hb_controller_start", "length", size);
    start();
    for (size_t i = 0; i < sizeof outcomes / sizeof *outcomes; i++)
        for (size_t j = 0; j < sizeof counts / sizeof *counts; j++) {
            hb_controller state = {outcomes[i], counts[j]};
            trying("a state", "places of its numbers in every_state", 100 * i + j);
            steps(state, (const uint8_t *)"\4\0", 2);
            hears(state, NULL, 0);
        }
}

/* In a good book, an empty one, a damaged one, one with both forms, and buffers that are no book's. */
static void states(void) {
    static uint8_t bytes[LONGEST];
    const size_t wrong[] = {0, 1, START - 1, MOST + 1, LONGEST};
    short_list();
    every_state();
    written(bytes, sizeof bytes);
    bytes[0]++;
    on(bytes, START + 10);
    every_state();
    for (size_t i = 0; i < sizeof wrong / sizeof *wrong; i++) {
        on(bytes, wrong[i]);
        every_state();
    }
    add(25, "02 01 00");
    on_list();
    every_state();
    list.count = 0;
    on_list();
    every_state();
}

/* Every first byte of a status, in each of its lengths, with none of the frames sent, one and all. */
static void statuses(void) {
    short_list();
    for (unsigned high = 0; high < 256; high++)
        for (unsigned rest = 0; rest < 256; rest += 255)
            for (size_t n = 0; n < 5; n++)
                for (uint64_t count = 0; count < 3; count++) {
                    const uint8_t status[] = {high, rest, 255 - high, rest};
                    trying("hb_controller_hear", "status", high << 8 | rest);
                    hears((hb_controller){RUNNING, count}, status, n);
                }
}

/* A good book in buffers of many lengths; and all settings at once, with a stop at each place. */
static void buffers(void) {
    static uint8_t bytes[LONGEST];
    short_list();
    written(bytes, sizeof bytes);
    for (size_t n = 0; n <= sizeof bytes; n += n == START + 40 ? MOST - START - 60 : 1) {
        trying("a controller", "length", n);
        on(bytes, n);
        start();
        steps((hb_controller){RUNNING, 1}, (const uint8_t *)"\2\0", 2);
    }
    list.count = 0;
    for (const row *r = rows; r < rows + KINDS; r++)
        if (r->used == SETTING || r->used == LONGER) add(r->kind, r->other);
    on_list();
    same("length of a full book", size, FULL);
    hb_controller state = start();
    for (size_t i = 0; i <= MOST_FRAMES + 1; i++) {
        trying("a full book", "frames sent", i);
        steps(state, NULL, 0);
        state = hears(state, (const uint8_t *)"\6\0", 2);
    }
    same("outcome", state.outcome, DONE);
}

/* ---- random runs */

/* A random number, and none of the other tests'. */
static uint64_t some(void) {
    static uint64_t state = 808;
    return next_of(&state);
}

/* Most are good, and most have two bytes. Tells how many it has. */
static size_t any_status(uint8_t *status) {
    static const uint8_t lengths[] = {2, 2, 2, 2, 2, 2, 2, 2, 1, 1, 3, 4, 4, 2, 2, 0};
    size_t n = lengths[some() % 16];
    for (size_t i = 0; i < 4; i++) status[i] = some();
    if (some() % 8) status[0] = (status[0] & 0xF1) | (4 + 2 * (some() % 2));
    return n;
}

/* A state that no call gave, with numbers of any size. */
static hb_controller any_state(void) {
    uint64_t near = some() % (content.count + 3), far = some() >> some() % 64;
    return (hb_controller){some() % 4 ? some() % 3 : some() >> some() % 64, some() % 2 ? near : far};
}

/* The book between two steps: a frame more, one less, in another order, none, or other bytes. */
static void alter(uint8_t *bytes) {
    switch (some() % 6) {
    case 0: list.count = 0; break;
    case 1: shuffle(some); break;
    case 2: add_any(some, &rows[some() % KINDS]); break;
    default: list.count -= list.count > 0; break;
    }
    on(bytes, any_buffer(some, bytes));
}

static void any_run(void) {
    static uint8_t bytes[LONGEST + 1];
    uint8_t status[4];
    bool is_quiet = some() % 2;
    list.count = 0;
    for (size_t more = some() % 2 ? some() % 6 : some() % 60; more > 0; more--) add_any(some, &rows[some() % KINDS]);
    shuffle(some);
    on(bytes, any_buffer(some, bytes));
    trying("a random run", "length of the book", size);
    hb_controller state = start();
    for (size_t left = content.count + 1 + some() % 3; left > 0; left--) {
        size_t n = any_status(status);
        if (!is_quiet && some() % 8 == 0) alter(bytes);
        if (!is_quiet && some() % 8 == 0) steps(any_state(), status, n);
        state = steps(state, status, n);
        if (state.outcome != RUNNING && some() % 4) break;
    }
    same_bytes(book, bytes, size, size);
}

static void often(const char *what, uint64_t times) {
    trying("random runs", what, times);
    same("whether it came often", times > 500, 1);
}

static void random_runs(void) {
    memset(&met, 0, sizeof met);
    for (unsigned i = 0; i < 10000; i++) any_run();
    often("running", met.outcomes[RUNNING]);
    often("done", met.outcomes[DONE]);
    often("stopped", met.outcomes[STOPPED]);
    often("over", met.over);
    often("the final read", met.reads);
    often("a state that stays", met.kept);
    often("a state that is made up", met.made_up);
    often("refusal 10", met.refused[10]);
    often("refusal 11", met.refused[11]);
    often("refusal 16", met.refused[16]);
}

void test_controllers(void) {
    by_hand();
    states();
    statuses();
    buffers();
    random_runs();
    lent = 0;
    test_rust_controllers();
}
