/* The settings book, against a plain list: after every call the whole buffer has to be what a list has (REFERENCE, "Book"). */
#include "link.h"

typedef struct {
    uint64_t kind;
    size_t len;
    uint8_t bytes[12];
} held;

static held list[SETTINGS + 1];
static size_t count, size;
static uint8_t book[4097], reel[HB_REPLAY_MAX];

static size_t found(uint64_t kind) {
    size_t at = 0;
    while (at < count && list[at].kind != kind) at++;
    return at;
}

static size_t end_of(void) {
    size_t end = START;
    for (size_t i = 0; i < count; i++) end += list[i].len;
    return end;
}

/* The bytes that the list has in a buffer of that size. */
static void written(uint8_t *to) {
    const uint8_t head[] = {VERSION, count, end_of() >> 8, end_of()};
    size_t at = START;
    memcpy(memset(to, 0, size), head, sizeof head);
    for (size_t i = 0; i < count; at += list[i++].len) {
        to[4 + 2 * slot(list[i].kind)] = at >> 8;
        to[5 + 2 * slot(list[i].kind)] = at;
        memcpy(to + at, list[i].bytes, list[i].len);
    }
}

static void is_the_list(void) {
    uint8_t wanted[4096];
    written(wanted);
    same_bytes(book, wanted, size, size);
}

/* A call that may alter the book, on a buffer lent for it: make, put, remove, clear. */
static hb_answer change(char which, uint64_t kind, const uint8_t *frame, size_t len) {
    uint8_t *b = memcpy(lend(size), book, size);
    const uint8_t *f = which == 'p' ? lend_const(frame, len) : NULL;
    hb_answer a = which == 'm' ? hb_book_make(b, size) : which == 'p' ? hb_book_put(b, size, f, len)
        : which == 'r' ? hb_book_remove(b, size, kind) : hb_book_clear(b, size);
    memcpy(book, b, size);
    lent -= which == 'p' ? 2 : 1;
    return a;
}

/* Ask for a kind, or replay for kind 0, into outputs that are null, too short by one, exact, and longer. */
static void reads(uint64_t kind, uint32_t refusal, const uint8_t *wanted, size_t len) {
    const size_t rooms[] = {0, len ? len - 1 : 0, len, len + 7};
    for (size_t i = 0; i < 4; i++) {
        size_t room = rooms[i];
        uint32_t why = refusal ? refusal : room < len ? 12 : 0;
        const uint8_t *b = lend_const(book, size);
        uint8_t *out = room ? lend(room) : NULL;
        trying(kind ? "hb_book_ask" : "hb_book_replay", "kind", kind);
        same_answer(kind ? hb_book_ask(b, size, kind, out, room) : hb_book_replay(b, size, out, room), why, 0, why ? 0 : len);
        same_bytes(out, wanted, why ? 0 : len, room);
        lent -= room ? 2 : 1;
    }
}

/* The calls as the list has them. */
static void make(size_t n) {
    size = n;
    count = 0;
    memset(book, FILL, sizeof book);
    trying("hb_book_make", "size", n);
    same_answer(change('m', 0, NULL, 0), 0, 0, 0);
    is_the_list();
}

static held frame_of(uint64_t kind, const char *text) {
    held h = {kind, 0, {0}};
    h.len = hex(text, h.bytes);
    return h;
}

/* A setting that is held, in this form or in the other, keeps its place. */
static void put(uint64_t kind, const char *frame) {
    held h = frame_of(kind, frame);
    size_t at = found(kind) < count ? found(kind) : found(other_form(kind));
    size_t end = end_of() - (at < count ? list[at].len : 0) + h.len;
    trying("hb_book_put", frame, size);
    uint32_t refusal = slot(kind) < 0 ? 13 : end > size ? 8 : 0;
    same_answer(change('p', 0, h.bytes, h.len), refusal, 0, 0);
    if (!refusal) list[at] = h;
    if (!refusal && at == count) count++;
    is_the_list();
}

static uint32_t lacks(uint64_t kind) {
    return slot(kind) < 0 ? 13 : found(kind) == count ? 9 : 0;
}

static void take_out(uint64_t kind) {
    uint32_t refusal = lacks(kind);
    trying("hb_book_remove", "kind", kind);
    same_answer(change('r', kind, NULL, 0), refusal, 0, 0);
    if (!refusal) count--;
    for (size_t at = found(kind); !refusal && at < count; at++) list[at] = list[at + 1];
    is_the_list();
}

static void ask(uint64_t kind) {
    reads(kind, lacks(kind), list[found(kind)].bytes, lacks(kind) ? 0 : list[found(kind)].len);
}

/* The replay is the list as a reel: its bytes, and what hb_reel_step, hb_decode and hb_dump read in it. */
static void replay(void) {
    uint8_t *text = lend(4096);
    size_t len = 0, lines = 0;
    uint64_t at = 0;
    for (size_t i = 0; i < count; len += list[i++].len + 1) {
        reel[len] = list[i].len;
        memcpy(reel + len + 1, list[i].bytes, list[i].len);
    }
    reads(0, 0, reel, len);
    for (size_t i = 0; i < count; i++) {
        hb_step s = hb_reel_step(reel, len, at);
        same("kind in the replay", hb_decode(reel + s.start, s.end - s.start).kind, list[i].kind);
        at = s.next;
    }
    same("end of the replay", hb_reel_step(reel, len, at).ended, 1);
    hb_answer a = hb_dump(reel, len, text, 4096);
    for (size_t i = 0; i < a.value; i++) lines += text[i] == '\n';
    same("lines of the replay", lines, count);
    lent--;
}

/* Any kind; every third time one of two forms. */
static const row *any_row(void) {
    uint64_t way = any(), which = way / 3;
    return way % 3 ? &rows[which % KINDS] : shorter_form(which % PAIRS) + which / PAIRS % 2;
}

static void history(size_t n) {
    make(n);
    for (unsigned i = 0; i < 400; i++) {
        const row *r = any_row();
        uint64_t way = any() % 64;
        if (way < 40) put(r->kind, way % 2 ? r->frame : r->other);
        else if (way < 52) take_out(r->kind);
        else if (way < 59) ask(r->kind);
        else if (way < 63) replay();
        else {
            count = 0;
            trying("hb_book_clear", "size", n);
            same_answer(change('c', 0, NULL, 0), 0, 0, 0);
            is_the_list();
        }
    }
}

/* The reference's example; a full book takes an overwrite; what is put again stands at the end. */
static void examples(void) {
    make(START);
    replay();
    put(4, "02 23 34");
    same("count, for there is no room", book[1], 0);
    make(START + 3);
    put(4, "02 23 34");
    same("byte 1", book[1], 1);
    same("bytes 2-3", book[2] << 8 | book[3], START + 3);
    same("bytes 10-11", book[10] << 8 | book[11], START);
    make(HB_BOOK_ALL - 1);
    for (size_t i = 0; i < KINDS; i++) put(rows[i].kind, rows[i].frame);
    same("count, for there is no room for the last kind", book[1], MOST_FRAMES - 1);
    make(HB_BOOK_ALL);
    for (size_t i = 0; i < KINDS; i++) put(rows[i].kind, rows[i].frame);
    same("count", book[1], MOST_FRAMES);
    same("end", book[2] << 8 | book[3], FULL);
    for (size_t i = 0; i < KINDS; i++) put(rows[i].kind, rows[i].other);
    const row *last = &rows[KINDS - 1];
    while (last->used == ACTION) last--;
    const uint8_t *offset = book + 4 + 2 * slot(last->kind);
    take_out(last->kind);
    put(last->kind, last->frame);
    same("offset of the last kind", offset[0] << 8 | offset[1], FULL - last->len);
    replay();
    same("the replay's length", hb_book_replay(book, size, reel, sizeof reel).value, FULL_REPLAY);
}

/* Each form in the place of the other, first, in the middle and last, in a buffer that the longer one fills and in one that is a byte shorter. */
static void swaps(void) {
    for (size_t i = 0; i < PAIRS * 3 * 2; i++) {
        const row *shorter = shorter_form(i / 6), *longer = shorter + 1, *others[] = {&rows[3], &rows[23]};
        size_t place = i / 2 % 3, lacks = i % 2;
        make(START + 3 + 6 + longer->len - lacks);
        for (size_t j = 0; j < 3; j++) {
            const row *r = j == place ? shorter : others[j - (j > place)];
            put(r->kind, r->frame);
        }
        put(longer->kind, longer->frame);
        same("kind at its place", list[place].kind, lacks ? shorter->kind : longer->kind);
        ask(shorter->kind);
        ask(longer->kind);
        take_out(lacks ? longer->kind : shorter->kind);
        put(shorter->kind, shorter->other);
        put(longer->kind, longer->other);
        replay();
    }
}

/* The receive path with its boost, the frequency, the path without the boost, and with it again: it is sent once, where it first stood. */
static void technician(void) {
    make(START + 10);
    put(HB_SET_RX_PATH_ADV, "02 01 01 04");
    put(HB_SET_RF_FREQUENCY, "02 00 33 BE 27 A0");
    put(HB_SET_RX_PATH, "02 01 01");
    put(HB_SET_RX_PATH_ADV, "02 01 01 07");
    reads(0, 0, reel, hex("04 02 01 01 07 06 02 00 33 BE 27 A0", reel));
}

/* Every call but make is refused, whatever else is wrong with it, and alters nothing. */
static void refuses_all(uint32_t refusal) {
    uint8_t before[4097];
    memcpy(before, book, size);
    same_answer(change('p', 0, (const uint8_t *)"\x02", 1), refusal, 0, 0);
    same_answer(change('p', 0, (const uint8_t *)"\x02\x23\x34", 3), refusal, 0, 0);
    same_answer(change('r', 4, NULL, 0), refusal, 0, 0);
    same_answer(change('r', 0, NULL, 0), refusal, 0, 0);
    same_answer(change('c', 0, NULL, 0), refusal, 0, 0);
    same_bytes(book, before, size, size);
    for (uint64_t kind = 0; kind <= 8; kind += 4) reads(kind, refusal, NULL, 0);
}

/* A stored book with both forms, in either order, and one that has another fault too. */
static void both_forms(void) {
    for (size_t i = 0; i < PAIRS * 2; i++) {
        const row *first = shorter_form(i / 2) + i % 2, *last = shorter_form(i / 2) + 1 - i % 2;
        make(START + 38);
        put(first->kind, first->frame);
        put(4, "02 23 34");
        held h = list[count++] = frame_of(last->kind, last->frame);
        written(book);
        trying("a book with both forms", "kind", first->kind);
        refuses_all(16);
        same_answer(change('p', 0, h.bytes, h.len), 16, 0, 0);
        same_answer(change('r', last->kind, NULL, 0), 16, 0, 0);
        is_the_list();
        reads(last->kind, 16, NULL, 0);
        book[0] = VERSION + 1;
        trying("a book with both forms, of another version", "kind", first->kind);
        refuses_all(10);
        same_answer(change('m', 0, NULL, 0), 0, 0, 0);
        count = 0;
        is_the_list();
    }
}

/* A stored book with a sync word of every length, in either order: up to 64 bits it opens, and beyond it is not well formed. */
static void sync_words(void) {
    for (unsigned last = 0; last < 256; last++) {
        make(START + 38);
        put(4, "02 23 34");
        put(20, "02 44 01 23 45 67 89 AB CD EF 40");
        put(25, "02 01 00");
        list[1].bytes[10] = book[START + 3 + 10] = last;
        trying("a book with a sync word", "last byte", last);
        if (last % 128 <= 64) {
            ask(20);
            replay();
            take_out(20);
        } else {
            refuses_all(10);
            same_answer(change('r', 20, NULL, 0), 10, 0, 0);
            reads(20, 10, NULL, 0);
            same_answer(change('m', 0, NULL, 0), 0, 0, 0);
            count = 0;
            is_the_list();
        }
    }
}

static void sizes(void) {
    const size_t bad[] = {0, 1, START - 1, 4097};
    for (size_t i = 0; i < 4; i++) {
        make(START); /* so that nothing but the size is wrong */
        size = bad[i];
        trying("a book of a bad size", "size", size);
        same_answer(change('m', 0, NULL, 0), 11, 0, 0);
        refuses_all(11);
    }
    trying("a book that is null", "", 0);
    same_answer(hb_book_make(NULL, 0), 11, 0, 0);
    same_answer(hb_book_put(NULL, 0, NULL, 0), 11, 0, 0);
    same_answer(hb_book_remove(NULL, 0, 4), 11, 0, 0);
    same_answer(hb_book_ask(NULL, 0, 4, NULL, 0), 11, 0, 0);
    same_answer(hb_book_clear(NULL, 0), 11, 0, 0);
    same_answer(hb_book_replay(NULL, 0, NULL, 0), 11, 0, 0);
}

/* A book with kinds 4 and 25 at START and START + 3, and one byte of it changed: version, count, end, offsets, frames, tail. */
static void tampered(void) {
    static const uint8_t bytes[][2] = {{0, 0}, {0, VERSION + 1}, {1, 0}, {1, 1}, {1, 3}, {2, 1}, {2, 255}, {3, START - 1}, {3, START + 5},
        {3, START + 7}, {5, START}, {10, 1}, {11, 0}, {11, 1}, {11, START + 3}, {43, 0}, {43, START}, {43, START + 4}, {START - 1, 255},
        {START, 3}, {START + 1, 0x28}, {START + 4, 15}, {START + 5, 2}, {START + 6, 1}, {START + 17, 128}};
    for (size_t i = 0; i < sizeof bytes / 2; i++) {
        make(START + 18);
        put(4, "02 23 34");
        put(25, "02 01 00");
        book[bytes[i][0]] = bytes[i][1];
        trying("a book not well formed", "byte", bytes[i][0]);
        refuses_all(10);
        same_answer(change('m', 0, NULL, 0), 0, 0, 0);
        count = 0;
        is_the_list();
    }
}

/* Frames and kinds that a good book refuses. */
static void refused(void) {
    static const struct {
        const char *frame;
        uint32_t refusal, place;
    } frames[] = {{"", 1, 0}, {"02", 1, 0}, {"03 23 34", 2, 0}, {"02 23", 3, 0}, {"02 22 00 80", 4, 3}, {"02 20 40 10", 5, 2},
        {"02 44 00 00 00 00 00 00 00 00 41", 5, 10}, {"02 10 00 00 00 00 00 00 08", 4, 8}, {"02 0C", 3, 0}, {"02 28", 13, 0}, {"02 0C 00 00 00", 13, 0}};
    const uint64_t kinds[] = {1, 8, 37, KINDS + 1, 255, 260, ((uint64_t)1 << 32) + 4, UINT64_MAX};
    make(START + 3);
    put(4, "02 23 34");
    for (size_t i = 0; i < sizeof frames / sizeof *frames; i++) {
        uint8_t bytes[16];
        trying("hb_book_put", frames[i].frame, 0);
        same_answer(change('p', 0, bytes, hex(frames[i].frame, bytes)), frames[i].refusal, frames[i].place, 0);
        is_the_list();
    }
    for (size_t i = 0; i < sizeof kinds / sizeof *kinds; i++) {
        take_out(kinds[i]);
        ask(kinds[i]);
    }
    take_out(0);
    trying("ask of kind 0; put of null", "", 0);
    same_answer(hb_book_ask(book, size, 0, NULL, 0), 13, 0, 0);
    same_answer(hb_book_put(book, size, NULL, 0), 1, 0, 0);
    is_the_list();
}

void test_books(void) {
    const size_t good[] = {START, START + 1, START + 3, START + 38, START + 98, FULL - 2, FULL - 1, FULL, 4095, 4096};
    examples();
    swaps();
    technician();
    sizes();
    both_forms();
    sync_words();
    tampered();
    refused();
    for (size_t i = 0; i < sizeof good / sizeof *good; i++) history(good[i]);
}
