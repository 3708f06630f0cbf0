/* Two sides on one book, against two plain lists: a side's answers and outputs have to be those of its own list, and the whole buffer that of
 * both lists in order of entry (REFERENCE, "Two sides"). */
#include "link.h"

typedef struct {
    uint64_t kind, entered;
    size_t len;
    uint8_t bytes[12];
} held;

/* A list and a quota for each side, 1 and 2; and the table with the number of its entries that are lent. */
static held lists[3][SETTINGS + 1];
static size_t counts[3], size, entries;
static uint64_t quotas[3], tried;
static uint8_t book[4097], owners[SLOTS + 1];

/* ---- the lists */

static size_t found(uint64_t side, uint64_t kind) {
    size_t at = 0;
    while (at < counts[side] && lists[side][at].kind != kind) at++;
    return at;
}

static size_t weight(uint64_t side) {
    size_t sum = 0;
    for (size_t i = 0; i < counts[side]; i++) sum += lists[side][i].len;
    return sum;
}

/* The side whose next frame came first. */
static unsigned earlier(const size_t *next) {
    if (next[1] == counts[1]) return 2;
    return next[2] == counts[2] || lists[1][next[1]].entered < lists[2][next[2]].entered ? 1 : 2;
}

/* The bytes that both lists have in a buffer of that size. */
static void written(uint8_t *to) {
    size_t next[3] = {0}, at = START;
    memset(to, 0, size);
    for (size_t i = counts[1] + counts[2]; i > 0; i--) {
        unsigned side = earlier(next);
        const held *h = &lists[side][next[side]++];
        to[4 + 2 * slot(h->kind)] = at >> 8;
        to[5 + 2 * slot(h->kind)] = at;
        memcpy(to + at, h->bytes, h->len);
        at += h->len;
    }
    const uint8_t head[] = {VERSION, counts[1] + counts[2], at >> 8, at};
    memcpy(to, head, sizeof head);
}

static void is_the_lists(void) {
    uint8_t wanted[4096];
    written(wanted);
    same_bytes(book, wanted, size, size);
}

/* ---- calls on lent buffers */

/* A fresh book of n bytes beside these quotas. */
static void fresh(size_t n, uint64_t quota1, uint64_t quota2) {
    size = n;
    quotas[1] = quota1;
    quotas[2] = quota2;
    counts[1] = counts[2] = 0;
    trying("hb_book_make", "size", n);
    same_answer(hb_book_make(book, n), 0, 0, 0);
}

/* A call that may alter the book: put, remove, clear. */
static hb_answer change(char which, uint64_t caller, uint64_t kind, const void *frame, size_t len) {
    uint8_t *b = memcpy(lend(size), book, size);
    const uint8_t *t = lend_const(owners, entries), *f = lend_const(frame, len);
    hb_answer a = which == 'p' ? hb_side_put(b, size, t, entries, quotas[1], quotas[2], caller, f, len)
        : which == 'r' ? hb_side_remove(b, size, t, entries, quotas[1], quotas[2], caller, kind)
                       : hb_side_clear(b, size, t, entries, quotas[1], quotas[2], caller);
    memcpy(book, b, size);
    lent -= 3;
    return a;
}

/* Ask for a kind, or replay for kind 0, into outputs that are null, too short by one, exact, and longer. */
static void reads(uint64_t caller, uint64_t kind, uint32_t refusal, const uint8_t *wanted, size_t len) {
    const size_t rooms[] = {0, len ? len - 1 : 0, len, len + 7};
    for (size_t i = 0; i < 4; i++) {
        size_t room = rooms[i];
        uint32_t why = refusal ? refusal : room < len ? 12 : 0;
        const uint8_t *b = lend_const(book, size), *t = lend_const(owners, entries);
        uint8_t *out = room ? lend(room) : NULL;
        trying(kind ? "hb_side_ask" : "hb_side_replay", "kind", kind);
        hb_answer a = kind ? hb_side_ask(b, size, t, entries, quotas[1], quotas[2], caller, kind, out, room)
                           : hb_side_replay(b, size, t, entries, quotas[1], quotas[2], caller, out, room);
        same_answer(a, why, 0, why ? 0 : len);
        same_bytes(out, wanted, why ? 0 : len, room);
        lent -= room ? 3 : 2;
    }
}

/* ---- the calls as a side's own list has them */

/* Why a call for a kind is refused whatever is held; the table is right. */
static uint32_t barred(uint64_t caller, uint64_t kind) {
    if (caller != 1 && caller != 2) return 17;
    return slot(kind) < 0 ? 13 : owners[slot(kind)] != caller ? 18 : 0;
}

static uint32_t lacks(uint64_t caller, uint64_t kind) {
    uint32_t refusal = barred(caller, kind);
    return refusal ? refusal : found(caller, kind) == counts[caller] ? 9 : 0;
}

/* A setting that is held, in this form or in the other, keeps its place. */
static uint32_t put(uint64_t caller, uint64_t kind, const char *frame) {
    held h = {kind, ++tried, 0, {0}}, *old = NULL;
    uint32_t refusal = barred(caller, kind);
    h.len = hex(frame, h.bytes);
    if (!refusal) {
        size_t at = found(caller, kind) < counts[caller] ? found(caller, kind) : found(caller, other_form(kind));
        old = &lists[caller][at];
        bool is_new = at == counts[caller];
        if (weight(caller) - (is_new ? 0 : old->len) + h.len > quotas[caller]) refusal = 8;
        else if (is_new) counts[caller]++;
        else h.entered = old->entered;
    }
    trying("hb_side_put", frame, caller);
    same_answer(change('p', caller, 0, h.bytes, h.len), refusal, 0, 0);
    if (!refusal) *old = h;
    is_the_lists();
    return refusal;
}

static uint32_t take_out(uint64_t caller, uint64_t kind) {
    uint32_t refusal = lacks(caller, kind);
    trying("hb_side_remove", "kind", kind);
    same_answer(change('r', caller, kind, "", 0), refusal, 0, 0);
    if (!refusal) {
        counts[caller]--;
        for (size_t at = found(caller, kind); at < counts[caller]; at++) lists[caller][at] = lists[caller][at + 1];
    }
    is_the_lists();
    return refusal;
}

static uint32_t ask(uint64_t caller, uint64_t kind) {
    uint32_t refusal = lacks(caller, kind);
    const held *h = refusal ? NULL : &lists[caller][found(caller, kind)];
    if (kind) reads(caller, kind, refusal, h ? h->bytes : NULL, h ? h->len : 0);
    return refusal;
}

static void clear(uint64_t caller) {
    bool is_side = caller == 1 || caller == 2;
    trying("hb_side_clear", "caller", caller);
    same_answer(change('c', caller, 0, "", 0), is_side ? 0 : 17, 0, 0);
    if (is_side) counts[caller] = 0;
    is_the_lists();
}

static void replay(uint64_t caller) {
    uint8_t reel[HB_REPLAY_MAX];
    size_t len = 0;
    bool is_side = caller == 1 || caller == 2;
    for (size_t i = 0; is_side && i < counts[caller]; len += lists[caller][i++].len + 1) {
        reel[len] = lists[caller][i].len;
        memcpy(reel + len + 1, lists[caller][i].bytes, lists[caller][i].len);
    }
    reads(caller, 0, is_side ? 0 : 17, reel, len);
}

/* ---- the installer, side 1, has the LoRa and common settings; the operator, side 2, the FSK settings */

static void fsk_is_the_operators(void) {
    memset(owners, 1, entries = SLOTS);
    for (uint64_t kind = 1; kind <= KINDS; kind++)
        if (slot(kind) >= 0) owners[slot(kind)] = kind >= HB_SET_FSK_MODULATION_PARAMS && kind <= HB_SET_FSK_ADDRESS ? 2 : 1;
}

/* Each has filled its quota: 13 bytes, and 15. */
static void both_full(void) {
    fsk_is_the_operators();
    fresh(START + 28, 13, 15);
    put(1, 24, "02 00 33 BE 27 A0");
    put(2, 16, "02 40 00 00 C3 50 00 1F 00 61 A8");
    put(1, 1, "02 20 74 10");
    put(2, 21, "02 45 11 FF");
    put(1, 4, "02 23 34");
}

/* The worked example: an installer who has filled the quota is refused though there is room in the book, and the operator's room is there still. */
static void story(void) {
    uint8_t reel[40];
    fsk_is_the_operators();
    fresh(START + 28, 13, 15);
    same("put", put(1, 24, "02 00 33 BE 27 A0") + put(1, 1, "02 20 74 10") + put(1, 4, "02 23 34"), 0);
    same("put over the quota", put(1, 25, "02 01 00"), 8);
    same("put", put(2, 16, "02 40 00 00 C3 50 00 1F 00 61 A8") + put(2, 21, "02 45 11 FF"), 0);
    same("put over the quota", put(2, 18, "02 42 00 00"), 8);
    same("put, the other's", put(2, 24, "02 00 33 BE 27 A0"), 18);
    same("ask, the other's", ask(2, 24), 18);
    same("remove, the other's", take_out(1, 21), 18);
    size_t n = hex("06 02 00 33 BE 27 A0 04 02 20 74 10 03 02 23 34", reel);
    reads(1, 0, 0, reel, n);
    reads(2, 0, 0, reel, hex("0B 02 40 00 00 C3 50 00 1F 00 61 A8 04 02 45 11 FF", reel));
    same("whole replay", hb_book_replay(book, size, NULL, 0).refusal, 12);
    same("put over what is held", put(1, 24, "02 00 33 BE 27 A1"), 0);
    clear(2);
    same("end", book[3], START + 13);
    same("put over the quota", put(1, 25, "02 01 00"), 8);
    clear(1);
    same("end", book[3], START);
}

/* Both forms stand for one setting of one side, and 8 reads that side's quota: in 9 bytes the longer form has no room where the shorter one
 * stands, whatever the book has. */
static void swaps(void) {
    for (uint64_t lacking = 0; lacking < 2; lacking++) {
        fsk_is_the_operators();
        fresh(START + 138, 10 - lacking, 100);
        put(1, 25, "02 01 00");
        put(2, 21, "02 45 11 FF");
        put(1, 24, "02 00 33 BE 27 A0");
        same("put of the longer form", put(1, 26, "02 01 00 07"), lacking ? 8 : 0);
        same("ask for the shorter form", ask(1, 25), lacking ? 0 : 9);
        same("remove of the longer form", take_out(1, 26), lacking ? 9 : 0);
        same("the operator's ask", ask(2, 25), 18);
        replay(1);
        replay(2);
    }
}

/* ---- refusals */

/* Every call is refused, whatever else is wrong with it, and alters nothing. */
static void refuses_all(uint64_t caller, uint32_t refusal) {
    uint8_t before[4097];
    memcpy(before, book, size);
    same_answer(change('p', caller, 0, "\x02", 1), refusal, 0, 0);
    same_answer(change('p', caller, 0, "\x02\x23\x34", 3), refusal, 0, 0);
    same_answer(change('p', caller, 0, "\x02\x45\x11\x22", 4), refusal, 0, 0);
    same_answer(change('r', caller, 4, "", 0), refusal, 0, 0);
    same_answer(change('r', caller, 16, "", 0), refusal, 0, 0);
    same_answer(change('r', caller, 0, "", 0), refusal, 0, 0);
    same_answer(change('c', caller, 0, "", 0), refusal, 0, 0);
    same_bytes(book, before, size, size);
    for (uint64_t kind = 0; kind <= 16; kind += 4) reads(caller, kind, refusal, NULL, 0);
}

/* The book's own refusals come first: table, quotas and caller may be wrong too. */
static void books(void) {
    static const size_t sizes[] = {0, 1, START - 1, 4097};
    static const uint8_t both_forms[START + 28] = {VERSION, 2, [3] = START + 7, [43] = START, [45] = START + 3, [START] = 2, 1, 1, 2, 1, 1, 4};
    for (uint64_t caller = 1; caller <= 3; caller++) {
        both_full();
        if (caller == 3) quotas[entries = 2] = UINT64_MAX;
        for (size_t i = 0; i < 4; i++) {
            size = sizes[i];
            trying("a book of a bad size", "size", size);
            refuses_all(caller, 11);
        }
        size = sizeof both_forms;
        book[0] = VERSION + 1;
        trying("a book of another version", "caller", caller);
        refuses_all(caller, 10);
        memcpy(book, both_forms, size);
        trying("a book with both forms", "caller", caller);
        refuses_all(caller, 16);
    }
}

/* A table, quotas or a caller that is wrong in one way; else as in the example. */
static const struct {
    size_t entries;
    unsigned slot, owner;
    uint64_t quota1, quota2, caller;
} wrong[] = {{0, 0, 1, 13, 15, 1}, {SLOTS - 1, 0, 1, 13, 15, 2}, {SLOTS + 1, 0, 1, 13, 15, 1}, {SLOTS, 0, 0, 13, 15, 1}, {SLOTS, SLOTS - 1, 3, 13, 15, 2},
    {SLOTS, 12, 255, 13, 15, 1}, {SLOTS, 4, 2, 13, 15, 1}, {SLOTS, 5, 2, 13, 15, 2}, {SLOTS, 19, 2, 13, 15, 1}, {SLOTS, 20, 2, 13, 15, 2},
    {SLOTS, 21, 2, 13, 15, 1}, {SLOTS, 22, 2, 13, 15, 2}, {SLOTS, 0, 1, 14, 15, 1}, {SLOTS, 0, 1, 13, 16, 2}, {SLOTS, 0, 1, UINT64_MAX, 15, 1},
    {SLOTS, 0, 1, 13, UINT64_MAX - 12, 2}, {SLOTS, 0, 1, 29, UINT64_MAX, 1}, {SLOTS, 0, 1, (uint64_t)1 << 63, (uint64_t)1 << 63, 2},
    {SLOTS, 0, 1, 12, 15, 1}, {SLOTS, 0, 1, 12, 15, 2}, {SLOTS, 0, 1, 13, 14, 1}, {SLOTS, 0, 1, 13, 14, 2}, {SLOTS, 0, 1, 0, 28, 2},
    {SLOTS, 0, 1, 13, 15, 0}, {SLOTS, 0, 1, 13, 15, 3}, {SLOTS, 0, 1, 13, 15, 257}, {SLOTS, 0, 1, 13, 15, ((uint64_t)1 << 32) + 1},
    {SLOTS, 0, 1, 13, 15, UINT64_MAX}};

static void tables(void) {
    for (size_t i = 0; i < sizeof wrong / sizeof *wrong; i++) {
        both_full();
        entries = wrong[i].entries;
        owners[wrong[i].slot] = wrong[i].owner;
        quotas[1] = wrong[i].quota1;
        quotas[2] = wrong[i].quota2;
        trying("a wrong table", "row", i);
        refuses_all(wrong[i].caller, 17);
    }
    both_full();
    trying("lent nothing", "", 0);
    same_answer(hb_side_put(NULL, 0, NULL, 0, 0, 0, 1, NULL, 0), 11, 0, 0);
    same_answer(hb_side_put(book, size, NULL, 0, 13, 15, 1, NULL, 0), 17, 0, 0);
    same_answer(hb_side_put(book, size, owners, entries, 13, 15, 1, NULL, 0), 1, 0, 0);
    same_answer(hb_side_ask(book, size, owners, entries, 13, 15, 1, 0, NULL, 0), 13, 0, 0);
    is_the_lists();
}

/* Of both, the frames that put refuses and the kinds that remove and ask refuse, where each side is full and the table right. */
static void requests(void) {
    static const struct {
        uint64_t caller;
        const char *frame;
        uint32_t refusal, place;
    } frames[] = {{1, "", 1, 0}, {2, "02", 1, 0}, {1, "03 23 34", 2, 0}, {2, "02 23", 3, 0}, {1, "02 22 00 80", 4, 3}, {2, "02 22 00 80", 4, 3},
        {1, "02 20 40 10", 5, 2}, {2, "02 20 40 10", 5, 2}, {1, "02 28", 13, 0}, {2, "02 46", 13, 0}, {1, "02 40 00 00 C3 50 00 1F 00 61 A8", 18, 0},
        {1, "02 42 00 00", 18, 0}, {2, "02 23 34", 18, 0}, {2, "02 2B 00 00 00 00 00 00 00 00 00", 18, 0}, {1, "02 0F 00", 8, 0}, {2, "02 42 00 00", 8, 0}};
    static const uint64_t kinds[][3] = {{1, 0, 13}, {2, 8, 13}, {1, 37, 13}, {2, KINDS + 1, 13}, {1, 260, 13}, {2, ((uint64_t)1 << 32) + 16, 13},
        {1, UINT64_MAX, 13}, {1, 16, 18}, {1, 18, 18}, {2, 24, 18}, {2, 26, 18}, {1, 25, 9}, {1, 39, 9}, {2, 17, 9}};
    both_full();
    for (size_t i = 0; i < sizeof frames / sizeof *frames; i++) {
        uint8_t bytes[16];
        trying("hb_side_put", frames[i].frame, frames[i].caller);
        same_answer(change('p', frames[i].caller, 0, bytes, hex(frames[i].frame, bytes)), frames[i].refusal, frames[i].place, 0);
        is_the_lists();
    }
    for (size_t i = 0; i < sizeof kinds / sizeof *kinds; i++) {
        same("refusal of a removal", take_out(kinds[i][0], kinds[i][1]), kinds[i][2]);
        same("refusal of an ask", ask(kinds[i][0], kinds[i][1]), kinds[i][2]);
    }
}

/* Each setting alone the operator's, in both its forms: the entry of its slot decides. */
static void slots(void) {
    for (size_t i = 0; i < KINDS; i++) {
        uint64_t kind = rows[i].kind, other = other_form(kind);
        if (slot(kind) < 0) continue;
        memset(owners, 1, entries = SLOTS);
        owners[slot(kind)] = 2;
        if (other) owners[slot(other)] = 2;
        fresh(START + 38, 26, 12);
        same("put, the other's", put(1, kind, rows[i].frame), 18);
        same("put", put(2, kind, rows[i].frame), 0);
        if (other) same("put of the other form, the other's", put(1, other, rows[other - 1].frame), 18);
        if (other) same("put of the other form", put(2, other, rows[other - 1].frame), 0);
        same("put, the other's", put(2, kind == 4 ? 24 : 4, kind == 4 ? rows[23].frame : rows[3].frame), 18);
        replay(1);
        replay(2);
    }
}

/* ---- random calls of both sides */

/* A random number, and none of the other tests'. */
static uint64_t some(void) {
    static uint64_t state = 2021;
    return next_of(&state);
}

/* Owners at random, both forms of a setting with one; quotas that fill the room, or less. */
static void any_table(size_t room) {
    memset(owners, 1, entries = SLOTS);
    for (uint64_t kind = 1; kind <= KINDS; kind++)
        if (slot(kind) >= 0) owners[slot(kind)] = other_form(kind) && other_form(kind) < kind ? owners[slot(other_form(kind))] : 1 + some() % 2;
    quotas[1] = some() % (room + 1);
    quotas[2] = some() % 2 ? room - quotas[1] : some() % (room - quotas[1] + 1);
}

static void history(size_t n) {
    static const uint64_t odd[] = {0, 3, 257, UINT64_MAX};
    any_table(n - START);
    fresh(n, quotas[1], quotas[2]);
    for (unsigned i = 0; i < 200; i++) {
        const row *r = &rows[some() % KINDS];
        uint64_t way = some() % 64, caller = some() % 50 ? 1 + some() % 2 : odd[some() % 4];
        if (way < 44) put(caller, r->kind, way % 2 ? r->frame : r->other);
        else if (way < 52) take_out(caller, r->kind);
        else if (way < 58) ask(caller, r->kind);
        else if (way < 63) replay(caller);
        else clear(caller);
    }
}

void test_sides(void) {
    static const size_t good[] = {START, START + 3, START + 10, START + 18, START + 28, START + 38, START + 48, START + 58, START + 73, START + 88,
        START + 108, START + 138, FULL - 1, FULL, FULL + 69, 4096};
    story();
    swaps();
    books();
    tables();
    requests();
    slots();
    for (size_t i = 0; i < sizeof good / sizeof *good; i++) history(good[i]);
}
