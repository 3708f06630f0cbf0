// The book, ours beside Rust's: each call on many books that were made before the clock starts.
// A header has an offset for each slot, an owner table an entry, and frames start behind the header. A full book holds one form of each
// setting, with at most so many bytes together; the buffers have room for more. The settings, and where longer forms stand among them, each behind
// the shorter one, are those of bench/tables.py.
enum { HELD = SETTINGS - PAIRS, START = 4 + 2 * SLOTS, ROOM = START + MOST_BYTES + 69, POOL = 16, REPLAY = 256 };

typedef struct { u8 bytes[12]; int size; } frame;
static frame pool[SETTINGS][POOL];

// The books before and in a call, the frame that a put gets, and the kind that the others get.
static u8 before[SETS][ROOM], book[SETS][ROOM], lent[REPLAY];
static frame given_frame[SETS], then_frame[SETS];
static u64 given_kind[SETS];
// The one book that is only asked, and its length.
static u8 empty[4096];
static u64 empty_length;

typedef u64 (*on_book)(int);
#define SIDE(s) \
    u64 s##_make(u8 *, u64), s##_put(u8 *, u64, const u8 *, u64), s##_remove(u8 *, u64, u64); \
    u64 s##_ask(const u8 *, u64, u64, u8 *, u64), s##_replay(const u8 *, u64, u8 *, u64); \
    static u64 s##_puts(int i) { return s##_put(book[i], ROOM, given_frame[i].bytes, given_frame[i].size); } \
    static u64 s##_swaps(int i) { return s##_puts(i) + s##_put(book[i], ROOM, then_frame[i].bytes, then_frame[i].size); } \
    static u64 s##_removes(int i) { return s##_remove(book[i], ROOM, given_kind[i]); } \
    static u64 s##_asks(int i) { return s##_ask(book[i], ROOM, given_kind[i], lent, 12); } \
    static u64 s##_replays(int i) { return s##_replay(book[i], ROOM, lent, REPLAY); } \
    static u64 s##_asks_empty(int i) { return s##_ask(empty, empty_length, 1 + i % 7, lent, 12); }
SIDE(hb)
SIDE(rs)

static void copy(u8 *to, const u8 *from, int n) { for (int i = 0; i < n; i++) to[i] = from[i]; }

// Frames that the book takes: a builder's own may be refused, as it masks what the decoder narrows.
static void make_pool(void) {
    u8 scratch[ROOM];
    for (int s = 0; s < SETTINGS; s++) {
        const builder *b = &builders[settings[s] - 1];
        for (int i = 0; i < POOL; i++) {
            do {
                fill(b);
                b->rs();
                rs_make(scratch, ROOM);
            } while (rs_put(scratch, ROOM, out, b->size) != 0);
            copy(pool[s][i].bytes, out, b->size);
            pool[s][i].size = b->size;
        }
    }
}

static int other_form(int s) {
    for (int i = 0; i < PAIRS; i++) {
        if (s == longer[i]) return s - 1;
        if (s == longer[i] - 1) return s + 1;
    }
    return -1;
}

// One form of each setting, in random order.
static void any_order(int *order) {
    int all[SETTINGS], kept = 0;
    for (int j = 0; j < SETTINGS; j++) {
        int k = next() % (j + 1);
        all[j] = all[k];
        all[k] = j;
    }
    for (int j = 0; j < SETTINGS; j++) {
        int k = 0;
        while (k < kept && order[k] != other_form(all[j])) k++;
        if (k == kept) order[kept++] = all[j];
    }
}

static const frame *any_frame(int s) { return &pool[s][next() % POOL]; }

static void make_book(u8 *to, const int *order, int n) {
    rs_make(to, ROOM);
    for (int j = 0; j < n; j++) {
        const frame *f = any_frame(order[j]);
        rs_put(to, ROOM, f->bytes, f->size);
    }
}

// Books of n frames. Where the last is to be new, it is not in the book yet; else it is another frame of one that is.
static void make_books(int n, int is_new) {
    for (int i = 0; i < SETS; i++) {
        int order[HELD];
        any_order(order);
        make_book(before[i], order, n - is_new);
        int last = order[is_new ? n - 1 : (int)(next() % n)];
        given_frame[i] = *any_frame(last);
        given_kind[i] = settings[last];
    }
}

// Full books in which a longer form stands in the middle: it gives way to the shorter one, and that to a longer one.
static void make_swaps(void) {
    for (int i = 0; i < SETS; i++) {
        int order[HELD], at = 0, s = longer[next() % PAIRS];
        any_order(order);
        while (order[at] != s && order[at] != s - 1) at++;
        order[at] = order[HELD / 2];
        order[HELD / 2] = s;
        make_book(before[i], order, HELD);
        given_frame[i] = *any_frame(s - 1);
        then_frame[i] = *any_frame(s);
    }
}

// Only the calls are timed; the books are put back between the rounds.
static double timed_book(on_book f) {
    double t = 0;
    u64 s = 0;
    for (int r = 0; r < ROUNDS; r++) {
        copy(book[0], before[0], sizeof book);
        double from = now();
        for (int i = 0; i < SETS; i++) s += f(i);
        t += now() - from;
    }
    sum += s;
    return t;
}

static void same(const char *name, on_book hb, on_book rs) {
    static u8 seen[SETS][ROOM], seen_lent[REPLAY];
    for (int i = 0; i < SETS; i++) {
        for (int j = 0; j < REPLAY; j++) lent[j] = j;
        copy(book[i], before[i], ROOM);
        u64 x = hb(i);
        copy(seen[i], book[i], ROOM), copy(seen_lent, lent, REPLAY);
        for (int j = 0; j < REPLAY; j++) lent[j] = j;
        copy(book[i], before[i], ROOM);
        int differs = rs(i) != x;
        for (int j = 0; j < ROOM; j++) differs |= seen[i][j] != book[i][j];
        for (int j = 0; j < REPLAY; j++) differs |= seen_lent[j] != lent[j];
        if (differs) { printf("%s differs at %d\n", name, i); return; }
    }
}

static void compare(const char *name, on_book f, on_book g) {
    double ratios[REPEATS], hb = 1e18, rs = 1e18;
    same(name, f, g);
    for (int r = 0; r < REPEATS; r++) {
        double x = timed_book(f), y = timed_book(g);
        ratios[r] = x / y;
        if (x < hb) hb = x;
        if (y < rs) rs = y;
    }
    report(name, ratios, hb, rs, ROUNDS * SETS);
}

// All that such an ask does is to judge the book.
static void asked_empty(const char *name, u64 length) {
    empty_length = length;
    rs_make(empty, length);
    compare(name, hb_asks_empty, rs_asks_empty);
}

static void books(void) {
    make_books(5, 1), compare("book of 4, put a 5th", hb_puts, rs_puts);
    make_books(5, 0), compare("book of 5, put over", hb_puts, rs_puts);
    compare("book of 5, remove", hb_removes, rs_removes);
    compare("book of 5, ask", hb_asks, rs_asks);
    compare("book of 5, replay", hb_replays, rs_replays);
    make_books(HELD, 1), compare(named("book of %d, put a %dth", HELD - 1, HELD), hb_puts, rs_puts);
    make_books(HELD, 0), compare(named("book of %d, put over", HELD, 0), hb_puts, rs_puts);
    compare(named("book of %d, remove", HELD, 0), hb_removes, rs_removes);
    compare(named("book of %d, ask", HELD, 0), hb_asks, rs_asks);
    compare(named("book of %d, replay", HELD, 0), hb_replays, rs_replays);
    make_swaps(), compare(named("book of %d, swap to short and back", HELD, 0), hb_swaps, rs_swaps);
    asked_empty(named("empty book of %d bytes, ask", START, 0), START);
    asked_empty("empty book of 1024 bytes, ask", 1024);
    asked_empty("empty book of 2048 bytes, ask", 2048);
    asked_empty("empty book of 4096 bytes, ask", 4096);
}
