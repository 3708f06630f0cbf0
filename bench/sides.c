// A side's calls beside those of the whole book, both ours: on the books of bench/book.c, with an owner table by which side 1 has every setting
// and the whole room, so that both give the same; and a side's clear beside the removals that it makes.
static u8 owners[SLOTS];
// The kinds that side 1 holds of each book, in ascending order, and how many there are.
static u64 mine[SETS][HELD];
static int mine_count[SETS];

u64 hb_side_put(u8 *, u64, const u8 *, u64, u64, u64, u64, const u8 *, u64), hb_side_remove(u8 *, u64, const u8 *, u64, u64, u64, u64, u64);
u64 hb_side_ask(const u8 *, u64, const u8 *, u64, u64, u64, u64, u64, u8 *, u64), hb_side_clear(u8 *, u64, const u8 *, u64, u64, u64, u64);
u64 hb_side_replay(const u8 *, u64, const u8 *, u64, u64, u64, u64, u8 *, u64);

// What stands between book and request: the table, both quotas, and that side 1 calls.
#define ALL owners, SLOTS, ROOM - START, 0, 1
#define HALF owners, SLOTS, (ROOM - START) / 2, (ROOM - START) / 2, 1
static u64 side_puts(int i) { return hb_side_put(book[i], ROOM, ALL, given_frame[i].bytes, given_frame[i].size); }
static u64 side_removes(int i) { return hb_side_remove(book[i], ROOM, ALL, given_kind[i]); }
static u64 side_asks(int i) { return hb_side_ask(book[i], ROOM, ALL, given_kind[i], lent, 12); }
static u64 side_replays(int i) { return hb_side_replay(book[i], ROOM, ALL, lent, REPLAY); }
static u64 side_asks_empty(int i) { return hb_side_ask(empty, START, owners, SLOTS, 0, 0, 1, 1 + i % 7, lent, 12); }
static u64 side_clears(int i) { return hb_side_clear(book[i], ROOM, HALF); }
static u64 hb_removes_mine(int i) {
    u64 said = 0;
    for (int j = 0; j < mine_count[i]; j++) said |= hb_remove(book[i], ROOM, mine[i][j]);
    return said;
}

static void own_all(void) {
    for (int s = 0; s < SLOTS; s++) owners[s] = 1;
}

// Every other setting is side 1's, in either form: of a full book it holds half.
static void own_half(void) {
    for (int s = 0, side = 1; s < SETTINGS; s++) {
        int other = other_form(s);
        owners[s] = other >= 0 && other < s ? owners[other] : side;
        if (other < s) side = 3 - side;
    }
    for (int i = 0; i < SETS; i++) {
        mine_count[i] = 0;
        for (int s = 0; s < SETTINGS; s++)
            if (owners[s] == 1 && (before[i][4 + 2 * s] || before[i][5 + 2 * s])) mine[i][mine_count[i]++] = settings[s];
        if (mine_count[i] != HELD / 2) printf("the half of a full book differs at %d\n", i);
    }
}

static void sides(void) {
    own_all();
    make_books(5, 1), compare("side, book of 4, put a 5th", side_puts, hb_puts);
    make_books(5, 0), compare("side, book of 5, put over", side_puts, hb_puts);
    compare("side, book of 5, remove", side_removes, hb_removes);
    compare("side, book of 5, ask", side_asks, hb_asks);
    compare("side, book of 5, replay", side_replays, hb_replays);
    make_books(HELD, 1), compare(named("side, book of %d, put a %dth", HELD - 1, HELD), side_puts, hb_puts);
    make_books(HELD, 0), compare(named("side, book of %d, put over", HELD, 0), side_puts, hb_puts);
    compare(named("side, book of %d, remove", HELD, 0), side_removes, hb_removes);
    compare(named("side, book of %d, ask", HELD, 0), side_asks, hb_asks);
    compare(named("side, book of %d, replay", HELD, 0), side_replays, hb_replays);
    empty_length = START;
    rs_make(empty, START);
    compare(named("side, empty book of %d bytes, ask", START, 0), side_asks_empty, hb_asks_empty);
    own_half();
    compare(named("side, half of a book of %d, clear beside its removals", HELD, 0), side_clears, hb_removes_mine);
}
