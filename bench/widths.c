// Lists of 32 banks, ours beside Rust's: found, and checked with the codes that are right. The needs are any that a width serves; in the last row
// one in 32 is past that, so that most lists are refused somewhere.
enum { BANKS = 32, MOST_NEED = 3076923 };

static u64 needs[SETS][BANKS];
static u8 codes[SETS][BANKS];

typedef u64 (*on_list)(const u64 *, u64, u8 *, u64);
u64 hb_find(const u64 *, u64, u8 *, u64), rs_find(const u64 *, u64, u8 *, u64);
u64 hb_check(const u64 *, u64, const u8 *, u64), rs_check(const u64 *, u64, const u8 *, u64);
static u64 hb_checks(const u64 *n, u64 count, u8 *c, u64 length) { return hb_check(n, count, c, length); }
static u64 rs_checks(const u64 *n, u64 count, u8 *c, u64 length) { return rs_check(n, count, c, length); }

static void make_lists(int is_served) {
    for (int i = 0; i < SETS; i++)
        for (int j = 0; j < BANKS; j++) needs[i][j] = is_served || next() % BANKS ? next() % (MOST_NEED + 1) : MOST_NEED + 1 + next() % MOST_NEED;
}

static double timed_lists(on_list f) {
    double from = now();
    u64 s = 0;
    for (int i = 0; i < SETS; i++) s += f(needs[i], BANKS, codes[i], BANKS);
    sum += s;
    return now() - from;
}

// Both sides have to answer the same and to leave the same codes.
static void compare_lists(const char *name, on_list ours, on_list other) {
    double ratios[REPEATS], hb = 1e18, rs = 1e18;
    for (int i = 0; i < SETS; i++) {
        u8 seen[BANKS];
        u64 x = ours(needs[i], BANKS, codes[i], BANKS);
        copy(seen, codes[i], BANKS);
        int differs = other(needs[i], BANKS, codes[i], BANKS) != x;
        for (int j = 0; j < BANKS; j++) differs |= seen[j] != codes[i][j];
        if (differs) { printf("%s differs at %d\n", name, i); return; }
    }
    for (int r = 0; r < REPEATS; r++) {
        double x = timed_lists(ours), y = timed_lists(other);
        ratios[r] = x / y;
        if (x < hb) hb = x;
        if (y < rs) rs = y;
    }
    report(name, ratios, hb, rs, SETS);
}

static void widths(void) {
    make_lists(1);
    compare_lists("widths, finding 32 banks", hb_find, rs_find);
    compare_lists("widths, checking 32 banks", hb_checks, rs_checks);
    make_lists(0);
    compare_lists("widths, finding 32 banks, some past every width", hb_find, rs_find);
}
