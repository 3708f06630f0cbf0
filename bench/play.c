// The playback, ours beside Rust's: a day of settings that are put, and of requests with their answers, on a book of 4,096 bytes.
enum { RECORDS = 65535, FEWER = RECORDS / 10, LONGEST_RECORD = 18, BOOK = 4096 };

static u8 trace[4 + RECORDS * LONGEST_RECORD], played_book[BOOK];

typedef u64 (*player)(const u8 *, u64, u8 *, u64);
u64 hb_played(const u8 *, u64, u8 *, u64), rs_played(const u8 *, u64, u8 *, u64);

static u64 put_record(u64 at, u8 direction, const u8 *from, int n) {
    trace[at] = direction;
    trace[at + 1] = n;
    copy(trace + at + 2, from, n);
    return at + 2 + n;
}

// Half of the records are settings, the others are requests and their answers in turn.
static u64 make_trace(int records) {
    static const u8 requests[4][2] = {{0x02, 0x29}, {0x02, 0x2A}, {0x02, 0x46}, {0x02, 0x47}};
    static const int answers[4] = {12, 8, 16, 8};
    u64 at = 4;
    trace[0] = records >> 8, trace[1] = records & 255, trace[2] = 0, trace[3] = 4;
    for (int i = 0; i < records; i++) {
        int k = next() % 4;
        const frame *f = &pool[next() % SETTINGS][next() % POOL];
        if (next() % 3) at = put_record(at, 0, f->bytes, f->size);
        else {
            at = put_record(at, 0, requests[k], 2);
            if (++i < records) at = put_record(at, 1, bytes + next() % SETS, answers[k]);
        }
    }
    return at;
}

static double timed_play(player f, u64 length) {
    double from = now();
    sum += f(trace, length, played_book, BOOK);
    return now() - from;
}

static void played(const char *name, int records) {
    static u8 seen[BOOK];
    double ratios[REPEATS], hb = 1e18, rs = 1e18;
    u64 length = make_trace(records);
    u64 x = hb_played(trace, length, played_book, BOOK);
    copy(seen, played_book, BOOK);
    int differs = rs_played(trace, length, played_book, BOOK) != x;
    for (int j = 0; j < BOOK; j++) differs |= seen[j] != played_book[j];
    if (differs) printf("%s differs\n", name);
    for (int r = 0; r < REPEATS; r++) {
        double a = timed_play(hb_played, length), b = timed_play(rs_played, length);
        ratios[r] = a / b;
        if (a < hb) hb = a;
        if (b < rs) rs = b;
    }
    report(name, ratios, hb, rs, records);
}

static void plays(void) {
    played("playback of 6553 records, each", FEWER);
    played("playback of 65535 records, each", RECORDS);
}
