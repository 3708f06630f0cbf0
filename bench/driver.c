// Calls the port (hb_..) and the Rust (rs_..) on the same arguments in one process, checks that both answer the same, and prints for each
// builder, each reader and each row of the decoder the ratio of their times: the median over REPEATS, and the least and the greatest.
// bench/generate.py fills the gaps, and bench/book.c has the book, bench/sides.c its two sides, bench/play.c the playback,
// bench/widths.c the widths for banks.
typedef unsigned char u8;
typedef unsigned long u64;
typedef struct { long sec, nsec; } timespec;
int clock_gettime(int, timespec *);
int printf(const char *, ...), snprintf(char *, u64, const char *, ...);

enum { SETS = 1024, ROUNDS = 64, REPEATS = 21, MOST = 9, BYTES = 20 };

static u64 given[SETS][MOST];
static u8 bytes[SETS + BYTES];
static volatile u64 sum;
static u8 out[16];

static u64 state = 20211;
static u64 next(void) {
    u64 z = state += 0x9E3779B97F4A7C15;
    z = (z ^ (z >> 30)) * 0xBF58476D1CE4E5B9;
    z = (z ^ (z >> 27)) * 0x94D049BB133111EB;
    return z ^ (z >> 31);
}

// The process's own time, so that other work on the machine shows less.
static double now(void) {
    timespec t;
    clock_gettime(2, &t);
    return t.sec * 1e9 + t.nsec;
}

// An argument: one of `count` numbers from `least` on; any number of 64 bits where count is 0.
typedef struct { u64 least, count; } argument;
typedef struct { const char *name; void (*hb)(void), (*rs)(void); int arguments; argument argument[MOST]; int size; } builder;
typedef u64 (*reader)(const u8 *, u64);
typedef struct { const char *name; reader hb, rs; int size; } reading;

/* CALLS */
static const builder builders[] = {
/* TABLE */
};
/* ROWS */

#define READERS(X) X(status, 2) X(intr, 4) X(lora_rx_stats, 12) X(lora_packet_status, 8) X(fsk_rx_stats, 16) \
    X(fsk_packet_status, 8) X(rssi_inst, 4) X(timestamp_value, 6) X(cca_result, 6)
#define DECLARE(name, size) u64 hb_##name(const u8 *, u64), rs_##name(const u8 *, u64);
READERS(DECLARE)
#define ROW(name, size) {#name, hb_##name, rs_##name, size},
static const reading readings[] = {READERS(ROW)};

static void fill(const builder *b) {
    for (int i = 0; i < SETS; i++)
        for (int j = 0; j < b->arguments; j++) {
            const argument *a = &b->argument[j];
            u64 r = next();
            given[i][j] = a->count ? a->least + r % a->count : r;
        }
}

static double timed(void (*f)(void)) {
    double t = now();
    for (int r = 0; r < ROUNDS; r++) f();
    return now() - t;
}

static double timed_reader(reader f, int size) {
    double t = now();
    u64 s = 0;
    for (int r = 0; r < ROUNDS; r++)
        for (int i = 0; i < SETS; i++) s += f(bytes + i, size);
    sum += s;
    return now() - t;
}

static void report(const char *name, double *ratios, double hb, double rs, int calls) {
    for (int i = 1; i < REPEATS; i++)
        for (int j = i; j > 0 && ratios[j - 1] > ratios[j]; j--) {
            double x = ratios[j];
            ratios[j] = ratios[j - 1];
            ratios[j - 1] = x;
        }
    printf("%s %.2f %.2f %.2f %.2f %.2f\n", name, ratios[REPEATS / 2], ratios[0], ratios[REPEATS - 1],
        hb / calls, rs / calls);
}

// A name with numbers in it, until the next one is made.
static const char *named(const char *form, int first, int second) {
    static char name[99];
    snprintf(name, sizeof name, form, first, second);
    return name;
}

// The decoder: frames as the builders make them, some of which it refuses, and frames that were spoilt so that each is refused.
u64 hb_decode(const u8 *, u64), rs_decode(const u8 *, u64), rs_walk(const u8 *, u64);
enum { KINDS = sizeof builders / sizeof *builders };
static u8 frames[SETS][16];
static int sizes[SETS];
static u8 opcodes[KINDS];

static void make_frame(int i, int kind) {
    const builder *b = &builders[kind - 1];
    fill(b);
    b->rs();
    sizes[i] = b->size;
    for (int j = 0; j < b->size; j++) frames[i][j] = out[j];
    opcodes[kind - 1] = out[1];
}

static void make_frames(int kind) {
    for (int i = 0; i < SETS; i++) make_frame(i, kind);
}

static void make_all_kinds(void) {
    for (int i = 0; i < SETS; i++) make_frame(i, 1 + i % KINDS);
}

// Whether a row has this opcode, and this length or, where that is 0, any. All kinds were made before.
static int is_row(int opcode, int length) {
    for (int k = 0; k < KINDS; k++)
        if (opcodes[k] == opcode && (length == 0 || builders[k].size == length)) return 1;
    return 0;
}

// Each opcode that no row has, in turn, in frames of all lengths.
static void make_unknown_opcodes(void) {
    u8 opcode = 0;
    make_all_kinds();
    for (int i = 0; i < SETS; i++) {
        do opcode++; while (is_row(opcode, 0));
        frames[i][1] = opcode;
    }
}

// Each opcode in turn, with a length from 2 to 16 that no row of it has.
static void make_wrong_lengths(void) {
    make_all_kinds();
    for (int i = 0; i < SETS; i++)
        do sizes[i] = 2 + next() % 15; while (is_row(frames[i][1], sizes[i]));
}

// Whether a bit after the opcode is stray: one that is set among zeros is refused for itself.
static int is_stray(int kind, int bit) {
    u8 frame[16] = {2, opcodes[kind - 1]};
    frame[2 + bit / 8] = 1 << bit % 8;
    return rs_decode(frame, builders[kind - 1].size) == (u64)(4 | (2 + bit / 8) << 8);
}

static int has_stray(int kind) {
    int bit = 0, bits = 8 * (builders[kind - 1].size - 2);
    while (bit < bits && !is_stray(kind, bit)) bit++;
    return bit < bits;
}

// Each kind that can have a stray bit, in turn, with any of them.
static void make_stray_bits(void) {
    int bit, kind = 0;
    make_all_kinds();
    for (int i = 0; i < SETS; i++) {
        do kind = 1 + kind % KINDS; while (!has_stray(kind));
        make_frame(i, kind);
        do bit = next() % (8 * (sizes[i] - 2)); while (!is_stray(kind, bit));
        frames[i][2 + bit / 8] |= 1 << bit % 8;
    }
}

// Kind 1 with each sf that the enum lacks, in turn.
static void make_unknown_codes(void) {
    static const u8 lacking[] = {0, 1, 2, 3, 4, 13, 14, 15};
    make_frames(1);
    for (int i = 0; i < SETS; i++) frames[i][2] = lacking[i % sizeof lacking] << 4 | frames[i][2] % 16;
}

static double timed_decoder(reader f) {
    double t = now();
    u64 s = 0;
    for (int r = 0; r < ROUNDS; r++)
        for (int i = 0; i < SETS; i++) s += f(frames[i], sizes[i]);
    sum += s;
    return now() - t;
}

static void compare_decoder(const char *name, reader other) {
    double ratios[REPEATS], hb = 1e18, rs = 1e18;
    for (int i = 0; i < SETS; i++)
        if (hb_decode(frames[i], sizes[i]) != other(frames[i], sizes[i])) { printf("%s differs at %d\n", name, i); return; }
    for (int r = 0; r < REPEATS; r++) {
        double x = timed_decoder(hb_decode), y = timed_decoder(other);
        ratios[r] = x / y;
        if (x < hb) hb = x;
        if (y < rs) rs = y;
    }
    report(name, ratios, hb, rs, ROUNDS * SETS);
}

static void decoders(void) {
    make_all_kinds(), compare_decoder("decode, frames of all kinds in turn", rs_decode);
    make_frames(1), compare_decoder("decode, frames of kind 1", rs_decode);
    make_frames(KINDS), compare_decoder(named("decode, frames of kind %d", KINDS, 0), rs_decode);
    make_unknown_opcodes(), compare_decoder("decode, unknown opcode", rs_decode);
    make_wrong_lengths(), compare_decoder("decode, wrong length", rs_decode);
    make_stray_bits(), compare_decoder("decode, stray bit", rs_decode);
    make_unknown_codes(), compare_decoder("decode, unknown code", rs_decode);
    make_all_kinds(), compare_decoder("decode beside a walk over the rows, frames of all kinds in turn", rs_walk);
    make_frames(1), compare_decoder("decode beside a walk over the rows, frames of kind 1", rs_walk);
    make_frames(KINDS), compare_decoder(named("decode beside a walk over the rows, frames of kind %d", KINDS, 0), rs_walk);
    make_unknown_opcodes(), compare_decoder("decode beside a walk over the rows, unknown opcode", rs_walk);
}

#include "../../bench/book.c"
#include "../../bench/sides.c"
#include "../../bench/play.c"
#include "../../bench/widths.c"

static void compare_builder(const builder *b) {
    double ratios[REPEATS], hb = 1e18, rs = 1e18;
    u8 seen[16];
    fill(b);
    b->hb();
    for (int i = 0; i < b->size; i++) seen[i] = out[i];
    b->rs();
    for (int i = 0; i < b->size; i++) if (seen[i] != out[i]) printf("%s differs\n", b->name);
    for (int r = 0; r < REPEATS; r++) {
        double x = timed(b->hb), y = timed(b->rs);
        ratios[r] = x / y;
        if (x < hb) hb = x;
        if (y < rs) rs = y;
    }
    report(b->name, ratios, hb, rs, ROUNDS * SETS);
}

static void compare_reader(const reading *g) {
    double ratios[REPEATS], hb = 1e18, rs = 1e18;
    for (int i = 0; i < SETS; i++)
        if (g->hb(bytes + i, g->size) != g->rs(bytes + i, g->size)) { printf("%s differs\n", g->name); break; }
    for (int r = 0; r < REPEATS; r++) {
        double x = timed_reader(g->hb, g->size), y = timed_reader(g->rs, g->size);
        ratios[r] = x / y;
        if (x < hb) hb = x;
        if (y < rs) rs = y;
    }
    report(g->name, ratios, hb, rs, ROUNDS * SETS);
}

static void readers(void) {
    for (u64 k = 0; k < sizeof readings / sizeof *readings; k++) compare_reader(&readings[k]);
}

// With a word, the readers, the decoder, the book, the playback, the widths or the sides alone; its first letter tells which. The sides, which are
// compared with no Rust, come by their word only.
int main(int count, char **words) {
    char only = count > 1 ? words[1][0] : 0;
    for (int i = 0; i < SETS + BYTES; i++) bytes[i] = next();
    make_pool();
    for (int k = 0; k < KINDS && !only; k++) compare_builder(&builders[k]);
    if (!only || only == 'r') readers();
    if (!only || only == 'd') decoders();
    if (!only || only == 'b') books();
    if (!only || only == 'p') plays();
    if (!only || only == 'w') widths();
    if (only == 's') sides();
    return 0;
}
