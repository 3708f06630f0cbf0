/* hb_widths_check and hb_widths_find: lists by hand, each edge of each width, random lists and every need, against products of 128 bits (REFERENCE,
 * "Widths for banks"). widths.rs tries every need once more, with fractions of its own. */
#include "link.h"

/* The codes of the 90 widths in the Rust's order (RxBw of cmd_fsk.rs without BwAuto), which is from the widest on. */
enum { LISTED = 90, AUTO = 255, LONGEST = 34, MOST_NEED = 3076923 };
static const uint8_t listed[LISTED] = {0, 64, 128, 192, 136, 200, 144, 24, 208, 88, 152, 32, 96, 216, 160, 17, 81, 224, 25, 209, 89, 153, 33, 97, 217,
    161, 18, 82, 225, 26, 210, 90, 154, 34, 98, 218, 162, 19, 83, 226, 27, 211, 91, 155, 35, 99, 219, 163, 20, 84, 227, 28, 212, 92, 156, 36, 100, 220,
    164, 21, 85, 228, 29, 213, 93, 157, 37, 101, 165, 86, 229, 30, 94, 158, 38, 102, 222, 166, 23, 87, 230, 31, 215, 95, 159, 39, 103, 223, 167, 231};

/* ---- the rule a second time */

/* What a code divides 40 MHz by. */
static uint64_t over(uint8_t code) {
    static const uint64_t m[] = {13, 14, 15, 18};
    return m[code >> 6] * ((code >> 3 & 7) + 1) << (code & 7);
}

static bool suffices(uint8_t code, uint64_t need) {
    return (unsigned __int128)need * over(code) <= 40000000;
}

/* The place in the list of the narrowest width that suffices; -1 where none does. Each width before that place is wider. */
static int narrowest(uint64_t need) {
    int at = LISTED - 1;
    while (at >= 0 && !suffices(listed[at], need)) at--;
    return at;
}

static bool is_listed(uint8_t code) {
    for (size_t i = 0; i < LISTED; i++)
        if (listed[i] == code) return true;
    return false;
}

/* What is answered for n needs beside m codes; and without codes, for the list that is found. */
static hb_answer wanted(const uint64_t *needs, size_t n, const uint8_t *codes, size_t m) {
    if (n < 1 || n > 32 || m != n) return (hb_answer){.refusal = HB_REFUSED_LIST_LENGTH};
    for (size_t i = 0; i < n; i++) {
        int at = narrowest(needs[i]);
        if (at < 0) return (hb_answer){.refusal = HB_REFUSED_NO_WIDTH, .place = i + 1};
        if (codes && codes[i] != listed[at]) return (hb_answer){.refusal = HB_REFUSED_NOT_NARROWEST, .place = i + 1};
    }
    return (hb_answer){.value = n};
}

/* ---- calls on lent buffers */

/* How often each answer came, of check and of find. */
static uint64_t met[2][HB_REFUSED_LIST_LENGTH + 1];

static hb_answer check(const uint64_t *needs, size_t n, const uint8_t *codes, size_t m) {
    const uint64_t *lent_needs = lend_const(needs, n * sizeof *needs);
    hb_answer got = hb_widths_check(lent_needs, n, lend_const(codes, m), m), right = wanted(needs, n, codes, m);
    lent -= 2;
    same_answer(got, right.refusal, right.place, right.value);
    met[0][right.refusal]++;
    return got;
}

/* An output of m codes: the found ones, or on a refusal what stood there. */
static hb_answer find(const uint64_t *needs, size_t n, size_t m) {
    uint8_t codes[LONGEST];
    const uint64_t *lent_needs = lend_const(needs, n * sizeof *needs);
    uint8_t *out = lend(m);
    hb_answer got = hb_widths_find(lent_needs, n, out, m), right = wanted(needs, n, NULL, m);
    same_answer(got, right.refusal, right.place, right.value);
    for (size_t i = 0; i < right.value; i++) codes[i] = listed[narrowest(needs[i])];
    same_bytes(out, codes, right.value, m);
    lent -= 2;
    met[1][right.refusal]++;
    return got;
}

/* One bank; 19 and 20 name it. */
static void one(uint64_t need, uint8_t code, uint32_t refusal) {
    trying("hb_widths_check", "need", need);
    same("refusal", check(&need, 1, &code, 1).refusal, refusal);
}

/* ---- by hand */

/* The needs and the codes of two texts; the refusal and the bank of it. */
static void list(const char *needs_text, const char *codes_text, uint32_t refusal, uint32_t place) {
    uint64_t needs[LONGEST], numbered[LONGEST];
    uint8_t codes[LONGEST];
    size_t n = numbers(needs_text, needs), m = numbers(codes_text, numbered);
    for (size_t i = 0; i < m; i++) codes[i] = numbered[i];
    trying("hb_widths_check", needs_text, m);
    hb_answer got = check(needs, n, codes, m);
    same("refusal", got.refusal, refusal);
    same("place", got.place, place);
}

static void by_hand(void) {
    static const uint64_t needs[][2] = {{0, 231}, {3472, 231}, {3473, 167}, {16030, 165}, {16666, 165}, {16667, 101}, {MOST_NEED, 0}};
    for (size_t i = 0; i < sizeof needs / sizeof *needs; i++) one(needs[i][0], needs[i][1], 0);
    one(MOST_NEED + 1, 0, HB_REFUSED_NO_WIDTH);
    one(0, AUTO, HB_REFUSED_NOT_NARROWEST);
    list("", "", HB_REFUSED_LIST_LENGTH, 0);
    list("16030 3473", "165 167", 0, 0);
    list("16030 3473 0", "165 166 231", HB_REFUSED_NOT_NARROWEST, 2);
    /* The first bank that is refused is named, by whichever of the two. */
    list("16030 3076924 3473", "165 0 166", HB_REFUSED_NO_WIDTH, 2);
    list("16030 3473 3076924", "165 166 0", HB_REFUSED_NOT_NARROWEST, 2);
    list("3076924 3076924", "255 231", HB_REFUSED_NO_WIDTH, 1);
    list("3473 3473 16030", "166 166 101", HB_REFUSED_NOT_NARROWEST, 1);
    /* The lengths come before any bank. */
    list("3076924", "0 0", HB_REFUSED_LIST_LENGTH, 0);
    list("16030 3473", "165", HB_REFUSED_LIST_LENGTH, 0);
    list("16030", "", HB_REFUSED_LIST_LENGTH, 0);
    list("", "165", HB_REFUSED_LIST_LENGTH, 0);
    trying("lent nothing", "", 0);
    same_answer(hb_widths_check(NULL, 0, NULL, 0), HB_REFUSED_LIST_LENGTH, 0, 0);
    same_answer(hb_widths_find(NULL, 0, NULL, 0), HB_REFUSED_LIST_LENGTH, 0, 0);
}

/* Every two lengths, of lists that are right as far as they go, and of lists of which no bank can be served. */
static void lengths(void) {
    for (unsigned is_served = 0; is_served < 2; is_served++) {
        uint64_t needs[LONGEST];
        uint8_t codes[LONGEST];
        memset(codes, 231, sizeof codes);
        for (size_t i = 0; i < LONGEST; i++) needs[i] = is_served ? 0 : UINT64_MAX;
        for (size_t n = 0; n <= LONGEST; n++)
            for (size_t m = 0; m <= LONGEST; m++) {
                trying("lists of two lengths", "needs", n);
                check(needs, n, codes, m);
                find(needs, n, m);
            }
    }
}

/* A refused bank at each place of each length, by 19 and by 20, and the other one behind it. */
static void places(void) {
    for (size_t n = 1; n <= 32; n++)
        for (size_t at = 0; at < n; at++)
            for (unsigned way = 0; way < 4; way++) {
                uint64_t needs[32] = {0};
                uint8_t codes[32];
                size_t other = way > 1 ? n - 1 : at;
                memset(codes, 231, sizeof codes);
                if (way % 2) needs[at] = MOST_NEED + 1, codes[other] = 167;
                else codes[at] = 167, needs[other] = other == at ? 0 : MOST_NEED + 1;
                trying("a bank that is refused", "place", at + 1);
                same("place", check(needs, n, codes, n).place, at + 1);
                find(needs, n, n);
            }
}

/* ---- edges of the widths */

/* The list's order is that of the exact widths: no two are equal. */
static void order(void) {
    for (size_t i = 1; i < LISTED; i++) {
        trying("the order of the widths", "code", listed[i]);
        same("whether it is narrower", over(listed[i - 1]) < over(listed[i]), 1);
    }
}

/* The last need that a width serves, and the first that it does not: with the code itself, its neighbours, and none other. */
static void edges(void) {
    for (size_t i = 0; i < LISTED; i++) {
        uint64_t last = 40000000 / over(listed[i]);
        one(last, listed[i], 0);
        one(last + 1, listed[i], i ? HB_REFUSED_NOT_NARROWEST : HB_REFUSED_NO_WIDTH);
        if (i) one(last, listed[i - 1], HB_REFUSED_NOT_NARROWEST);
        if (i) one(last + 1, listed[i - 1], 0);
        if (i + 1 < LISTED) one(last, listed[i + 1], HB_REFUSED_NOT_NARROWEST);
        for (unsigned code = 0; code < 256; code++) one(last, code, code == listed[i] ? 0 : HB_REFUSED_NOT_NARROWEST);
    }
}

/* A code that is not listed is never right: not where its width would be, not beside a listed code of the same width, and BwAuto neither. */
static void unlisted(void) {
    unsigned others = 0, doubles = 0;
    for (unsigned code = 0; code < 256; code++) {
        if (is_listed(code)) continue;
        uint64_t need = 40000000 / over(code);
        int at = narrowest(need);
        others++;
        doubles += over(listed[at]) == over(code);
        one(need, code, HB_REFUSED_NOT_NARROWEST);
        one(need, listed[at], 0);
    }
    same("codes without a width, BwAuto among them", others, 166);
    same("codes that have a listed code's width", doubles, 113);
}

/* Needs that no width serves: past each power of two, and such that a product of 64 bits with a divisor would be small again. */
static void huge(void) {
    uint64_t lasting[] = {0, 0, 3473};
    for (unsigned bit = 22; bit < 64; bit++)
        for (uint64_t less = 0; less < 3; less++) {
            lasting[1] = ((uint64_t)1 << bit) + 1 - less;
            trying("hb_widths_find", "need", lasting[1]);
            same("place", find(lasting, 3, 3).place, 2);
        }
    for (unsigned code = 0; code < 256; code++)
        for (unsigned __int128 times = 1; times <= over(code); times *= 2) {
            uint64_t need = ((times << 64) - 1) / over(code) + (times < over(code));
            one(need, code, HB_REFUSED_NO_WIDTH);
            one(need, 231, HB_REFUSED_NO_WIDTH);
            find(&need, 1, 1);
        }
    one(UINT64_MAX, 0, HB_REFUSED_NO_WIDTH);
    one(UINT64_MAX, AUTO, HB_REFUSED_NO_WIDTH);
}

/* ---- every need, and random lists */

/* Lists of 32, from 0 on: what is found, and that the found codes pass. Where a list is refused, each of its banks alone. */
static void every_need(void) {
    uint64_t needs[32], served = 0;
    uint8_t codes[32];
    for (uint64_t first = 0; first <= 3100000; first += 32) {
        for (size_t i = 0; i < 32; i++) {
            needs[i] = first + i;
            codes[i] = narrowest(needs[i]) < 0 ? 0 : listed[narrowest(needs[i])];
        }
        trying("every need", "first of 32", first);
        uint64_t found = find(needs, 32, 32).value;
        same("banks that pass", check(needs, 32, codes, 32).value, found);
        for (size_t i = 0; found == 0 && i < 32; i++) served += find(&needs[i], 1, 1).value;
        served += found;
    }
    same("needs that a width serves", served, MOST_NEED + 1);
}

/* A random number, and none of the other tests'. */
static uint64_t some(void) {
    static uint64_t state = 2606;
    return next_of(&state);
}

/* Most are at an edge of a width, some are any number; `served` ones are at most the last that is served. */
static uint64_t any_need(bool served) {
    uint64_t way = some() % 8, edge = 40000000 / over(some()), need = way < 5 ? edge + some() % 3 - 1 : way < 7 ? some() % 3100000 : some() >> some() % 64;
    return served && need > MOST_NEED ? need % (MOST_NEED + 1) : need;
}

/* The right code, a neighbour, a code of the same width, or any. */
static uint8_t any_code(uint64_t need, bool is_right) {
    int at = narrowest(need);
    uint64_t way = some() % 4;
    if (at < 0) return some();
    if (is_right) return listed[at];
    if (way == 0) return listed[at ? at - 1 : 1];
    if (way == 1) return listed[at + 1 < LISTED ? at + 1 : at - 1];
    for (unsigned code = way == 2 ? some() % 256 : 256; code < 256; code++)
        if (over(code) == over(listed[at])) return code;
    return some();
}

/* A third of the lists are right, a third have one odd bank, and the others any. */
static void any_list(void) {
    uint64_t needs[LONGEST];
    uint8_t codes[LONGEST];
    size_t n = some() % 16 ? 1 + some() % 32 : some() % (LONGEST + 1), m = some() % 16 ? n : some() % (LONGEST + 1);
    uint64_t way = some() % 3, odd = way == 1 && n ? some() % n : LONGEST;
    for (size_t i = 0; i < LONGEST; i++) {
        needs[i] = any_need(way < 2 && (i != odd || some() % 2));
        codes[i] = any_code(needs[i], i != odd && (way < 2 || some() % 8));
    }
    trying("a random list", "banks", n);
    check(needs, n, codes, m);
    find(needs, n, m);
}

/* Each answer has to come. */
static void owed(void) {
    for (unsigned find = 0; find < 2; find++) {
        trying(find ? "hb_widths_find" : "hb_widths_check", "answers that were met", 0);
        same("done", met[find][0] > 5000, 1);
        same("refused by 19", met[find][HB_REFUSED_NO_WIDTH] > 5000, 1);
        same("refused by 20", met[find][HB_REFUSED_NOT_NARROWEST] > 5000, !find);
        same("refused by 21", met[find][HB_REFUSED_LIST_LENGTH] > 1000, 1);
    }
}

void test_widths(void) {
    static bool tried;
    order();
    by_hand();
    lengths();
    places();
    edges();
    unlisted();
    huge();
    memset(met, 0, sizeof met);
    for (unsigned i = 0; i < 40000; i++) any_list();
    owed();
    /* Once, in the first mode, which is that of plain memory. */
    if (!tried) every_need(), test_rust_widths();
    tried = true;
}
