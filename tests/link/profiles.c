/* hb_profile: books by hand, every combination of what the rules look at, and random books, good and damaged, against the reader of
 * stored.c and rules that stand here (REFERENCE, "Locker profile"). profiles.rs tries others, against another model. */
#include "stored.h"

enum { ANSWERS = 12 };

/* ---- the rules a second time */

/* The first that frames of kinds 1, 2 and 4 break; 0 where they break none. */
static uint64_t broken(const uint8_t *modulation, const uint8_t *packet, const uint8_t *sync) {
    unsigned sf = modulation[2] >> 4, width = modulation[2] & 15, rate = modulation[3] >> 4;
    uint64_t hz = width == 4 ? 125000 : 250000;
    bool is_long = 1000 * ((uint64_t)1 << sf) >= 16 * hz;
    if (sf < 7 || sf > 12) return 1;
    if (width != 4 && width != 5) return 2;
    if (rate < 1 || rate > 4) return 3;
    if (packet[5] >> 2 & 1) return 4;
    if (!(packet[5] >> 1 & 1)) return 5;
    if (sync[2] != 0x12) return 6;
    return (modulation[3] & 3) == is_long ? 0 : 7;
}

static hb_answer wanted(const uint8_t *book, size_t n) {
    uint32_t why = fault(book, n);
    if (why) return (hb_answer){.refusal = why};
    size_t modulation = offset_of(book, 1), packet = offset_of(book, 2), sync = offset_of(book, 4);
    if (!modulation || !packet || !sync) return (hb_answer){.refusal = 22};
    return (hb_answer){.value = broken(book + modulation, book + packet, book + sync)};
}

/* ---- calls */

/* How often each answer came: yes, the rules, 11, 10, 16 and 22. */
static uint64_t met[ANSWERS];

static hb_answer tried(const uint8_t *book, size_t n) {
    hb_answer right = wanted(book, n), got = hb_profile(lend_const(book, n), n);
    lent--;
    same_answer(got, right.refusal, right.place, right.value);
    met[right.refusal == 0 ? right.value : right.refusal == 11 ? 8 : right.refusal == 10 ? 9 : right.refusal == 16 ? 10 : 11]++;
    return got;
}

/* ---- by hand */

/* The three frames in this order, in a book that they fill; an empty text is a frame that is missing. */
static void three(const char *modulation, const char *packet, const char *sync, uint32_t refusal, uint64_t rule) {
    uint8_t book[START + 13];
    list.count = 0;
    if (*modulation) add(1, modulation);
    if (*packet) add(2, packet);
    if (*sync) add(4, sync);
    written(book, sizeof book);
    trying("hb_profile", modulation, rule);
    same_answer(tried(book, sizeof book), refusal, 0, rule);
}

static void by_hand(void) {
    three("02 20 B4 11", "02 21 00 08 FF 02", "02 23 12", 0, 0);
    three("02 20 B4 10", "02 21 00 08 FF 02", "02 23 12", 0, 7);
    three("02 20 A4 11", "02 21 00 08 FF 02", "02 23 12", 0, 7);
    three("02 20 B5 10", "02 21 00 08 FF 02", "02 23 12", 0, 0);
    three("02 20 C5 11", "02 21 00 08 FF 02", "02 23 12", 0, 0);
    three("02 20 C4 41", "02 21 00 08 FF 02", "02 23 12", 0, 0);
    three("02 20 74 00", "02 21 00 08 FF 02", "02 23 12", 0, 3);
    three("02 20 74 50", "02 21 00 08 FF 02", "02 23 12", 0, 3);
    /* The first is told, whatever else is wrong. */
    three("02 20 66 51", "02 21 00 08 FF 04", "02 23 34", 0, 1);
    three("02 20 76 51", "02 21 00 08 FF 04", "02 23 34", 0, 2);
    three("02 20 74 51", "02 21 00 08 FF 04", "02 23 34", 0, 3);
    three("02 20 74 11", "02 21 00 08 FF 04", "02 23 34", 0, 4);
    three("02 20 74 11", "02 21 00 08 FF 00", "02 23 34", 0, 5);
    three("02 20 74 11", "02 21 00 08 FF 02", "02 23 34", 0, 6);
    three("02 20 74 11", "02 21 00 08 FF 02", "02 23 12", 0, 7);
    /* 22 before any rule, and where all that there is keeps them. */
    for (unsigned held = 0; held < 7; held++)
        for (unsigned is_good = 0; is_good < 2; is_good++)
            three(!(held & 1) ? "" : is_good ? "02 20 74 10" : "02 20 66 51", !(held & 2) ? "" : is_good ? "02 21 00 08 FF 02" : "02 21 00 08 FF 04",
                !(held & 4) ? "" : is_good ? "02 23 12" : "02 23 34", 22, 0);
    trying("hb_profile", "null", 0);
    same_answer(hb_profile(NULL, 0), 11, 0, 0);
}

static void good_list(void) {
    list.count = 0;
    add(4, "02 23 12"), add(2, "02 21 00 08 FF 02"), add(1, "02 20 B4 11");
}

/* A good book in buffers of every length; and with both forms of a setting, with and without the kinds that count. */
static void buffers(void) {
    static uint8_t book[LONGEST];
    good_list();
    written(book, sizeof book);
    for (size_t n = 0; n <= sizeof book; n++) {
        trying("hb_profile", "length", n);
        same_answer(tried(book, n), n < START || n > MOST ? 11 : n < START + 13 ? 10 : 0, 0, 0);
    }
    for (size_t i = 0; i < 2 * PAIRS; i++) {
        const row *shorter = shorter_form(i / 2), *longer = shorter + 1;
        good_list();
        list.count = i % 2 ? 3 : 1;
        add(shorter->kind, shorter->frame);
        add(longer->kind, longer->frame);
        written(book, START + 58);
        trying("hb_profile", "both forms", shorter->kind);
        same_answer(tried(book, START + 58), 16, 0, 0);
        book[START + 57] = 1;
        same_answer(tried(book, START + 58), 10, 0, 0);
        same_answer(tried(book, START - 1), 11, 0, 0);
    }
}

/* ---- every combination, and random books */

/* A random number, and none of the other tests'. */
static uint64_t some(void) {
    static uint64_t state = 2026;
    return next_of(&state);
}

/* Frames of kinds 1, 2 and 4 with these arguments; those that no rule looks at are any. */
static void add_lora(unsigned sf, unsigned width, unsigned rate, unsigned ldro, unsigned header, unsigned crc, unsigned sync) {
    add(1, "02 20 00 00"), add(2, "02 21 00 00 00 00"), add(4, "02 23 00");
    uint8_t *modulation = list.frames[list.count - 3].bytes, *packet = list.frames[list.count - 2].bytes;
    modulation[2] = sf << 4 | width;
    modulation[3] = rate << 4 | (some() & 3) << 2 | ldro;
    for (size_t i = 2; i < 5; i++) packet[i] = some();
    packet[5] = header << 2 | crc << 1 | (some() & 1);
    list.frames[list.count - 1].bytes[2] = sync;
}

static void combinations(void) {
    uint8_t book[START + 13];
    memset(met, 0, sizeof met);
    for (unsigned n = 0; n < 8 * 16 * 10 * 16; n++) {
        list.count = 0;
        add_lora(5 + n % 8, n / 8 % 16, n / 128 % 10, n / 1280 % 2, n / 2560 % 2, n / 5120 % 2, n / 10240 ? 0x12 : 0x34);
        written(book, sizeof book);
        trying("hb_profile", "combination", n);
        tried(book, sizeof book);
    }
    /* Six spreading factors, two widths, four rates. */
    same("combinations that keep all rules", met[0], 48);
}

static bool rarely(void) {
    return some() % 12 == 0;
}

/* Most keep most rules; some lack a kind, some have both forms of a setting; other settings stand between, in any order. */
static void any_list(void) {
    unsigned sf = rarely() ? 5 + some() % 8 : 7 + some() % 6, width = rarely() ? some() % 16 : 4 + some() % 2;
    unsigned due = (sf == 11 && width == 4) || (sf == 12 && (width == 4 || width == 5));
    list.count = 0;
    add_lora(sf, width, rarely() ? some() % 10 : 1 + some() % 4, rarely() ? !due : due, rarely(), !rarely(), rarely() ? some() % 256 : 0x12);
    for (size_t i = 3; i > 0; i--)
        if (some() % 24 == 0) list.frames[i - 1] = list.frames[--list.count];
    for (size_t more = some() % 2 ? some() % 6 : some() % 40; more > 0; more--) {
        const row *r = &rows[some() % KINDS];
        if (r->kind != 1 && r->kind != 2 && r->kind != 4) add_any(some, r);
    }
    shuffle(some);
}

static void any_book(void) {
    static uint8_t book[LONGEST + 1];
    any_list();
    size_t n = any_buffer(some, book);
    trying("hb_profile", "a random book, length", n);
    tried(book, n);
}

void test_profiles(void) {
    by_hand();
    buffers();
    combinations();
    memset(met, 0, sizeof met);
    for (unsigned i = 0; i < 200000; i++) any_book();
    for (size_t i = 0; i < ANSWERS; i++) {
        trying("hb_profile", "answers that were met", i);
        same("whether it came often", met[i] > 1000, 1);
    }
    test_rust_profiles();
}
