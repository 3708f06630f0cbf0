/* Reels and their dumps. */
#include "link.h"

static void stepped(const uint8_t *reel, size_t n, uint64_t at, hb_step wanted) {
    trying("hb_reel_step", "place", at);
    hb_step s = hb_reel_step(reel, n, at);
    same("refusal", s.refusal, wanted.refusal);
    same("ended", s.ended, wanted.ended);
    same("start", s.start, wanted.start);
    same("end", s.end, wanted.end);
    same("next", s.next, wanted.next);
}

/* From every place of a reel, also one inside a frame, and from places past its end. */
static void steps(const uint8_t *bytes, size_t n) {
    const uint8_t *reel = lend_const(bytes, n);
    const hb_step end = {0, 1, 0, 0, 0}, cut = {14, 0, 0, 0, 0};
    for (size_t at = 0; at < n; at++) {
        uint64_t behind = at + 1 + bytes[at];
        stepped(reel, n, at, behind > n ? cut : (hb_step){0, 0, at + 1, behind, behind});
    }
    stepped(reel, n, n, end);
    stepped(reel, n, n + 1, cut);
    stepped(reel, n, (uint64_t)1 << 32, cut);
    stepped(reel, n, (uint64_t)1 << 63, cut);
    stepped(reel, n, UINT64_MAX, cut);
    lent--;
}

/* The text, line by line; hb_decode has tests of its own. */
static size_t text_of(const uint8_t *reel, size_t n, char *to, size_t room) {
    size_t len = 0, at = 0;
    for (unsigned index = 0; at < n; index++) {
        size_t end = at + 1 + reel[at];
        if (end > n) return len + snprintf(to + len, room - len, "%u 0 14 0\n", index);
        hb_decoded d = hb_decode(reel + at + 1, reel[at]);
        len += snprintf(to + len, room - len, "%u %u %u %u", index, d.kind, d.refusal, d.place);
        for (unsigned i = 0; i < d.count; i++) len += snprintf(to + len, room - len, " %llu", (unsigned long long)d.args[i]);
        len += snprintf(to + len, room - len, "\n");
        at = end;
    }
    return len;
}

static void dumped(const char *name, const uint8_t *bytes, size_t n, const char *text, size_t len) {
    const uint8_t *reel = lend_const(bytes, n);
    trying("hb_dump", name, n);
    for (size_t room = len ? len - 1 : 0; room <= len + 5; room++) {
        uint8_t *out = lend(room);
        hb_answer a = hb_dump(reel, n, out, room);
        same_answer(a, room < len ? 12 : 0, 0, room < len ? 0 : len);
        same_bytes(out, text, room < len ? 0 : len, room);
        lent--;
    }
    same_answer(hb_dump(reel, n, NULL, 0), len ? 12 : 0, 0, 0);
    lent--;
}

static void both(const char *name, const uint8_t *bytes, size_t n) {
    static char text[60000];
    steps(bytes, n);
    dumped(name, bytes, n, text, text_of(bytes, n, text, sizeof text));
}

void test_reels(void) {
    static uint8_t reel[6000];
    static const char example[] = "0 4 0 0 52\n1 8 0 0\n2 1 0 0 7 12 1 0 0\n3 0 1 0\n";
    size_t n = hex("03 02 23 34 02 02 28 04 02 20 7C 10 00", reel);
    dumped("the reference's example", reel, n, example, sizeof example - 1);
    for (size_t cut = 0; cut <= n; cut++) both("the reference's example, cut", reel, cut);
    for (size_t i = n = 0; i < KINDS; i++) {
        reel[n] = hex(rows[i].frame, reel + n + 1);
        n += 1 + reel[n];
        reel[n] = hex(rows[i].other, reel + n + 1);
        n += 1 + reel[n];
    }
    both("every kind", reel, n);
    for (unsigned i = 0; i < 200; i++) {
        for (size_t j = 0; j < 300; j++) reel[j] = j % 14 && i % 2 ? any() : any() % 14;
        both("any bytes", reel, any() % 300);
    }
    memset(reel, 0, 1100);
    both("more than a thousand frames", reel, 1100);
    memset(reel, 255, 513);
    both("longest frames, and one cut", reel, 513);
    trying("reels that are null", "", 0);
    stepped(NULL, 0, 0, (hb_step){0, 1, 0, 0, 0});
    stepped(NULL, 0, 1, (hb_step){14, 0, 0, 0, 0});
    same_answer(hb_dump(NULL, 0, NULL, 0), 0, 0, 0);
    uint8_t *out = lend(4);
    same_answer(hb_dump(NULL, 0, out, 4), 0, 0, 0);
    same_bytes(out, "", 0, 4);
    lent = 0;
}
