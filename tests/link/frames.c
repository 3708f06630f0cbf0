/* hb_checked and hb_decode: a good call of each kind, and every refusal with its place. */
#include "link.h"

#define AS_ROW(kind, used, args, frame, other, bits) [kind - 1] = {kind, sizeof frame / 3, used, args, frame, other, bits},
const row rows[KINDS] = {ROWS(AS_ROW)};

int slot(uint64_t kind) {
    int below = 0;
    if (kind < 1 || kind > KINDS || rows[kind - 1].used == ACTION) return -1;
    for (const row *r = rows; r->kind < kind; r++) below += r->used != ACTION;
    return below;
}

uint64_t other_form(uint64_t kind) {
    if (slot(kind) < 0 || rows[kind - 1].used == SETTING) return 0;
    return rows[kind - 1].used == SHORTER ? kind + 1 : kind - 1;
}

const row *shorter_form(size_t pair) {
    const row *r = rows;
    while (r->used != SHORTER || pair-- > 0) r++;
    return r;
}

static void built(builder *build, uint64_t kind, const uint64_t *args, size_t n, const char *frame, uint32_t refusal, uint32_t place) {
    same_frame(build(kind, lend_const(args, 8 * n), n), frame, refusal, place);
    lent--;
}

void builds(builder *build, uint64_t kind, const char *text, const char *frame, uint32_t refusal, uint32_t place) {
    uint64_t args[12];
    trying(build == hb_checked ? "hb_checked" : "hb_plain", text, kind);
    built(build, kind, args, numbers(text, args), frame, refusal, place);
}

void builds_rows(builder *build) {
    for (const row *r = rows; r < rows + KINDS; r++) {
        uint64_t args[12] = {0};
        size_t n = numbers(r->args, args);
        builds(build, r->kind, r->args, r->frame, 0, 0);
        for (size_t few = 0; few < n; few++) built(build, r->kind, args, few, "", 6, few + 1);
        for (size_t many = n + 1; many <= 12; many++) built(build, r->kind, args, many, "", 6, n + 1);
    }
    const uint64_t none[] = {0, KINDS + 1, 255, 256, 257, (uint64_t)1 << 32, ((uint64_t)1 << 32) + 1, UINT64_MAX};
    for (size_t i = 0; i < sizeof none / sizeof *none; i++) builds(build, none[i], i % 2 ? "" : "7 4 1 0 0", "", 13, 0);
    trying("a builder with null", "", 0);
    same_frame(build(8, NULL, 0), "02 28", 0, 0);
    same_frame(build(1, NULL, 0), "", 6, 1);
    same_frame(build(0, NULL, 0), "", 13, 0);
}

static void decoded(const char *frame, uint64_t kind, const char *text, uint32_t refusal, uint32_t place) {
    uint8_t bytes[16];
    uint64_t args[12] = {0};
    size_t len = hex(frame, bytes), n = numbers(text, args);
    trying("hb_decode", frame, len);
    hb_decoded d = hb_decode(lend_const(bytes, len), len);
    lent--;
    same("refusal", d.refusal, refusal);
    same("place", d.place, place);
    same("kind", d.kind, kind);
    same("count", d.count, n);
    for (size_t i = 0; i < 9; i++) same("argument", d.args[i], i < n ? args[i] : 0);
}

/* Each argument too large. Two fields have 64 bits and take any number. */
static void too_large(const row *r) {
    uint64_t args[12];
    size_t n = numbers(r->args, args);
    trying("hb_checked, an argument too large,", r->args, r->kind);
    for (size_t i = 0; i < n; i++) {
        uint64_t good = args[i];
        args[i] |= (uint64_t)1 << (i % 2 ? 32 : 63);
        if (!(r->kind == 11 && i == 2) && !(r->kind == 20 && i == 0)) built(hb_checked, r->kind, args, n, "", 6, i + 1);
        args[i] = good;
    }
}

/* Worked examples; what an enum lacks; the unit that kind 17 refuses; the length that a sync word can have, a bad order before it. */
static void examples(void) {
    builds(hb_checked, 1, "7 4 1 0 0", "02 20 74 10", 0, 0);
    builds(hb_checked, 1, "12 7 9 1 3", "02 20 C7 9D", 0, 0);
    builds(hb_checked, 29, "16777215", "02 0C FF FF FF", 0, 0);
    builds(hb_checked, 29, "16777216", "", 6, 1);
    builds(hb_checked, 27, "1 0 0 0", "02 02 80 00", 0, 0);
    builds(hb_checked, 27, "0 0 8 0", "", 6, 3);
    builds(hb_checked, 18, "0 4096", "", 6, 2);
    builds(hb_checked, 11, "2 1 258", "02 2B 21 02 01 00 00 00 00 00 00", 0, 0);
    builds(hb_checked, 17, "0 0 0 1 0 0 0 0 0", "", 6, 4);
    builds(hb_checked, 7, "0 0 0 2 0 0", "", 6, 4);
    builds(hb_checked, 20, "81985529216486895 0 64", "02 44 01 23 45 67 89 AB CD EF 40", 0, 0);
    builds(hb_checked, 20, "81985529216486895 1 64", "02 44 01 23 45 67 89 AB CD EF C0", 0, 0);
    builds(hb_checked, 20, "0 1 0", "02 44 00 00 00 00 00 00 00 00 80", 0, 0);
    builds(hb_checked, 20, "81985529216486895 0 65", "", 6, 3);
    builds(hb_checked, 20, "81985529216486895 1 127", "", 6, 3);
    builds(hb_checked, 20, "0 2 65", "", 6, 2);
}

/* Each refusal of the decoder, at each place where it can be first. */
static const struct {
    const char *frame;
    uint32_t refusal, place;
} refused[] = {{"", 1, 0}, {"02", 1, 0}, {"03 20 74 10", 2, 0}, {"02 2C", 2, 0}, {"FF FF FF FF", 2, 0}, {"02 0C", 3, 0}, {"02 20 74", 3, 0},
    {"02 20 74 10 00", 3, 0}, {"02 42 20 00", 4, 2}, {"02 02 04 00", 4, 2}, {"02 22 00 80", 4, 3}, {"02 2E 00 00 20 00 00 00", 4, 4},
    {"02 41 00 00 07 80 00 00 00", 4, 5}, {"02 2E 00 00 00 00 20 20", 4, 6}, {"02 2E 00 00 00 00 00 80", 4, 7},
    {"02 26 00 00 00 00 00 00 80 00 00 00", 4, 8}, {"02 20 40 A0", 5, 2}, {"02 20 74 A0", 5, 3}, {"02 27 00 00 02 00 00 00 00", 5, 4},
    {"02 41 00 00 00 0C 00 00 50", 5, 5}, {"02 1B 00 00 00 00 03 00 00 00", 5, 6}, {"02 40 00 00 00 00 00 01 00 00 00", 5, 7},
    {"02 41 00 00 00 00 00 00 50", 5, 8}, {"02 44 01 23 45 67 89 AB CD EF 41", 5, 10}, {"02 44 01 23 45 67 89 AB CD EF C1", 5, 10},
    {"02 44 00 00 00 00 00 00 00 00 7F", 5, 10}};

void test_frames(void) {
    builds_rows(hb_checked);
    examples();
    for (const row *r = rows; r < rows + KINDS; r++) {
        too_large(r);
        decoded(r->frame, r->kind, r->args, 0, 0);
    }
    for (size_t i = 0; i < sizeof refused / sizeof *refused; i++) decoded(refused[i].frame, 0, "", refused[i].refusal, refused[i].place);
    trying("hb_decode of null", "", 0);
    same("refusal", hb_decode(NULL, 0).refusal, 1);
}
