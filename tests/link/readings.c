/* Levels, ratios, counters and widths: every input there is, or all pairs of many, against arithmetic of the tests' own. */
#include "link.h"

/* The text into an output that fits, one that is longer, and one that is a byte too short and is kept; and null. */
static void text(hb_answer (*write)(int, uint8_t *, size_t), int count, const char *wanted, size_t len) {
    for (size_t room = len - 1; room <= len + 1; room++) {
        uint8_t *out = lend(room);
        hb_answer a = write(count, out, room);
        same_answer(a, room < len ? 12 : 0, 0, room < len ? 0 : len);
        same_bytes(out, wanted, room < len ? 0 : len, room);
        lent--;
    }
    same_answer(write(count, NULL, 0), 12, 0, 0);
}

static hb_answer level(int count, uint8_t *out, size_t n) {
    return hb_level_text(count, out, n);
}

static hb_answer ratio(int count, uint8_t *out, size_t n) {
    return hb_snr_text(count, out, n);
}

static void texts(void) {
    char wanted[16];
    for (int count = 0; count < 65536; count++) {
        trying("hb_level_text", "count", count);
        text(level, count, wanted, snprintf(wanted, sizeof wanted, "%s%d.%d", count ? "-" : "", count / 2, 5 * (count % 2)));
    }
    for (int count = -128; count < 128; count++) {
        int size = count < 0 ? -count : count;
        trying("hb_snr_text", "count as a byte", (uint8_t)count);
        text(ratio, count, wanted, snprintf(wanted, sizeof wanted, "%s%d.%02d", count < 0 ? "-" : "", size / 4, 25 * (size % 4)));
    }
    trying("texts of the reference", "", 0);
    text(level, 181, "-90.5", 5);
    text(level, 0, "0.0", 3);
    text(ratio, -128, "-32.00", 6);
    text(ratio, -1, "-0.25", 5);
}

/* Rounded down: from 1 MHz by halves, from 1/12 MHz by halves, from 812.5 kHz by halves. */
static uint32_t hz(unsigned code) {
    if (code < 8) return 1000000 >> (7 - code);
    if (code < 12) return 1000000 / 12 >> (11 - code);
    return code < 16 ? 812500 >> (15 - code) : 0;
}

/* The rule of REFERENCE, "Widths"; the codes that RxBw lists are the bits that are set, from code 0 on, and BwAuto is 255. */
static uint16_t tenths(unsigned code) {
    static const uint64_t listed[] = {0x000000FFFFBE0001, 0x000000FFFFFE0001, 0x000000FFFF010101, 0x800000FFDFBF0101};
    static const unsigned m[] = {13, 14, 15, 18};
    if (code == 255 || !(listed[code / 64] >> code % 64 & 1)) return 0;
    unsigned divisor = m[code >> 6] * ((code >> 3 & 7) + 1) << (code & 7);
    return divisor <= 4000 ? 40000 / divisor * 10 : (2 * 400000 + divisor) / (2 * divisor);
}

void test_readings(void) {
    texts();
    for (unsigned code = 0; code < 256; code++) {
        trying("hb_lora_bw_hz", "code", code);
        same("width", hb_lora_bw_hz(code), hz(code));
        trying("hb_rx_bw_tenths", "code", code);
        same("name", hb_rx_bw_tenths(code), tenths(code));
    }
    trying("hb_counter_difference", "past the end", 4);
    same("difference", hb_counter_difference(65535, 3), 4);
    for (unsigned earlier = 0; earlier < 65536; earlier += 251)
        for (unsigned later = 0; later < 65536; later += 241) {
            trying("hb_counter_difference", "later", later);
            same("difference", hb_counter_difference(earlier, later), (later + 65536 - earlier) % 65536);
        }
}
