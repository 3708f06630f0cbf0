/* The header's names against the library: each kind builds and decodes to itself, the builders take exactly the codes and the numbers that it says, the
 * sizes are the greatest that come, and the refusals come where their name says. named.h lists the names. */
#include "link.h"

#include "named.h"

enum {
    COUNT = sizeof named_kinds / sizeof *named_kinds,
    CODES = sizeof named_codes / sizeof *named_codes,
    LIMITS = sizeof named_limits / sizeof *named_limits
};

/* A call that every kind takes: zeros, but for the spreading factor. */
static size_t plainest(uint64_t kind, uint64_t *args) {
    memset(args, 0, HB_ARGS_MAX * sizeof *args);
    if (kind == HB_SET_LORA_MODULATION_PARAMS) args[0] = HB_SF_7;
    return named_kinds[kind - 1].count;
}

static void kinds(void) {
    size_t longest = 0, most = 0, settings = 0;
    uint64_t args[HB_ARGS_MAX];
    uint8_t book[HB_BOOK_ALL];
    hb_book_make(book, sizeof book);
    same("kinds", COUNT, HB_KINDS);
    for (size_t i = 0; i < COUNT; i++) {
        trying("a kind's name", "kind", named_kinds[i].number);
        size_t n = plainest(named_kinds[i].kind, args);
        hb_frame frame = hb_checked(named_kinds[i].kind, args, n);
        hb_decoded said = hb_decode(frame.bytes, frame.len);
        same("number", named_kinds[i].kind, i + 1);
        same("number", named_kinds[i].number, i + 1);
        same("refusal", frame.refusal, 0);
        same("length", frame.len, named_kinds[i].len);
        same("kind", said.kind, named_kinds[i].kind);
        same("arguments", said.count, n);
        same("refusal with an argument more", hb_checked(named_kinds[i].kind, args, n + 1).refusal, HB_REFUSED_ARGUMENT_OUTSIDE);
        if (frame.len > longest) longest = frame.len;
        if (n > most) most = n;
        uint32_t refusal = hb_book_put(book, sizeof book, frame.bytes, frame.len).refusal;
        if (refusal != HB_REFUSED_NOT_A_KIND) same("refusal of a setting", refusal, 0);
        settings += refusal == 0;
    }
    size_t frames = (book[2] << 8 | book[3]) - HB_BOOK_MIN;
    same("refusal of the kind behind the last", hb_checked(HB_KINDS + 1, NULL, 0).refusal, HB_REFUSED_NOT_A_KIND);
    same("HB_FRAME_MAX", HB_FRAME_MAX, longest);
    same("HB_FRAME_MAX in hb_frame", sizeof ((hb_frame *)0)->bytes, longest);
    same("HB_ARGS_MAX", HB_ARGS_MAX, most);
    same("HB_ARGS_MAX in hb_decoded", sizeof ((hb_decoded *)0)->args / sizeof(uint64_t), most);
    same("HB_SETTINGS", HB_SETTINGS, settings);
    same("settings in the book, some of them kept in one form of two", book[1], settings - PAIRS);
    same("HB_BOOK_ALL", HB_BOOK_ALL, HB_BOOK_MIN + frames);
    same("HB_REPLAY_MAX", HB_REPLAY_MAX, frames + book[1]);
}

/* Whether one of the first n codes. */
static bool is_code(size_t i, size_t n, uint64_t v) {
    for (size_t j = 0; j < n; j++)
        if (named_codes[i].codes[j] == v) return true;
    return false;
}

static void codes(void) {
    for (size_t i = 0; i < CODES; i++) {
        uint64_t args[HB_ARGS_MAX], kind = named_codes[i].kind, *arg = &args[named_codes[i].argument - 1];
        size_t n = plainest(kind, args), taken = named_codes[i].count, plainly = taken + named_codes[i].more;
        for (uint64_t v = 0; v <= 300; v++) {
            trying("the codes of a kind's argument", "code", v);
            *arg = v;
            hb_frame checked = hb_checked(kind, args, n), plain = hb_plain(kind, args, n);
            same("refusal", checked.refusal, is_code(i, taken, v) ? 0 : HB_REFUSED_ARGUMENT_OUTSIDE);
            same("place", checked.place, checked.refusal ? named_codes[i].argument : 0);
            same("refusal of hb_plain", plain.refusal, is_code(i, plainly, v) ? 0 : HB_REFUSED_ARGUMENT_OUTSIDE);
            if (!checked.refusal) same("code read back", hb_decode(checked.bytes, checked.len).args[named_codes[i].argument - 1], v);
        }
    }
}

/* The greatest number that the header says of an argument is taken, and the next is not; hb_plain takes any. */
static void limits(void) {
    for (size_t i = 0; i < LIMITS; i++) {
        uint64_t args[HB_ARGS_MAX], kind = named_limits[i].kind, *arg = &args[named_limits[i].argument - 1];
        size_t n = plainest(kind, args);
        trying("the limit of a kind's argument", "kind", kind);
        *arg = named_limits[i].most;
        hb_frame frame = hb_checked(kind, args, n);
        same("refusal", frame.refusal, 0);
        same("number read back", hb_decode(frame.bytes, frame.len).args[named_limits[i].argument - 1], *arg);
        if (*arg == UINT64_MAX) continue;
        *arg += 1;
        frame = hb_checked(kind, args, n);
        same("refusal past the limit", frame.refusal, HB_REFUSED_ARGUMENT_OUTSIDE);
        same("place", frame.place, named_limits[i].argument);
        same("refusal of hb_plain", hb_plain(kind, args, n).refusal, 0);
    }
}

/* The book's bounds: one byte less or more is refused, and in HB_BOOK_ALL bytes all settings fit exactly. */
static void books(void) {
    static uint8_t book[HB_BOOK_MAX + 1], reel[HB_REPLAY_MAX], out[HB_FRAME_MAX];
    uint64_t args[HB_ARGS_MAX];
    trying("a book's bounds", "", 0);
    same_answer(hb_book_make(book, HB_BOOK_MIN), 0, 0, 0);
    same_answer(hb_book_make(book, HB_BOOK_MAX), 0, 0, 0);
    same_answer(hb_book_make(book, HB_BOOK_MIN - 1), HB_REFUSED_BUFFER_SIZE, 0, 0);
    same_answer(hb_book_make(book, HB_BOOK_MAX + 1), HB_REFUSED_BUFFER_SIZE, 0, 0);
    for (size_t size = HB_BOOK_ALL - 1; size <= HB_BOOK_ALL; size++) {
        uint32_t refusal = 0;
        hb_book_make(book, size);
        for (size_t i = 0; i < COUNT; i++) {
            hb_frame frame = hb_checked(named_kinds[i].kind, args, plainest(named_kinds[i].kind, args));
            uint32_t why = hb_book_put(book, size, frame.bytes, frame.len).refusal;
            if (why == HB_REFUSED_NO_ROOM) refusal = why;
        }
        same("refusal of a setting", refusal, size < HB_BOOK_ALL ? HB_REFUSED_NO_ROOM : 0);
    }
    same_answer(hb_book_replay(book, HB_BOOK_ALL, reel, HB_REPLAY_MAX), 0, 0, HB_REPLAY_MAX);
    same_answer(hb_book_replay(book, HB_BOOK_ALL, reel, HB_REPLAY_MAX - 1), HB_REFUSED_OUTPUT_SHORT, 0, 0);
    same_answer(hb_book_ask(book, HB_BOOK_ALL, HB_CONFIG_LORA_PREAMBLE_MODULATION_ADV, out, HB_FRAME_MAX), 0, 0, HB_FRAME_MAX);
    same_answer(hb_book_ask(book, HB_BOOK_ALL, HB_SET_RX_PATH, out, HB_FRAME_MAX), HB_REFUSED_NOT_HELD, 0, 0);
    book[0] = VERSION + 1;
    same_answer(hb_book_clear(book, HB_BOOK_ALL), HB_REFUSED_NOT_WELL_FORMED, 0, 0);
    const uint8_t both[START + 7] = {VERSION, 2, [3] = START + 7, [43] = START, [45] = START + 3, [START] = 2, 1, 1, 2, 1, 1, 4};
    same_answer(hb_book_replay(both, sizeof both, reel, HB_REPLAY_MAX), HB_REFUSED_BOTH_FORMS, 0, 0);
}

/* The longest texts. */
static void texts(void) {
    uint8_t out[HB_LEVEL_TEXT_MAX + HB_SNR_TEXT_MAX];
    uint64_t level = 0, ratio = 0;
    trying("the longest texts", "", 0);
    for (unsigned count = 0; count < 65536; count++) {
        hb_answer a = hb_level_text(count, out, sizeof out), b = hb_snr_text((int8_t)(count % 256), out, sizeof out);
        if (a.value > level) level = a.value;
        if (b.value > ratio) ratio = b.value;
    }
    same("HB_LEVEL_TEXT_MAX", HB_LEVEL_TEXT_MAX, level);
    same("HB_SNR_TEXT_MAX", HB_SNR_TEXT_MAX, ratio);
}

/* A reel of n bytes that are all the same: empty frames, cut ones, and any. */
static void dumps(void) {
    static uint8_t reel[1200], text[HB_DUMP_MAX(sizeof reel)];
    for (unsigned byte = 0; byte < 256; byte++)
        for (size_t n = 0; n <= sizeof reel; n = 3 * n + 1) {
            trying("the bound of a dump", "bytes", n);
            memset(reel, byte, sizeof reel);
            same("refusal", hb_dump(reel, n, text, HB_DUMP_MAX(n)).refusal, 0);
        }
    uint64_t longest = 0;
    for (size_t i = 0; i < KINDS; i++) {
        reel[0] = hex(rows[i].other, reel + 1);
        uint64_t line = hb_dump(reel, 1 + reel[0], text, HB_DUMP_LINE_MAX).value;
        if (line > longest) longest = line;
    }
    trying("the longest line", "its index has one digit, not 20", longest);
    same("HB_DUMP_LINE_MAX", HB_DUMP_LINE_MAX, longest + 19);
}

/* The refusals that no test above gives. */
static void refusals(void) {
    trying("a refusal's name", "", 0);
    same("short frame", hb_decode((const uint8_t *)"\x02", 1).refusal, HB_REFUSED_SHORT_FRAME);
    same("unknown opcode", hb_decode((const uint8_t *)"\x03\x23\x34", 3).refusal, HB_REFUSED_UNKNOWN_OPCODE);
    same("wrong length", hb_decode((const uint8_t *)"\x02\x23", 2).refusal, HB_REFUSED_WRONG_LENGTH);
    same("stray bit", hb_decode((const uint8_t *)"\x02\x01\x02", 3).refusal, HB_REFUSED_STRAY_BIT);
    same("unknown code", hb_decode((const uint8_t *)"\x02\x20\x40\x10", 4).refusal, HB_REFUSED_UNKNOWN_CODE);
    same("number over its limit", hb_decode((const uint8_t *)"\x02\x44\0\0\0\0\0\0\0\0\x41", 11).refusal, HB_REFUSED_UNKNOWN_CODE);
    same("response's length", hb_rssi_inst((const uint8_t *)"\0\0\0", 3).refusal, HB_REFUSED_RESPONSE_LENGTH);
    same("cut reel", hb_reel_step((const uint8_t *)"\x02\x28", 2, 0).refusal, HB_REFUSED_REEL_CUT);
    uint8_t book[HB_BOOK_MIN], owners[HB_SETTINGS];
    same("faulty trace", hb_play(NULL, 0, book, sizeof book).refusal, HB_REFUSED_TRACE_FAULT);
    hb_book_make(book, sizeof book);
    memset(owners, 1, sizeof owners);
    same("no owner table", hb_side_clear(book, sizeof book, NULL, 0, 0, 0, 1).refusal, HB_REFUSED_OWNERS_WRONG);
    same("other side", hb_side_remove(book, sizeof book, owners, sizeof owners, 0, 0, 2, HB_SET_RF_FREQUENCY).refusal, HB_REFUSED_OTHER_SIDE);
    const uint64_t unserved = 3076924, needs[HB_BANKS_MAX + 1] = {0};
    uint8_t codes[HB_BANKS_MAX + 1] = {HB_RX_BW_AUTO};
    same("no width", hb_widths_check(&unserved, 1, codes, 1).refusal, HB_REFUSED_NO_WIDTH);
    same("not the narrowest", hb_widths_check(needs, 1, codes, 1).refusal, HB_REFUSED_NOT_NARROWEST);
    same("too many banks", hb_widths_find(needs, HB_BANKS_MAX + 1, codes, HB_BANKS_MAX + 1).refusal, HB_REFUSED_LIST_LENGTH);
    same("as many as may be", hb_widths_find(needs, HB_BANKS_MAX, codes, HB_BANKS_MAX).value, HB_BANKS_MAX);
    same("a setting missing", hb_profile(book, sizeof book).refusal, HB_REFUSED_SETTING_MISSING);
}

/* A book with these three settings, built by the header's names. */
static uint64_t rule_of(const uint64_t *modulation, const uint64_t *packet, uint64_t syncword) {
    uint8_t book[HB_BOOK_ALL];
    const hb_frame frames[] = {hb_checked(HB_SET_LORA_MODULATION_PARAMS, modulation, 5), hb_checked(HB_SET_LORA_PACKET_PARAMS, packet, 5),
        hb_checked(HB_SET_LORA_SYNCWORD, &syncword, 1)};
    hb_book_make(book, sizeof book);
    for (size_t i = 0; i < 3; i++) hb_book_put(book, sizeof book, frames[i].bytes, frames[i].len);
    hb_answer a = hb_profile(book, sizeof book);
    same("refusal", a.refusal, 0);
    return a.value;
}

/* Each rule by its name. */
static void rules(void) {
    const uint64_t good[] = {HB_SF_11, HB_LORA_BW_125, HB_LORA_CR_CR4_HAM12_SI, HB_LDRO_ON, HB_LORA_FILTER_AUTO};
    const uint64_t packet[] = {8, 32, HB_HEADER_TYPE_EXPLICIT, 1, 0}, implicit[] = {8, 32, HB_HEADER_TYPE_IMPLICIT, 1, 0};
    const uint64_t unchecked[] = {8, 32, HB_HEADER_TYPE_EXPLICIT, 0, 0};
    const struct {
        size_t argument;
        uint64_t code, rule;
    } wrong[] = {{0, HB_SF_6, HB_RULE_SPREADING_FACTOR}, {1, HB_LORA_BW_500, HB_RULE_WIDTH}, {2, HB_LORA_CR_NO_CODING, HB_RULE_RATE},
        {2, HB_LORA_CR_CR5_HAM45_LI, HB_RULE_RATE}, {3, HB_LDRO_OFF, HB_RULE_OPTIMISATION}, {0, HB_SF_10, HB_RULE_OPTIMISATION}};
    trying("a rule's name", "", 0);
    same("none", rule_of(good, packet, 0x12), 0);
    for (size_t i = 0; i < sizeof wrong / sizeof *wrong; i++) {
        uint64_t modulation[5];
        memcpy(modulation, good, sizeof good);
        modulation[wrong[i].argument] = wrong[i].code;
        same("rule of kind 1", rule_of(modulation, packet, 0x12), wrong[i].rule);
    }
    same("header", rule_of(good, implicit, 0x12), HB_RULE_HEADER);
    same("crc", rule_of(good, unchecked, 0x12), HB_RULE_CRC);
    same("syncword", rule_of(good, packet, 0x34), HB_RULE_SYNCWORD);
}

static hb_status_t word(unsigned high, unsigned low) {
    const uint8_t bytes[] = {(uint8_t)high, (uint8_t)low};
    return hb_status(bytes, 2);
}

static void statuses(void) {
    static const uint32_t cmd[] = {HB_CMD_FAIL, HB_CMD_P_ERR, HB_CMD_OK, HB_CMD_DATA, HB_CMD_UNKNOWN, HB_CMD_UNKNOWN, HB_CMD_UNKNOWN, HB_CMD_UNKNOWN};
    static const uint32_t reset[] = {HB_RESET_CLEARED, HB_RESET_ANALOG, HB_RESET_EXTERNAL, HB_RESET_UNKNOWN, HB_RESET_WATCHDOG, HB_RESET_IOCD,
        HB_RESET_RTC, HB_RESET_UNKNOWN};
    static const uint32_t mode[] = {HB_CHIP_MODE_SLEEP, HB_CHIP_MODE_RC, HB_CHIP_MODE_XOSC, HB_CHIP_MODE_FS, HB_CHIP_MODE_RX, HB_CHIP_MODE_TX,
        HB_CHIP_MODE_UNKNOWN, HB_CHIP_MODE_UNKNOWN};
    for (unsigned i = 0; i < 8; i++) {
        trying("a status's name", "bits", i);
        same("cmd", word(i << 1, 0).cmd, cmd[i]);
        same("ok", word(i << 1, 0).ok, cmd[i] == HB_CMD_OK || cmd[i] == HB_CMD_DATA);
        same("reset_src", word(0, i << 4).reset_src, reset[i]);
        same("reset_src from 8 on", word(0, (i + 8) << 4).reset_src, HB_RESET_UNKNOWN);
        same("chip_mode", word(0, i).chip_mode, mode[i]);
    }
    for (unsigned code = 0; code < 256; code++) {
        trying("the widths that have a name", "code", code);
        same("LoraBw", hb_lora_bw_hz(code) != 0, code <= HB_LORA_BW_812);
    }
    same("HB_RX_BW_AUTO", hb_rx_bw_tenths(HB_RX_BW_AUTO), 0);
    same("HB_RX_BW_9P6", hb_rx_bw_tenths(HB_RX_BW_9P6), 96);
    same("HB_LORA_BW_125", hb_lora_bw_hz(HB_LORA_BW_125), 125000);
}

void test_names(void) {
    kinds();
    codes();
    limits();
    books();
    texts();
    dumps();
    refusals();
    rules();
    statuses();
}
