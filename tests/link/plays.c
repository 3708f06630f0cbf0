/* hb_play: a worked example, traces by hand, and every beginning of a trace. plays.rs plays random traces. */
#include "link.h"

static uint8_t book[4200];

/* Plays a trace on a buffer of so many bytes, whose bytes then stand in `book`. */
static hb_day played(const uint8_t *trace, size_t len, size_t size) {
    const uint8_t *t = lend_const(trace, len);
    uint8_t *b = lend(size);
    hb_day day = hb_play(t, len, b, size);
    memcpy(book, b, size);
    lent -= 2;
    return day;
}

/* Every field of a day; of a response that was never read, each is 0. */
#define FIELD(field) same(#field, (uint64_t)got.field, (uint64_t)wanted.field);
static void same_counts(hb_day got, hb_day wanted) {
    FIELD(records) FIELD(accepted) FIELD(skipped)
    for (unsigned i = 0; i < 9; i++) FIELD(refused[i])
    FIELD(has_lora_rx_stats) FIELD(has_lora_packet_status) FIELD(has_fsk_rx_stats) FIELD(has_fsk_packet_status)
    FIELD(lora_rx_stats.refusal) FIELD(lora_rx_stats.status) FIELD(lora_rx_stats.pkt_rx) FIELD(lora_rx_stats.crc_error)
    FIELD(lora_rx_stats.header_error) FIELD(lora_rx_stats.detection) FIELD(lora_rx_stats.false_sync)
    FIELD(lora_packet_status.refusal) FIELD(lora_packet_status.status) FIELD(lora_packet_status.crc) FIELD(lora_packet_status.coding_rate)
    FIELD(lora_packet_status.pkt_length) FIELD(lora_packet_status.snr_pkt) FIELD(lora_packet_status.rssi_pkt)
    FIELD(lora_packet_status.rssi_signal_pkt) FIELD(lora_packet_status.detector)
    FIELD(fsk_rx_stats.refusal) FIELD(fsk_rx_stats.status) FIELD(fsk_rx_stats.pkt_rx) FIELD(fsk_rx_stats.crc_error)
    FIELD(fsk_rx_stats.len_error) FIELD(fsk_rx_stats.pbl_det) FIELD(fsk_rx_stats.sync_ok) FIELD(fsk_rx_stats.sync_fail)
    FIELD(fsk_rx_stats.timeout)
    FIELD(fsk_packet_status.refusal) FIELD(fsk_packet_status.status) FIELD(fsk_packet_status.pkt_len) FIELD(fsk_packet_status.rssi_avg)
    FIELD(fsk_packet_status.rssi_sync) FIELD(fsk_packet_status.addr_match_bcast) FIELD(fsk_packet_status.addr_match_node)
    FIELD(fsk_packet_status.lqi)
}

static void same_day(hb_day got, hb_day wanted) {
    FIELD(refusal) FIELD(place)
    same_counts(got, wanted);
}

/* The book is a fresh one of so many bytes into which these frames were put. */
static void holds(size_t size, const char *const *frames) {
    uint8_t wanted[4096], frame[12];
    hb_book_make(wanted, size);
    for (; *frames; frames++) same("a frame of the test", hb_book_put(wanted, size, frame, hex(*frames, frame)).refusal, 0);
    same_bytes(book, wanted, size, size);
}

/* Settings, a refused one, each request with its response, a response of another length, and one record fewer than announced. */
static const char example[] =
    "00 0D 00 04 00 03 02 23 34 00 06 02 00 33 BE 27 A0 00 04 02 22 05 02 00 02 02 29 01 0C 04 04 00 05 00 00 00 00 00 06 00 01 "
    "00 02 02 2A 01 08 04 04 11 18 F9 5A 5B 06 00 02 02 46 01 10 04 04 00 01 00 00 00 00 00 02 00 01 00 00 00 00 00 02 02 47 "
    "01 08 04 04 00 03 3C 3C 11 0C 01 03 01 02 03 02 00";

static const struct {
    const char *trace;
    size_t size;
    hb_day day;
    const char *frames[3];
} cases[] = {
    {example, 4096,
        {.refusal = 15, .place = 96, .records = 12, .accepted = 2, .skipped = 1, .refused = {[4] = 1}, .has_lora_rx_stats = true,
            .has_lora_packet_status = true, .has_fsk_rx_stats = true, .has_fsk_packet_status = true,
            .lora_rx_stats = {.status = 0x0404, .pkt_rx = 5, .detection = 6, .false_sync = 1},
            .lora_packet_status = {.status = 0x0404, .crc = true, .coding_rate = 1, .pkt_length = 24, .snr_pkt = -7, .rssi_pkt = 181,
                .rssi_signal_pkt = 182, .detector = 1},
            .fsk_rx_stats = {.status = 0x0404, .pkt_rx = 1, .pbl_det = 2, .sync_ok = 1},
            .fsk_packet_status = {.status = 0x0404, .pkt_len = 3, .rssi_avg = 120, .rssi_sync = 121, .addr_match_node = true, .lqi = 12}},
        {"02 23 34", "02 00 33 BE 27 A0"}},
    /* Faults of the header; a count of 0 and an offset past the end. */
    {"", START, {.refusal = 15}, {0}},
    {"00 01 00", 4096, {.refusal = 15}, {0}},
    {"00 01 00 03 00 02 02 28", START, {.refusal = 15}, {0}},
    {"00 00 00 00", START, {.refusal = 15}, {0}},
    {"00 00 00 04", START, {.refusal = 0}, {0}},
    {"00 00 FF FF", START, {.refusal = 0}, {0}},
    {"00 01 FF FF", START, {.refusal = 15, .place = 65535}, {0}},
    {"00 01 00 04", START, {.refusal = 15, .place = 4}, {0}},
    /* Faults of a record leave what was before; bytes between and behind do not count. */
    {"00 02 00 04 00 03 02 23 34 00", START + 8, {.refusal = 15, .place = 9, .records = 1, .accepted = 1}, {"02 23 34"}},
    {"00 02 00 04 00 03 02 23 34 00 02 02", START + 8, {.refusal = 15, .place = 9, .records = 1, .accepted = 1}, {"02 23 34"}},
    {"00 02 00 04 00 03 02 23 34 02 00", START + 8, {.refusal = 15, .place = 9, .records = 1, .accepted = 1}, {"02 23 34"}},
    {"00 02 00 04 00 03 02 23 34 FF 00", START + 8, {.refusal = 15, .place = 9, .records = 1, .accepted = 1}, {"02 23 34"}},
    {"00 01 00 07 FF FF FF 00 03 02 23 34 02 FF", START + 8, {.records = 1, .accepted = 1}, {"02 23 34"}},
    /* No room: refused, and the latest all the same; a kind that is held is overwritten, and room is what counts, not the number. */
    {"00 04 00 04 00 03 02 23 34 00 03 02 01 01 00 03 02 23 35 00 03 02 0F 00", START + 3,
        {.records = 4, .accepted = 2, .refused = {[8] = 2}}, {"02 23 35"}},
    {"00 02 00 04 00 03 02 23 34 00 03 02 01 01", START + 5, {.records = 2, .accepted = 1, .refused = {[8] = 1}}, {"02 23 34"}},
    {"00 02 00 04 00 03 02 23 34 00 03 02 01 01", START + 6, {.records = 2, .accepted = 2}, {"02 23 34", "02 01 01"}},
    {"00 03 00 04 00 02 02 29 00 03 02 23 34 01 0C 00 00 00 00 00 00 00 00 00 00 00 00", START,
        {.records = 3, .skipped = 1, .refused = {[8] = 1}}, {0}},
    /* A form takes the other's place; the longer one lacks a byte. */
    {"00 04 00 04 00 04 02 01 01 04 00 06 02 00 33 BE 27 A0 00 03 02 01 01 00 04 02 01 01 07", START + 10,
        {.records = 4, .accepted = 4}, {"02 01 01 07", "02 00 33 BE 27 A0"}},
    {"00 03 00 04 00 03 02 01 01 00 06 02 00 33 BE 27 A0 00 04 02 01 01 07", START + 9,
        {.records = 3, .accepted = 2, .refused = {[8] = 1}}, {"02 01 01", "02 00 33 BE 27 A0"}},
    /* A sync word of 64 bits is put, one of 65 refused by 5, and the book keeps the first. */
    {"00 02 00 04 00 0B 02 44 01 23 45 67 89 AB CD EF C0 00 0B 02 44 01 23 45 67 89 AB CD EF C1", START + 18,
        {.records = 2, .accepted = 1, .refused = {[5] = 1}}, {"02 44 01 23 45 67 89 AB CD EF C0"}},
    /* Every other refusal; an action in no counter; a request that is cut or too long is none. */
    {"00 09 00 04 00 00 00 01 02 00 02 03 23 00 03 02 28 00 00 04 02 22 00 80 00 04 02 20 40 10 00 02 02 28 00 03 02 29 00 "
        "01 0C 00 00 00 00 00 00 00 00 00 00 00 00", START,
        {.records = 9, .skipped = 1, .refused = {[1] = 2, [2] = 1, [3] = 2, [4] = 1, [5] = 1}}, {0}},
    /* A response of no bytes is skipped; of two readings the last one counts. */
    {"00 04 00 04 00 02 02 2A 01 00 01 08 00 00 00 01 00 00 00 00 01 08 00 00 00 02 80 FF FF FF", START,
        {.records = 4, .skipped = 1, .has_lora_packet_status = true,
            .lora_packet_status = {.pkt_length = 2, .snr_pkt = -128, .rssi_pkt = 511, .rssi_signal_pkt = 511, .detector = 15}}, {0}},
};

static void by_hand(void) {
    for (size_t i = 0; i < sizeof cases / sizeof *cases; i++) {
        uint8_t trace[200];
        trying("hb_play", cases[i].trace, cases[i].size);
        same_day(played(trace, hex(cases[i].trace, trace), cases[i].size), cases[i].day);
        holds(cases[i].size, cases[i].frames);
    }
    trying("hb_play of null", "", 0);
    uint8_t *b = lend(START);
    same_day(hb_play(NULL, 0, b, START), (hb_day){.refusal = 15});
    memcpy(book, b, START);
    holds(START, (const char *const[]){NULL});
    lent--;
}

/* A buffer that is no book is refused before the trace is looked at, and keeps its bytes. */
static void sizes(void) {
    const size_t bad[] = {0, 1, START - 1, 4097, 4200};
    uint8_t trace[200];
    for (size_t i = 0; i < 5; i++) {
        trying("hb_play", "size", bad[i]);
        same_day(played(trace, hex(example, trace), bad[i]), (hb_day){.refusal = 11});
        same_bytes(book, "", 0, bad[i]);
        same_day(played(trace, 0, bad[i]), (hb_day){.refusal = 11});
        same_bytes(book, "", 0, bad[i]);
    }
    same_day(hb_play(NULL, 0, NULL, 0), (hb_day){.refusal = 11});
}

/* The example with each smaller count, and with its bytes cut anywhere: the same day, but for the fault where a record is missing. */
static void beginnings(size_t size) {
    static uint8_t trace[200], before[4200];
    size_t len = hex(example, trace), at = 4;
    for (unsigned count = 0; count < 12; at += 2 + trace[at + 1], count++) {
        trace[1] = count;
        trying("hb_play", "count", count);
        hb_day day = played(trace, len, size);
        same("refusal", day.refusal, 0);
        same("records", day.records, count);
        memcpy(before, book, size);
        trace[1] = 13;
        for (size_t cut = at; cut < at + 2 + trace[at + 1]; cut++) {
            trying("hb_play", "cut at", cut);
            hb_day other = played(trace, cut, size);
            same("refusal", other.refusal, 15);
            same("place", other.place, at);
            same_counts(other, day);
            same_bytes(book, before, size, size);
        }
    }
}

void test_plays(void) {
    by_hand();
    sizes();
    beginnings(4096);
    beginnings(START + 4);
    test_rust_plays();
}
