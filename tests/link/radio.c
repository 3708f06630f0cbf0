/* Status, interrupts and the seven responses, against bits of the tests' own. */
#include "link.h"

static uint16_t two(const uint8_t *b) {
    return b[0] << 8 | b[1];
}

/* A level: twice byte n plus a bit. */
static uint16_t half(const uint8_t *b, unsigned n, unsigned byte, unsigned bit) {
    return 2 * b[n] + (b[byte] >> bit & 1);
}

/* A response of another length is refused, and every field is 0. */
#define RESPONSE(name, size, fields) \
    static void name(const uint8_t *b, size_t n) { \
        trying("hb_" #name, "length", n); \
        hb_##name##_t r = hb_##name(b, n); \
        bool good = n == size; \
        same("refusal", r.refusal, good ? 0 : 7); \
        FIELD(status, two(b)) \
        fields \
    }
#define FIELD(field, value) same(#field, (uint64_t)r.field, good ? (uint64_t)(value) : 0);

RESPONSE(lora_rx_stats, 12,
    FIELD(pkt_rx, two(b + 2)) FIELD(crc_error, two(b + 4)) FIELD(header_error, two(b + 6)) FIELD(detection, two(b + 8))
    FIELD(false_sync, two(b + 10)))
RESPONSE(lora_packet_status, 8,
    FIELD(crc, b[2] >> 4 & 1) FIELD(coding_rate, b[2] & 15) FIELD(pkt_length, b[3]) FIELD(snr_pkt, (int8_t)b[4])
    FIELD(rssi_pkt, half(b, 5, 7, 1)) FIELD(rssi_signal_pkt, half(b, 6, 7, 0)) FIELD(detector, b[7] >> 2 & 15))
RESPONSE(fsk_rx_stats, 16,
    FIELD(pkt_rx, two(b + 2)) FIELD(crc_error, two(b + 4)) FIELD(len_error, two(b + 6)) FIELD(pbl_det, two(b + 8))
    FIELD(sync_ok, two(b + 10)) FIELD(sync_fail, two(b + 12)) FIELD(timeout, two(b + 14)))
RESPONSE(fsk_packet_status, 8,
    FIELD(pkt_len, two(b + 2)) FIELD(rssi_avg, half(b, 4, 6, 2)) FIELD(rssi_sync, half(b, 5, 6, 0))
    FIELD(addr_match_bcast, b[6] >> 5 & 1) FIELD(addr_match_node, b[6] >> 4 & 1) FIELD(lqi, b[7]))
RESPONSE(rssi_inst, 4, FIELD(rssi, half(b, 2, 3, 0)))
RESPONSE(timestamp_value, 6, FIELD(timestamp, (uint32_t)two(b + 2) << 16 | two(b + 4)))
RESPONSE(cca_result, 6, FIELD(rssi_min, half(b, 2, 5, 2)) FIELD(rssi_max, half(b, 3, 5, 1)) FIELD(rssi_avg, half(b, 4, 5, 0)))

static void status(const uint8_t *b, size_t n, uint16_t word) {
    static const uint32_t reset[16] = {0, 1, 2, 16, 4, 5, 6, 16, 16, 16, 16, 16, 16, 16, 16, 16};
    unsigned cmd = word >> 9 & 7, chip = word & 7;
    trying("hb_status", "word", word);
    hb_status_t s = hb_status(b, n);
    same("value", s.value, word);
    same("irq", s.irq, word >> 8 & 1);
    same("ok", s.ok, cmd == 2 || cmd == 3);
    same("cmd", s.cmd, cmd < 4 ? cmd : 8);
    same("reset_src", s.reset_src, reset[word >> 4 & 15]);
    same("chip_mode", s.chip_mode, chip < 6 ? chip : 8);
}

/* Every word; and 0 to 4 bytes, of which the first two count. */
static void statuses(void) {
    uint8_t *b = lend(2);
    for (unsigned word = 0; word < 65536; word++) {
        b[0] = word >> 8;
        b[1] = word;
        status(b, 2, word);
    }
    status(NULL, 0, 0);
    for (size_t n = 0; n <= 4; n++) status(lend_const("\x05\x46\xFF\xFF", n), n, n == 0 ? 0 : n == 1 ? 0x0500 : 0x0546);
    lent = 0;
}

/* In the order of their bits (REFERENCE, "Status and interrupts"). */
static const uint32_t interrupts[32] = {
    HB_IRQ_RX_FIFO, HB_IRQ_TX_FIFO, HB_IRQ_RNG_REQ_VLD, HB_IRQ_TX_TIMESTAMP, HB_IRQ_RX_TIMESTAMP, HB_IRQ_PREAMBLE_DETECTED,
    HB_IRQ_HEADER_VALID, HB_IRQ_CAD_DETECTED, HB_IRQ_LORA_HDR_TIMESTAMP, HB_IRQ_HEADER_ERR, HB_IRQ_EOL, HB_IRQ_PA, HB_IRQ_LORA_TX_RX_HOP,
    HB_IRQ_SYNC_FAIL, HB_IRQ_LORA_SYMBOL_END, HB_IRQ_LORA_TIMESTAMP_STAT, HB_IRQ_ERROR, HB_IRQ_CMD, HB_IRQ_RX_DONE, HB_IRQ_TX_DONE,
    HB_IRQ_CAD_DONE, HB_IRQ_TIMEOUT, HB_IRQ_CRC_ERROR, HB_IRQ_LEN_ERROR, HB_IRQ_ADDR_ERROR, HB_IRQ_FHSS, HB_IRQ_INTER_PACKET1,
    HB_IRQ_INTER_PACKET2, HB_IRQ_RNG_RESP_DONE, HB_IRQ_RNG_REQ_DIS, HB_IRQ_RNG_EXCH_VLD, HB_IRQ_RNG_TIMEOUT,
};

static void intrs(void) {
    for (unsigned bit = 0; bit < 32; bit++) {
        uint8_t bytes[6] = {0, 0, 0, 0, 0xFF, 0xFF};
        bytes[3 - bit / 8] = 1 << bit % 8;
        trying("hb_intr", "bit", bit);
        same("constant", interrupts[bit], (uint64_t)1 << bit);
        for (size_t n = 0; n <= 6; n++) {
            same("value", hb_intr(lend_const(bytes, n), n), n > 3 - bit / 8 ? interrupts[bit] : 0);
            lent--;
        }
    }
    same("value of null", hb_intr(NULL, 0), 0);
}

static void (*const responses[])(const uint8_t *, size_t) = {
    lora_rx_stats, lora_packet_status, fsk_rx_stats, fsk_packet_status, rssi_inst, timestamp_value, cca_result};

void test_radio(void) {
    statuses();
    intrs();
    for (size_t i = 0; i < sizeof responses / sizeof *responses; i++) {
        responses[i](NULL, 0);
        for (unsigned n = 0; n < 21 * 40; n++) {
            uint8_t bytes[24];
            for (size_t j = 0; j < 24; j++) bytes[j] = n < 21 ? FILL : any();
            responses[i](lend_const(bytes, n % 21), n % 21);
            lent--;
        }
    }
    /* Byte 5 = 5A and byte 7 = 02 is 181 half dBm. */
    trying("hb_lora_packet_status", "half dBm", 181);
    same("rssi_pkt", hb_lora_packet_status(lend_const("\0\0\0\0\0\x5A\0\x02", 8), 8).rssi_pkt, 181);
    lent--;
}
