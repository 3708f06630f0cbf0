/* Builds a frame of each kind with nothing but the header and its names. C11 and C++17. */
#include "hoardbutton.h"

static const uint64_t none[1] = {0};
static unsigned refused, built;

/* Builds the next kind, and counts one that is not the next and a frame that does not say its kind. */
static void build(uint64_t kind, const uint64_t *args, size_t n) {
    hb_frame frame = hb_checked(kind, args, n);
    hb_decoded said = hb_decode(frame.bytes, frame.len);
    if (kind != ++built || frame.refusal != 0 || said.refusal != 0 || said.kind != kind || said.count != n) refused++;
}

/* BUILD(KIND, ARGUMENTS..) */
#define BUILD(kind, ...) \
    do { \
        const uint64_t args[] = {__VA_ARGS__}; \
        build(kind, args, sizeof args / sizeof *args); \
    } while (0)
#define BUILD_BARE(kind) build(kind, none, 0)

static void lora(void) {
    BUILD(HB_SET_LORA_MODULATION_PARAMS, HB_SF_7, HB_LORA_BW_125, HB_LORA_CR_CR1_HAM45_SI, HB_LDRO_OFF, HB_LORA_FILTER_AUTO);
    BUILD(HB_SET_LORA_PACKET_PARAMS, 8, 32, HB_HEADER_TYPE_EXPLICIT, 1, 0);
    BUILD(HB_SET_LORA_SYNCH_TIMEOUT, 100, HB_TIMEOUT_FORMAT_INTEGER);
    BUILD(HB_SET_LORA_SYNCWORD, 0x34);
    BUILD(HB_CONFIG_LORA_PREAMBLE_MODULATION, 1, 5, 1000, 20000);
    BUILD(HB_CONFIG_LORA_PREAMBLE_MODULATION_ADV, 1, 5, 1000, 20000, 100, 4, 8, 16, 32);
    BUILD(HB_SET_LORA_CAD_PARAMS, 4, 1, 8, HB_LORA_CAD_EXIT_MODE_LBT, 32768, 60);
    BUILD_BARE(HB_SET_LORA_CAD);
    BUILD_BARE(HB_GET_LORA_RX_STATS);
    BUILD_BARE(HB_GET_LORA_PACKET_STATUS);
    BUILD(HB_SET_LORA_ADDRESS, HB_ADDR_LEN_2B, 1, 0x0102);
    BUILD(HB_SET_LORA_SYNCWORD_EXTENDED, 6, 8);
    BUILD(HB_SET_LORA_SIDE_DET_SYNCWORD_EXTENDED, 6, 8, 10, 12, 14, 16);
    BUILD(HB_SET_LORA_TX_SYNC, HB_TIMING_SYNC_MODE_INITIATOR, 7);
    BUILD(HB_SET_LORA_BLANKING, 1, 8, 2, 1, 10);
}

static void fsk(void) {
    BUILD(HB_SET_FSK_MODULATION_PARAMS, 50000, HB_PULSE_SHAPE_BT0P5, HB_RX_BW_111, 25000);
    BUILD(HB_SET_FSK_PACKET_PARAMS, 32, HB_PBL_LEN_DETECT_LEN16_BITS, 0, HB_PLD_LEN_UNIT_BYTES, HB_ADDR_COMP_NODE_BCAST,
        HB_FSK_PKT_FORMAT_VARIABLE8BIT, 255, HB_CRC_2_BYTE_INV, 1);
    BUILD(HB_SET_FSK_WHITENING_PARAMS, HB_WHITEN_TYPE_SX126X_LR11XX, 0x1FF);
    BUILD(HB_SET_FSK_CRC_PARAMS, 0x1021, 0x1D0F);
    BUILD(HB_SET_FSK_SYNC_WORD, 0xC194C1, HB_BIT_ORDER_MSB_FIRST, 24);
    BUILD(HB_SET_FSK_ADDRESS, 0x11, 0xFF);
    BUILD_BARE(HB_GET_FSK_RX_STATS);
    BUILD_BARE(HB_GET_FSK_PACKET_STATUS);
}

static void common(void) {
    BUILD(HB_SET_RF_FREQUENCY, 868100000);
    BUILD(HB_SET_RX_PATH, HB_RX_PATH_LF_PATH);
    BUILD(HB_SET_RX_PATH_ADV, HB_RX_PATH_HF_PATH, HB_RX_BOOST_MAX);
    BUILD(HB_SET_PA_CONFIG, HB_PA_SEL_LF_PA, HB_PA_LF_MODE_FSM, 6, 7);
    BUILD(HB_SET_PA_CONFIG_ADV, HB_PA_SEL_HF_PA, HB_PA_LF_MODE_FSM, 0, 0, 16);
    BUILD(HB_SET_RX_ADV, 32768);
    BUILD(HB_SET_TX_ADV, 32768);
    BUILD(HB_SEL_PA, HB_PA_SEL_HF_PA);
    BUILD(HB_SET_RX_DUTY_CYCLE, 328, 32768, 1, 0);
    BUILD(HB_SET_AUTO_RX_TX, 0, HB_AUTO_TXRX_MODE_RX_OK, 32768, 1000);
    BUILD(HB_SET_DEFAULT_RX_TX_TIMEOUT, 32768, 65536);
    BUILD(HB_SET_TIMESTAMP_SOURCE, HB_TIMESTAMP_INDEX_0, HB_TIMESTAMP_SOURCE_RX_DONE);
    BUILD(HB_SET_CCA, 1000);
    BUILD(HB_SET_CCA_ADV, 1000, 13);
    BUILD(HB_SET_AGC_GAIN_MANUAL, 0);
    BUILD(HB_SET_CAD_PARAMS, 328, 120, HB_CAD_EXIT_MODE_RX, 32768);
}

/* 0 if each kind was built, and each frame says so. */
int main(void) {
    lora();
    fsk();
    common();
    return refused != 0 || built != HB_KINDS;
}
