/* An installer and an operator share a book: each has its own settings and its own room, and neither is told what the other does. */
#include <stdio.h>

#include "hoardbutton.h"

enum { INSTALLER = 1, OPERATOR = 2, QUOTA1 = 10, QUOTA2 = 15 };
static uint8_t owners[HB_SETTINGS], book[HB_BOOK_MIN + QUOTA1 + QUOTA2], reel[HB_REPLAY_MAX], text[HB_DUMP_MAX(HB_REPLAY_MAX)];

static void put(unsigned side, unsigned kind, const uint64_t *args, size_t n) {
    hb_frame frame = hb_checked(kind, args, n);
    hb_answer kept = hb_side_put(book, sizeof book, owners, sizeof owners, QUOTA1, QUOTA2, side, frame.bytes, frame.len);
    printf("side %u puts %u bytes of kind %u: %u\n", side, (unsigned)frame.len, kind, (unsigned)kept.refusal);
}

static void show(unsigned side) {
    hb_answer played = hb_side_replay(book, sizeof book, owners, sizeof owners, QUOTA1, QUOTA2, side, reel, sizeof reel);
    hb_answer dumped = hb_dump(reel, played.value, text, sizeof text);
    printf("side %u has\n%.*s", side, (int)dumped.value, (const char *)text);
}

int main(void) {
    const uint64_t frequency[] = {868100000}, other[] = {868300000}, word[] = {0x34}, addresses[] = {17, 255};
    const uint64_t lora[] = {HB_SF_7, HB_LORA_BW_125, HB_LORA_CR_CR1_HAM45_SI, HB_LDRO_OFF, HB_LORA_FILTER_AUTO};
    const uint64_t fsk[] = {50000, HB_PULSE_SHAPE_BT0P5, HB_RX_BW_133, 25000};

    /* Kinds 16 to 21, the FSK settings, have slots 12 to 17. */
    for (int slot = 0; slot < HB_SETTINGS; slot++) owners[slot] = slot >= 12 && slot <= 17 ? OPERATOR : INSTALLER;
    hb_book_make(book, sizeof book);
    put(INSTALLER, HB_SET_RF_FREQUENCY, frequency, 1);
    put(INSTALLER, HB_SET_LORA_MODULATION_PARAMS, lora, 5);
    put(INSTALLER, HB_SET_LORA_SYNCWORD, word, 1);
    put(OPERATOR, HB_SET_FSK_MODULATION_PARAMS, fsk, 4);
    put(OPERATOR, HB_SET_FSK_ADDRESS, addresses, 2);
    put(OPERATOR, HB_SET_RF_FREQUENCY, other, 1);
    show(INSTALLER);
    show(OPERATOR);
    hb_side_clear(book, sizeof book, owners, sizeof owners, QUOTA1, QUOTA2, OPERATOR);
    put(INSTALLER, HB_SET_LORA_SYNCWORD, word, 1);
    show(INSTALLER);
    show(OPERATOR);
    return 0;
}
