/* Settings of a radio in a book: built, put, replayed and dumped; and a level as text. */
#include <stdio.h>

#include "hoardbutton.h"

static uint8_t book[HB_BOOK_ALL], reel[HB_REPLAY_MAX], text[HB_DUMP_MAX(HB_REPLAY_MAX)];

/* Builds a setting and puts it into the book, or says why not. */
static void set(uint64_t kind, const uint64_t *args, size_t n) {
    hb_frame frame = hb_checked(kind, args, n);
    if (frame.refusal == HB_REFUSED_ARGUMENT_OUTSIDE) {
        printf("refusal %u at argument %u\n", (unsigned)frame.refusal, (unsigned)frame.place);
        return;
    }
    hb_answer kept = hb_book_put(book, sizeof book, frame.bytes, frame.len);
    if (kept.refusal != 0) printf("the book refuses it: %u\n", (unsigned)kept.refusal);
}

int main(void) {
    const uint64_t frequency[] = {868100000};
    const uint64_t modulation[] = {HB_SF_7, HB_LORA_BW_125, HB_LORA_CR_CR1_HAM45_SI, HB_LDRO_OFF, HB_LORA_FILTER_AUTO};
    const uint64_t wrong[] = {HB_SF_7, HB_LORA_BW_812 + 1, HB_LORA_CR_CR1_HAM45_SI, HB_LDRO_OFF, HB_LORA_FILTER_AUTO};

    hb_book_make(book, sizeof book);
    set(HB_SET_RF_FREQUENCY, frequency, 1);
    set(HB_SET_LORA_MODULATION_PARAMS, modulation, 5);
    set(HB_SET_LORA_MODULATION_PARAMS, wrong, 5);

    hb_answer played = hb_book_replay(book, sizeof book, reel, sizeof reel);
    hb_answer dumped = hb_dump(reel, played.value, text, sizeof text);
    printf("%.*s", (int)dumped.value, (const char *)text);
    hb_answer level = hb_level_text(181, text, sizeof text);
    printf("%.*s dBm\n", (int)level.value, (const char *)text);
    return 0;
}
