/* A controller sends a book's frames over a bus, which here is a list of the status bytes that come back. */
#include <stdio.h>
#include <string.h>

#include "hoardbutton.h"

static uint8_t book[HB_BOOK_ALL];

static void put(unsigned kind, const uint64_t *args, size_t n) {
    hb_frame frame = hb_checked(kind, args, n);
    hb_book_put(book, sizeof book, frame.bytes, frame.len);
}

/* A transfer: the bytes of the step go out, and two come back. */
static void transfer(const hb_sending *step, uint8_t status[2], const uint8_t answer[2]) {
    printf(step->len ? "sent" : "read");
    for (uint32_t i = 0; i < step->len; i++) printf(" %02x", step->bytes[i]);
    memcpy(status, answer, 2);
    printf(", status %02x %02x\n", status[0], status[1]);
}

static void run(const uint8_t (*answer)[2]) {
    hb_controller state = hb_controller_start(book, sizeof book).state;
    hb_sending step = hb_controller_send(book, sizeof book, state);
    while (!step.refusal && !step.over) {
        uint8_t status[2];
        transfer(&step, status, *answer++);
        state = hb_controller_hear(book, sizeof book, state, status, sizeof status).state;
        step = hb_controller_send(book, sizeof book, state);
    }
    if (step.refusal) printf("refused %u\n", (unsigned)step.refusal);
    else if (state.outcome == 2) printf("stopped at frame %u\n", (unsigned)state.count);
    else printf("done\n");
}

int main(void) {
    const uint64_t word[] = {0x34}, frequency[] = {868100000};
    const uint8_t good[][2] = {{0x04, 0x04}, {0x04, 0x04}, {0x04, 0x04}}, bad[][2] = {{0x04, 0x04}, {0x04, 0x04}, {0x02, 0x04}};

    hb_book_make(book, sizeof book);
    put(HB_SET_LORA_SYNCWORD, word, 1);
    put(HB_SET_RF_FREQUENCY, frequency, 1);
    run(good);
    run(bad);
    return 0;
}
