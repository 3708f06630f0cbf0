/* The harness: runs every test with buffers in plain memory, then with a page that nobody may touch right behind each buffer, then right
 * before it. In the last two modes a buffer that a call may only read is on a page that cannot be written. So a call that reads or writes
 * outside what it was lent, or writes what it may only read, ends in a signal. Prints the number of checks, or the first that failed. */
#include "link.h"

/* Of libc, whose headers the kit's compiler comes without. */
void *mmap(void *, size_t, int, int, int, long);
int mprotect(void *, size_t, int);
void (*signal(int, void (*)(int)))(int);
_Noreturn void exit(int);

/* Where an emulator runs this, the machine's pages may be larger than those of x86-64: all is done in steps of the largest. */
enum { PAGE = 65536, BUFFERS = 8, CLOSED = 0, READ = 1, WRITE = 2, PRIVATE_ANONYMOUS = 0x22, SIGNAL_BUS = 7, SIGNAL_SEGV = 11 };

static const char *const modes[] = {"plain memory", "guard page behind", "guard page before"};
static unsigned mode;
static uint8_t *memory;
static bool read_only[BUFFERS];
static uint64_t checks, number;
static const char *call = "", *input = "";
unsigned lent;

/* Rust hands over a text and its length. */
_Noreturn void failed(const char *text, size_t n) {
    printf("link-tests: FAILED (%s): %s '%s' %llu: %.*s\n", modes[mode], call, input, (unsigned long long)number, (int)n, text);
    exit(1);
}

static void crashed(int which) {
    (void)which;
    failed("memory outside a lent buffer was touched, or a buffer to be read only was written", 99);
}

uint8_t *lend(size_t n) {
    if (lent == BUFFERS || n > PAGE / 2) failed("the harness has no such buffer", 99);
    uint8_t *page = memory + (2 * lent + 1) * PAGE;
    if (read_only[lent]) mprotect(page, PAGE, READ | WRITE);
    read_only[lent++] = false;
    if (mode == 0) page += n % 8 ? 4097 : 4096; /* numbers are aligned, and bytes are not */
    return memset(mode == 1 ? page + PAGE - n : page, FILL, n);
}

const void *lend_const(const void *from, size_t n) {
    uint8_t *buffer = memcpy(lend(n), from, n);
    if (mode == 0) return buffer;
    mprotect(memory + (2 * lent - 1) * PAGE, PAGE, READ);
    read_only[lent - 1] = true;
    return buffer;
}

void trying(const char *c, const char *i, uint64_t n) {
    call = c;
    input = i;
    number = n;
}

void same(const char *what, uint64_t got, uint64_t wanted) {
    char text[99];
    checks++;
    if (got == wanted) return;
    snprintf(text, sizeof text, "%s is %llu, not %llu", what, (unsigned long long)got, (unsigned long long)wanted);
    failed(text, sizeof text);
}

void same_bytes(const uint8_t *got, const void *wanted, size_t n, size_t whole) {
    char text[99] = "bytes";
    size_t at = 0;
    while (at < whole && got[at] == (at < n ? ((const uint8_t *)wanted)[at] : FILL)) at++;
    if (at < whole) snprintf(text, sizeof text, "byte %zu of %zu", at, whole);
    same(text, at < whole ? got[at] : 0, at == whole ? 0 : at < n ? ((const uint8_t *)wanted)[at] : FILL);
}

void same_answer(hb_answer got, uint32_t refusal, uint32_t place, uint64_t value) {
    same("refusal", got.refusal, refusal);
    same("place", got.place, place);
    same("value", got.value, value);
}

void same_frame(hb_frame got, const char *frame, uint32_t refusal, uint32_t place) {
    uint8_t wanted[12] = {0};
    same("refusal", got.refusal, refusal);
    same("place", got.place, place);
    same("length", got.len, hex(frame, wanted));
    same_bytes(got.bytes, wanted, 12, 12);
}

uint64_t any(void) {
    static uint64_t state = 2021;
    uint64_t z = state += 0x9E3779B97F4A7C15;
    z = (z ^ (z >> 30)) * 0xBF58476D1CE4E5B9;
    z = (z ^ (z >> 27)) * 0x94D049BB133111EB;
    return z ^ (z >> 31);
}

uint64_t next_of(uint64_t *state) {
    *state ^= *state << 13;
    *state ^= *state >> 7;
    return *state ^= *state << 17;
}

static unsigned digit(char c) {
    return c <= '9' ? c - '0' : c - 'A' + 10;
}

size_t hex(const char *text, uint8_t *to) {
    size_t n = 0;
    for (; *text; text += text[2] ? 3 : 2) to[n++] = digit(text[0]) << 4 | digit(text[1]);
    return n;
}

size_t numbers(const char *text, uint64_t *to) {
    size_t n = 0;
    for (bool inside = false; *text; inside = *text++ != ' ') {
        if (*text == ' ') continue;
        if (!inside) to[n++] = 0;
        to[n - 1] = 10 * to[n - 1] + (*text - '0');
    }
    return n;
}

int main(void) {
    signal(SIGNAL_SEGV, crashed);
    signal(SIGNAL_BUS, crashed);
    memory = mmap(0, (2 * BUFFERS + 1) * PAGE, CLOSED, PRIVATE_ANONYMOUS, -1, 0);
    for (unsigned i = 0; i < BUFFERS; i++) mprotect(memory + (2 * i + 1) * PAGE, PAGE, READ | WRITE);
    void (*const tests[])(void) = {test_frames, test_books, test_sides, test_radio, test_readings, test_reels, test_rust, test_plain, test_plays,
        test_widths, test_profiles, test_controllers, test_names};
    for (mode = 0; mode < 3; mode++)
        for (size_t i = 0; i < sizeof tests / sizeof *tests; i++) tests[i]();
    printf("%llu\n", (unsigned long long)checks);
    return 0;
}
