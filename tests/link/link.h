/* What the link tests share: lent buffers, checks, and a table of good calls. */
#include <stdio.h>
#include <string.h>

#include "hoardbutton.h"
#include "rows.h"

/* A buffer of n bytes, each FILL, where the run's mode puts it; and one to be read only, with these bytes. `lent` counts the buffers that
 * are out: a test that sets it back gives the later ones back. */
enum { FILL = 0xA5 };
extern unsigned lent;
uint8_t *lend(size_t n);
const void *lend_const(const void *from, size_t n);

/* What is tried from here on: a failed check and a crash name it. */
void trying(const char *call, const char *input, uint64_t number);

/* Checks. Bytes behind n up to `whole` have to be FILL still. A frame is given as its text. */
void same(const char *what, uint64_t got, uint64_t wanted);
void same_bytes(const uint8_t *got, const void *wanted, size_t n, size_t whole);
void same_answer(hb_answer got, uint32_t refusal, uint32_t place, uint64_t value);
void same_frame(hb_frame got, const char *frame, uint32_t refusal, uint32_t place);

/* A random number; the seed is fixed, so every run is the same. */
uint64_t any(void);
/* The random number behind a state that a test has for itself, so that those of the other tests stay what they are. */
uint64_t next_of(uint64_t *state);

/* The bytes of a text as 02 2A, the numbers of a text as 7 12; and how many there are. */
size_t hex(const char *text, uint8_t *to);
size_t numbers(const char *text, uint64_t *to);

/* How many kinds there are, settings among them, and pairs of kinds that are one setting in two lengths. The layout: its version, and how
 * many slots there are; a header has an offset for each, an owner table an entry, and frames start behind the header. A book that holds
 * every setting, of two forms the longer one: its frames, their bytes together, its own length, that of its replay. All these numbers are
 * the tests' own, and not those of hoardbutton.h; what can be is computed from the rows. */
#define IS_ROW(...) +1
#define IS_SETTING(kind, used, ...) +(used != ACTION)
#define IS_SHORTER(kind, used, ...) +(used == SHORTER)
#define IS_LONGER(kind, used, ...) +(used == LONGER)
#define MOST_OF(kind, used, args, frame, ...) +(used == SETTING || used == LONGER ? sizeof frame / 3 : 0)
enum {
    KINDS = 39,
    COUNTED_ROWS = ROWS(IS_ROW),
    SETTINGS = ROWS(IS_SETTING),
    PAIRS = ROWS(IS_LONGER),
    COUNTED_SHORTER = ROWS(IS_SHORTER),
    VERSION = 1,
    SLOTS = 29,
    START = 4 + 2 * SLOTS,
    MOST_FRAMES = SETTINGS - PAIRS,
    MOST_BYTES = ROWS(MOST_OF),
    FULL = START + MOST_BYTES,
    FULL_REPLAY = MOST_BYTES + MOST_FRAMES
};
_Static_assert(COUNTED_ROWS == KINDS, "a row is missing");
_Static_assert(COUNTED_SHORTER == PAIRS, "a form is without the other");
_Static_assert(SETTINGS <= SLOTS, "a setting has no slot");
#define IS_WHOLE(kind, used, args, frame, other, bits) \
    _Static_assert(sizeof other == sizeof frame && (used == ACTION || sizeof bits / 3 + 2 == sizeof frame / 3), "frames and bits of " #kind);
ROWS(IS_WHOLE)

/* A row of rows.h; the length is that of its frames. */
typedef struct {
    uint64_t kind;
    size_t len;
    int used;
    const char *args, *frame, *other, *bits;
} row;
extern const row rows[KINDS];

/* A setting's slot; -1 for an action and for what is no kind. The form of its setting that a kind is not; 0 where there is one form. The shorter
 * form of a pair; the longer one is the next row. */
int slot(uint64_t kind);
uint64_t other_form(uint64_t kind);
const row *shorter_form(size_t pair);

/* A builder of frames, hb_checked or hb_plain: what it makes of the numbers of a text; of each row; and of a row with too few or too many. */
typedef hb_frame builder(uint64_t kind, const uint64_t *args, size_t n);
void builds(builder *build, uint64_t kind, const char *args, const char *frame, uint32_t refusal, uint32_t place);
void builds_rows(builder *build);

void test_frames(void), test_books(void), test_sides(void), test_radio(void), test_readings(void), test_reels(void), test_rust(void);
/* The tests of hb_plain, hb_play, the widths, the locker profile and the controller: those of C call those of Rust. The tests of the header's names. */
void test_plain(void), test_rust_plain(void), test_plays(void), test_rust_plays(void), test_widths(void), test_rust_widths(void);
void test_profiles(void), test_rust_profiles(void), test_controllers(void), test_rust_controllers(void), test_names(void);
