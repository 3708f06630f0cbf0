/* The reader takes each slot's offset at its word, and asks that the frames there tile the book (REFERENCE, "Commands" and "Book"). */
#include "stored.h"

struct listed list;

/* ---- bytes that are read */

/* Arguments that not all of their bits' numbers are good for: kind, byte of the frame, low bit, ones; and the codes. */
static const struct {
    uint8_t kind, byte, low, ones;
    const char *codes;
} coded[] = {{1, 2, 4, 15, "5 6 7 8 9 10 11 12"}, {1, 3, 4, 15, "0 1 2 3 4 5 6 7 8 9"}, {1, 3, 0, 3, "0 1"}, {7, 4, 0, 255, "0 1 16"},
    {11, 2, 4, 15, "0 1 2 3 4 5 6 7 8"}, {14, 2, 6, 3, "0 1 2"}, {17, 4, 0, 255, "0 8 16 24 32"}, {17, 5, 2, 3, "0 1 2"},
    {17, 8, 4, 15, "0 1 2 3 4 9 10 11 12"}, {33, 2, 0, 3, "0 1 2"}, {35, 2, 4, 3, "0 1 2"}, {35, 2, 0, 15, "0 1 2 3 4"}, {39, 6, 0, 3, "0 1 2"},
    {16, 7, 0, 255, "0 17 18 19 20 21 23 24 25 26 27 28 29 30 31 32 33 34 35 36 37 38 39 64 81 82 83 84 85 86 87 88 89 90 91 92 93 94 95 96 97 98 99 100 "
        "101 102 103 128 136 144 152 153 154 155 156 157 158 159 160 161 162 163 164 165 166 167 192 200 208 209 210 211 212 213 215 216 217 218 219 220 "
        "222 223 224 225 226 227 228 229 230 231 255"}};

static bool has_codes(uint8_t kind, const uint8_t *frame) {
    for (size_t i = 0; i < sizeof coded / sizeof *coded; i++) {
        uint64_t codes[91];
        if (coded[i].kind != kind) continue;
        size_t n = numbers(coded[i].codes, codes), at = 0;
        while (at < n && codes[at] != (uint64_t)(frame[coded[i].byte] >> coded[i].low & coded[i].ones)) at++;
        if (at == n) return false;
    }
    return kind != 20 || frame[10] % 128 <= 64;
}

/* Whether the bytes are a frame of that kind; they end where such a frame does. */
static bool decodes(const row *r, const uint8_t *frame) {
    uint8_t opcode[12], bits[12];
    hex(r->frame, opcode);
    hex(r->bits, bits);
    if (frame[0] != opcode[0] || frame[1] != opcode[1]) return false;
    for (size_t i = 2; i < r->len; i++)
        if (frame[i] & ~bits[i - 2]) return false;
    return has_codes(r->kind, frame);
}

static size_t word(const uint8_t *at) {
    return at[0] << 8 | at[1];
}

size_t offset_of(const uint8_t *book, uint64_t kind) {
    return word(book + 4 + 2 * slot(kind));
}

/* Each byte between head and end belongs to one frame, and each frame is of its slot's kind. */
static bool is_tiled(const uint8_t *book, size_t end) {
    bool taken[LONGEST] = {false};
    size_t count = 0, slots = 0;
    for (const row *r = rows; r < rows + KINDS; r++) {
        size_t at = r->used == ACTION ? 0 : word(book + 4 + 2 * slots++);
        if (!at) continue;
        if (at < START || at + r->len > end || !decodes(r, book + at)) return false;
        for (size_t i = at; i < at + r->len; i++) {
            if (taken[i]) return false;
            taken[i] = true;
        }
        count++;
    }
    for (size_t i = START; i < end; i++)
        if (!taken[i]) return false;
    return count == book[1];
}

uint32_t fault(const uint8_t *book, size_t n) {
    if (n < START || n > MOST) return 11;
    size_t end = word(book + 2);
    if (book[0] != VERSION || end < START || end > n || !is_tiled(book, end)) return 10;
    for (size_t i = end; i < n; i++)
        if (book[i]) return 10;
    for (size_t i = 0; i < PAIRS; i++)
        if (offset_of(book, shorter_form(i)->kind) && offset_of(book, shorter_form(i)[1].kind)) return 16;
    return 0;
}

/* ---- a list that is written */

void add(uint64_t kind, const char *frame) {
    list.frames[list.count].kind = kind;
    list.frames[list.count].len = hex(frame, list.frames[list.count].bytes);
    list.count++;
}

size_t end_of_list(void) {
    size_t end = START;
    for (size_t i = 0; i < list.count; i++) end += list.frames[i].len;
    return end;
}

void written(uint8_t *book, size_t n) {
    size_t at = START;
    memset(book, 0, n);
    book[0] = VERSION;
    book[1] = list.count;
    for (size_t i = 0; i < list.count; at += list.frames[i++].len) {
        book[4 + 2 * slot(list.frames[i].kind)] = at >> 8;
        book[5 + 2 * slot(list.frames[i].kind)] = at;
        memcpy(book + at, list.frames[i].bytes, list.frames[i].len);
    }
    book[2] = at >> 8;
    book[3] = at;
}

bool holds(uint64_t kind) {
    for (size_t i = 0; i < list.count; i++)
        if (list.frames[i].kind == kind) return true;
    return false;
}

/* ---- random books */

void add_any(source *some, const row *r) {
    if (slot(r->kind) < 0 || holds(r->kind)) return;
    if (other_form(r->kind) && holds(other_form(r->kind)) && some() % 4) return;
    add(r->kind, some() % 2 ? r->frame : r->other);
}

void shuffle(source *some) {
    for (size_t i = list.count; i > 1; i--) {
        size_t j = some() % i;
        held last = list.frames[i - 1];
        list.frames[i - 1] = list.frames[j];
        list.frames[j] = last;
    }
}

/* Bytes that are wrong, missing or too many; some leave a book that is one still. Tells the new length. */
static size_t damaged(source *some, uint8_t *book, size_t n) {
    size_t at = some() % n, slots[] = {4 + 2 * (some() % SLOTS), 4 + 2 * (some() % SLOTS)};
    switch (some() % 8) {
    case 0: book[at] ^= 1 << some() % 8; return n;
    case 1: book[some() % 4] = some(); return n;
    case 2: book[START + some() % (n - START + 1)] = some(); return n;
    case 3: return at;
    case 4: memset(book + n, 0, LONGEST - n); return n + some() % (LONGEST - n + 1);
    case 5: memcpy(book + slots[0], book + slots[1], 2); return n;
    case 6: memset(book + slots[0], 0, 2); return n;
    default: for (size_t i = 0; i < n; i++) book[i] = some(); return n;
    }
}

size_t any_buffer(source *some, uint8_t *book) {
    size_t n = end_of_list() + (some() % 2 ? some() % 16 : 0);
    if (some() % 32 == 0) n += some() % (LONGEST - n + 1);
    written(book, n);
    return some() % 4 ? n : damaged(some, book, n);
}
