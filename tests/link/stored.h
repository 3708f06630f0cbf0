/* Books as bytes, for the tests that hand them in: a plain reader of them, and a list of frames that is written as one. */
#include "link.h"

/* The longest book, and a few bytes more than that. */
enum { MOST = 4096, LONGEST = 4200 };

/* Where the frame of a kind begins; 0 where there is none. */
size_t offset_of(const uint8_t *book, uint64_t kind);
/* 11, 10 or 16, or 0 for a book that calls take. */
uint32_t fault(const uint8_t *book, size_t n);

typedef struct {
    uint64_t kind;
    size_t len;
    uint8_t bytes[12];
} held;

/* A book before it is bytes. */
extern struct listed {
    size_t count;
    held frames[SETTINGS];
} list;
void add(uint64_t kind, const char *frame);
bool holds(uint64_t kind);
size_t end_of_list(void);
void written(uint8_t *book, size_t n);

/* Random numbers that a test has for itself. */
typedef uint64_t source(void);
/* Adds a frame of a setting that the list lacks; of one that it has in the other form, one time in four. */
void add_any(source *some, const row *r);
void shuffle(source *some);
/* The list in a buffer of LONGEST + 1 bytes, of which it may fill those that it gets; one in four is damaged. Tells how many it got. */
size_t any_buffer(source *some, uint8_t *book);
