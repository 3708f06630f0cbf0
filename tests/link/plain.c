/* hb_plain: numbers are cut to their field and never refused; codes, yes or no, the count and the kind are. plain.rs tries any arguments. */
#include "link.h"

void test_plain(void) {
    builds_rows(hb_plain);
    /* Worked examples, overlaps, and numbers beyond their field. */
    builds(hb_plain, 1, "12 7 9 1 3", "02 20 C7 9D", 0, 0);
    builds(hb_plain, 29, "16777216", "02 0C 00 00 00", 0, 0);
    builds(hb_plain, 29, "18446744073709551615", "02 0C FF FF FF", 0, 0);
    builds(hb_plain, 27, "1 0 0 0", "02 02 80 00", 0, 0);
    builds(hb_plain, 27, "0 0 8 0", "02 02 80 00", 0, 0);
    builds(hb_plain, 18, "0 4096", "02 42 10 00", 0, 0);
    builds(hb_plain, 18, "1 61440", "02 42 F0 00", 0, 0);
    builds(hb_plain, 17, "0 0 0 1 0 0 0 0 0", "02 41 00 00 00 10 00 00 00", 0, 0);
    builds(hb_plain, 20, "1 1 65", "02 44 00 00 00 00 00 00 00 01 C1", 0, 0);
    builds(hb_plain, 20, "1 0 127", "02 44 00 00 00 00 00 00 00 01 7F", 0, 0);
    builds(hb_plain, 20, "1 1 128", "02 44 00 00 00 00 00 00 00 01 80", 0, 0);
    builds(hb_plain, 11, "2 4294967297 258", "02 2B 21 02 01 00 00 00 00 00 00", 0, 0);
    /* No code of its enum; no yes or no. */
    builds(hb_plain, 1, "4 7 9 1 3", "", 6, 1);
    builds(hb_plain, 1, "7 4 1 0 4294967296", "", 6, 5);
    builds(hb_plain, 7, "0 2 0 0 0 0", "", 6, 2);
    builds(hb_plain, 7, "999 1 999 2 0 0", "", 6, 4);
    builds(hb_plain, 17, "0 0 0 2 0 0 0 0 0", "", 6, 4);
    test_rust_plain();
}
