/* The kinds, the tests' own and not those of hoardbutton.h (REFERENCE, "Commands"). ROW: kind; whether a book keeps it; a good call, its frame,
 * and another frame of that kind, all ones where it may be; of a setting the bits that its arguments have in the bytes behind the opcode. A LONGER
 * form is of the same setting as the SHORTER one before it. */
enum { ACTION, SETTING, SHORTER, LONGER };

#define ROWS(ROW) \
    ROW(1, SETTING, "7 12 1 1 2", "02 20 7C 19", "02 20 CF 9D", "FF FF") \
    ROW(2, SETTING, "52719 111 1 1 0", "02 21 CD EF 6F 06", "02 21 FF FF FF 07", "FF FF FF 07") \
    ROW(3, SETTING, "239 1", "02 22 EF 01", "02 22 FF 01", "FF 01") \
    ROW(4, SETTING, "52", "02 23 34", "02 23 FF", "FF") \
    ROW(5, SHORTER, "1 5 27379 13570903", "02 26 85 6A F3 CF 13 57", "02 26 87 FF FF FF FF FF", "87 FF FF FF FF FF") \
    ROW(6, LONGER, "0 2 27379 13570903 26 4 14 172 69", "02 26 02 6A F3 CF 13 57 1A 4E AC 45", \
        "02 26 87 FF FF FF FF FF 7F FF FF FF", "87 FF FF FF FF FF 7F FF FF FF") \
    ROW(7, SETTING, "239 1 3 1 5666970 196", "02 27 EF 13 01 56 78 9A C4", "02 27 FF 1F 10 FF FF FF FF", "FF 1F FF FF FF FF FF") \
    ROW(8, ACTION, "", "02 28", "02 28", "") \
    ROW(9, ACTION, "", "02 29", "02 29", "") \
    ROW(10, ACTION, "", "02 2A", "02 2A", "") \
    ROW(11, SETTING, "4 9 80063993375475", "02 2B 49 F3 6A E2 59 D1 48 00 00", \
        "02 2B 8F FF FF FF FF FF FF FF FF", "FF FF FF FF FF FF FF FF FF") \
    ROW(12, SETTING, "15 19", "02 2D 0F 13", "02 2D 1F 1F", "1F 1F") \
    ROW(13, SETTING, "15 14 19 23 26 4", "02 2E 0F 0E 13 17 1A 04", "02 2E 1F 1F 1F 1F 1F 1F", "1F 1F 1F 1F 1F 1F") \
    ROW(14, SETTING, "1 6", "02 1D 46", "02 1D 8F", "CF") \
    ROW(15, SETTING, "2 9 1 0 10", "02 1D A5 0A", "02 1D FF 1F", "FF 1F") \
    ROW(16, SETTING, "2309737967 9 35 13570903", "02 40 89 AB CD EF 09 23 CF 13 57", \
        "02 40 FF FF FF FF 0F FF FF FF FF", "FF FF FF FF 0F FF FF FF FF") \
    ROW(17, SETTING, "52719 16 1 0 1 2 5534 4 1", "02 41 CD EF 10 16 15 9E 41", "02 41 FF FF 20 1B FF FF C1", "FF FF FF 1F FF FF F1") \
    ROW(18, SETTING, "1 3695", "02 42 1E 6F", "02 42 1F FF", "1F FF") \
    ROW(19, SETTING, "2309737967 1011703407", "02 43 89 AB CD EF 3C 4D 5E 6F", "02 43 FF FF FF FF FF FF FF FF", "FF FF FF FF FF FF FF FF") \
    ROW(20, SETTING, "81985529216486895 1 51", "02 44 01 23 45 67 89 AB CD EF B3", \
        "02 44 FF FF FF FF FF FF FF FF C0", "FF FF FF FF FF FF FF FF FF") \
    ROW(21, SETTING, "239 111", "02 45 EF 6F", "02 45 FF FF", "FF FF") \
    ROW(22, ACTION, "", "02 46", "02 46", "") \
    ROW(23, ACTION, "", "02 47", "02 47", "") \
    ROW(24, SETTING, "2309737967", "02 00 89 AB CD EF", "02 00 FF FF FF FF", "FF FF FF FF") \
    ROW(25, SHORTER, "0", "02 01 00", "02 01 01", "01") \
    ROW(26, LONGER, "0 5", "02 01 00 05", "02 01 01 07", "01 07") \
    ROW(27, SHORTER, "1 2 3 7", "02 02 B2 07", "02 02 F3 0F", "F3 0F") \
    ROW(28, LONGER, "0 1 5 9 26", "02 02 51 09 1A", "02 02 F3 0F 1F", "F3 0F 1F") \
    ROW(29, ACTION, "11259375", "02 0C AB CD EF", "02 0C FF FF FF", "") \
    ROW(30, ACTION, "11259375", "02 0D AB CD EF", "02 0D FF FF FF", "") \
    ROW(31, SETTING, "0", "02 0F 00", "02 0F 01", "01") \
    ROW(32, ACTION, "11259375 5070447 0 5", "02 10 AB CD EF 4D 5E 6F 05", "02 10 FF FF FF FF FF FF 17", "") \
    ROW(33, SETTING, "0 1 14838515 2328826711", "02 11 01 E2 6A F3 8A CF 13 57", \
        "02 11 82 FF FF FF FF FF FF FF", "83 FF FF FF FF FF FF FF") \
    ROW(34, SETTING, "11259375 5070447", "02 15 AB CD EF 4D 5E 6F", "02 15 FF FF FF FF FF FF", "FF FF FF FF FF FF") \
    ROW(35, SETTING, "1 2", "02 16 12", "02 16 24", "3F") \
    ROW(36, ACTION, "11259375", "02 18 AB CD EF", "02 18 FF FF FF", "") \
    ROW(37, ACTION, "11259375 111", "02 18 AB CD EF 6F", "02 18 FF FF FF FF", "") \
    ROW(38, SETTING, "9", "02 1A 09", "02 1A 0F", "0F") \
    ROW(39, SETTING, "11259375 111 1 13570903", "02 1B AB CD EF 6F 01 CF 13 57", \
        "02 1B FF FF FF FF 02 FF FF FF", "FF FF FF FF 03 FF FF FF")
