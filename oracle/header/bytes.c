/* Numbers as bytes, the lowest first, and doubles bit by bit. */
#include "check.h"

static void numbers(void)
{
    static const uint8_t first[8] = {0x08, 0x07, 0x06, 0x05, 0x04, 0x03, 0x02, 0xF1};
    uint8_t to[9] = {77, 77, 77, 77, 77, 77, 77, 77, 77};
    cichowiej_put_number(to, 8, 0xF102030405060708u);
    CHECK(memcmp(to, first, 8) == 0 && to[8] == 77 && cichowiej_get_number(to, 8) == 0xF102030405060708u);
    CHECK(cichowiej_get_number(to, 2) == 0x0708 && cichowiej_get_number(to, 4) == 0x05060708 && cichowiej_get_number(to, 1) == 8);
    cichowiej_put_number(to, 2, 0xABCD);
    CHECK(to[0] == 0xCD && to[1] == 0xAB && to[2] == 0x06);
}

static void doubles(void)
{
    static const uint8_t two[8] = {0, 0, 0, 0, 0, 0, 0, 0x40}, odd_nan[8] = {1, 0, 0, 0, 0, 0, 0xF0, 0xFF};
    uint8_t to[8];
    cichowiej_put_double(to, 2.0);
    CHECK(memcmp(to, two, 8) == 0 && cichowiej_get_double(two) == 2.0);
    cichowiej_put_double(to, -0.0);
    CHECK(to[7] == 0x80 && same_bits(cichowiej_get_double(to), -0.0));
    cichowiej_put_double(to, cichowiej_get_double(odd_nan));
    CHECK(memcmp(to, odd_nan, 8) == 0);
}

void bytes(void)
{
    numbers();
    doubles();
}
