/* windows-1252 and UTF-16 from C: every byte and every unit, what is refused, and which bytes are left alone. */
#include "eventlog.h"

#include <stdio.h>
#include <string.h>

static int failed;

static void check(int line, int holds, const char *fact)
{
    if (!holds) {
        printf("windows_1252.c:%d: not so: %s\n", line, fact);
        failed = 1;
    }
}

#define CHECK(fact) check(__LINE__, (fact), #fact)

enum { LEFT = 0xEE, ALL = 256, UNITS = 65536 };

/* The units of bytes 80 to 9F; the five that the table leaves undefined are their own number. */
static const uint16_t marks[32] = {
    0x20AC, 0x0081, 0x201A, 0x0192, 0x201E, 0x2026, 0x2020, 0x2021, 0x02C6, 0x2030, 0x0160, 0x2039, 0x0152, 0x008D,
    0x017D, 0x008F, 0x0090, 0x2018, 0x2019, 0x201C, 0x201D, 0x2022, 0x2013, 0x2014, 0x02DC, 0x2122, 0x0161, 0x203A,
    0x0153, 0x009D, 0x017E, 0x0178,
};

static uint8_t bytes[ALL], units[2 * ALL + 16], back[ALL + 16];

static uint16_t unit_of(size_t byte)
{
    return byte >= 0x80 && byte < 0xA0 ? marks[byte - 0x80] : (uint16_t)byte;
}

static int is(eventlog_written got, uint32_t refusal, size_t length)
{
    return got.refusal == refusal && got.length == length;
}

static int all(const uint8_t *from, size_t len, uint8_t value)
{
    for (size_t i = 0; i < len; i++)
        if (from[i] != value)
            return 0;
    return 1;
}

/* The first len bytes there and back, with too little room first. */
static void converts(size_t len)
{
    memset(units, LEFT, sizeof units);
    memset(back, LEFT, sizeof back);
    for (size_t room = 0; room < 2 * len; room++)
        CHECK(is(eventlog_windows_1252_to_utf16(bytes, len, units, room), EVENTLOG_REFUSED_OUTPUT, 0));
    CHECK(all(units, sizeof units, LEFT));
    CHECK(is(eventlog_windows_1252_to_utf16(bytes, len, units, sizeof units), EVENTLOG_NOT_REFUSED, 2 * len));
    for (size_t i = 0; i < len; i++)
        CHECK(units[2 * i] + 256 * units[2 * i + 1] == unit_of(i));
    CHECK(all(units + 2 * len, sizeof units - 2 * len, LEFT));
    for (size_t room = 0; room < len; room++)
        CHECK(is(eventlog_windows_1252_from_utf16(units, 2 * len, back, room), EVENTLOG_REFUSED_OUTPUT, 0));
    CHECK(all(back, sizeof back, LEFT));
    CHECK(is(eventlog_windows_1252_from_utf16(units, 2 * len, back, sizeof back), EVENTLOG_NOT_REFUSED, len));
    CHECK(memcmp(back, bytes, len) == 0 && all(back + len, sizeof back - len, LEFT));
}

/* Every unit by itself: accepted exactly if some byte has it. */
static void every_unit(void)
{
    size_t accepted = 0;
    for (uint32_t unit = 0; unit < UNITS; unit++) {
        uint8_t two[2], out[2] = {LEFT, LEFT};
        size_t byte = 0;
        two[0] = (uint8_t)unit;
        two[1] = (uint8_t)(unit >> 8);
        while (byte < ALL && unit_of(byte) != unit)
            byte++;
        eventlog_written got = eventlog_windows_1252_from_utf16(two, 2, out, 2);
        if (byte < ALL) {
            CHECK(is(got, EVENTLOG_NOT_REFUSED, 1) && out[0] == byte);
            accepted++;
        } else {
            CHECK(is(got, EVENTLOG_REFUSED_UNIT, 0) && out[0] == LEFT);
        }
        CHECK(out[1] == LEFT);
    }
    CHECK(accepted == ALL);
}

/* 18 goes before 15, and leaves the output. */
static void refusals(void)
{
    static const uint8_t half[] = {'A', 0, 'B'}, outside[] = {'A', 0, 0x80, 0};
    for (size_t room = 0; room < 4; room++) {
        memset(back, LEFT, sizeof back);
        CHECK(is(eventlog_windows_1252_from_utf16(half, sizeof half, back, room), EVENTLOG_REFUSED_UNIT, 0));
        CHECK(is(eventlog_windows_1252_from_utf16(outside, sizeof outside, back, room), EVENTLOG_REFUSED_UNIT, 0));
        CHECK(all(back, sizeof back, LEFT));
    }
    CHECK(is(eventlog_windows_1252_to_utf16(NULL, 0, NULL, 0), EVENTLOG_NOT_REFUSED, 0));
    CHECK(is(eventlog_windows_1252_from_utf16(NULL, 0, NULL, 0), EVENTLOG_NOT_REFUSED, 0));
    CHECK(is(eventlog_windows_1252_to_utf16(half, 1, NULL, 0), EVENTLOG_REFUSED_OUTPUT, 0));
    CHECK(is(eventlog_windows_1252_from_utf16(half, 2, NULL, 0), EVENTLOG_REFUSED_OUTPUT, 0));
}

int main(void)
{
    for (size_t i = 0; i < ALL; i++)
        bytes[i] = (uint8_t)i;
    for (size_t len = 0; len <= ALL; len++)
        converts(len);
    every_unit();
    refusals();
    puts(failed ? "windows_1252.c: failed" : "windows_1252.c: passed");
    return failed;
}
