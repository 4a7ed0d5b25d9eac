/* The header's names, messages and functions of its own, in what C99, C11 and C++ have in common. */
#include "eventlog.h"
#include "eventlog.h"

#include <stdio.h>
#include <string.h>

static int failed;

static void check(int line, int holds, const char *fact)
{
    if (!holds) {
        printf("header.c:%d: not so: %s\n", line, fact);
        failed = 1;
    }
}

#define CHECK(fact) check(__LINE__, (fact), #fact)
#define COUNT(table) (sizeof(table) / sizeof *(table))

/* Every refusal from 0 to 18, and every status but success. */
static const uint32_t refusals[] = {
    EVENTLOG_NOT_REFUSED, EVENTLOG_REFUSED_PLACE, EVENTLOG_REFUSED_LENGTH, EVENTLOG_REFUSED_CUT_SHORT,
    EVENTLOG_REFUSED_SIGNATURE, EVENTLOG_REFUSED_LENGTH2, EVENTLOG_REFUSED_EVENT_TYPE, EVENTLOG_REFUSED_FLAGS,
    EVENTLOG_REFUSED_STRING_COUNT, EVENTLOG_REFUSED_NAME, EVENTLOG_REFUSED_SID, EVENTLOG_REFUSED_STRINGS,
    EVENTLOG_REFUSED_DATA, EVENTLOG_REFUSED_SIZE, EVENTLOG_REFUSED_LOG_END, EVENTLOG_REFUSED_OUTPUT,
    EVENTLOG_REFUSED_INPUT, EVENTLOG_REFUSED_NO_STRING, EVENTLOG_REFUSED_UNIT,
};
/* Those of a memory card, from 19 on. */
static const uint32_t cards[] = {
    EVENTLOG_REFUSED_CARD_LOG, EVENTLOG_REFUSED_CARD_LENGTH, EVENTLOG_REFUSED_BLOCK_CHECK,
    EVENTLOG_REFUSED_BLOCK_NUMBER, EVENTLOG_REFUSED_BLOCK_USED, EVENTLOG_REFUSED_BLOCK_MARK,
};
static const uint32_t statuses[] = {
    EVENTLOG_STATUS_INVALID_HANDLE, EVENTLOG_STATUS_INVALID_PARAMETER, EVENTLOG_STATUS_END_OF_FILE,
    EVENTLOG_STATUS_BUFFER_TOO_SMALL, EVENTLOG_STATUS_EVENTLOG_FILE_CORRUPT,
};

static void numbers(void)
{
    CHECK(COUNT(refusals) == 19);
    for (size_t i = 0; i < COUNT(refusals); i++)
        CHECK(refusals[i] == i);
    CHECK(COUNT(cards) == 6);
    for (size_t i = 0; i < COUNT(cards); i++)
        CHECK(cards[i] == 19 + i);
    CHECK(EVENTLOG_STATUS_SUCCESS == 0);
    CHECK(statuses[0] == 0xC0000008 && statuses[1] == 0xC000000D && statuses[2] == 0xC0000011);
    CHECK(statuses[3] == 0xC0000023 && statuses[4] == 0xC000018E);
    CHECK(EVENTLOG_SEQUENTIAL == 1 && EVENTLOG_SEEK == 2 && EVENTLOG_FORWARDS == 4 && EVENTLOG_BACKWARDS == 8);
    CHECK(EVENTLOG_SUCCESS == 0 && EVENTLOG_ERROR_TYPE == 1 && EVENTLOG_WARNING_TYPE == 2);
    CHECK(EVENTLOG_INFORMATION_TYPE == 4 && EVENTLOG_AUDIT_SUCCESS == 8 && EVENTLOG_AUDIT_FAILURE == 16);
    CHECK(EVENTLOG_UNICODE == 0 && EVENTLOG_ANSI == 1);
    CHECK(EVENTLOG_FRESH == 0 && EVENTLOG_BOUNDARY == 1 && eventlog_fresh(0).kind == EVENTLOG_FRESH);
}

/* Each type's bit, and all of them. */
static void types(void)
{
    CHECK(EVENTLOG_WANT_ERROR == EVENTLOG_ERROR_TYPE && EVENTLOG_WANT_WARNING == EVENTLOG_WARNING_TYPE);
    CHECK(EVENTLOG_WANT_INFORMATION == EVENTLOG_INFORMATION_TYPE);
    CHECK(EVENTLOG_WANT_AUDIT_SUCCESS == EVENTLOG_AUDIT_SUCCESS);
    CHECK(EVENTLOG_WANT_AUDIT_FAILURE == EVENTLOG_AUDIT_FAILURE);
    CHECK(EVENTLOG_WANT_SUCCESS == 32);
    CHECK((EVENTLOG_WANT_ERROR | EVENTLOG_WANT_WARNING | EVENTLOG_WANT_INFORMATION | EVENTLOG_WANT_AUDIT_SUCCESS
           | EVENTLOG_WANT_AUDIT_FAILURE | EVENTLOG_WANT_SUCCESS) == EVENTLOG_WANT_ALL);
    CHECK(eventlog_types_count(EVENTLOG_WANT_ALL) == 6 && eventlog_types_count(EVENTLOG_WANT_SUCCESS) == 1);
    CHECK(eventlog_fresh(EVENTLOG_WANT_ALL).types == EVENTLOG_WANT_ALL);
}

static void messages(void)
{
    const char *unknown = eventlog_message(25);
    const char *all[COUNT(refusals) + COUNT(statuses) + COUNT(cards)];
    size_t count = 0;
    for (size_t i = 0; i < COUNT(refusals); i++)
        all[count++] = eventlog_message(refusals[i]);
    for (size_t i = 0; i < COUNT(statuses); i++)
        all[count++] = eventlog_message(statuses[i]);
    for (size_t i = 0; i < COUNT(cards); i++)
        all[count++] = eventlog_message(cards[i]);
    for (size_t i = 0; i < COUNT(all); i++) {
        CHECK(strlen(all[i]) > 0 && strcmp(all[i], unknown) != 0);
        for (size_t k = 0; k < i; k++)
            CHECK(strcmp(all[i], all[k]) != 0);
    }
    CHECK(strcmp(eventlog_message(0xC0000009), unknown) == 0 && strcmp(eventlog_message(UINT32_MAX), unknown) == 0);
}

static uint8_t out[EVENTLOG_MAX_READ + 1], zeros[EVENTLOG_MAX_LENGTH];

/* An event of nothing but zeros, with so many strings, data and SID bytes. */
static uint32_t refusal_of(uint32_t strings, size_t sid, size_t data)
{
    eventlog_event event;
    memset(&event, 0, sizeof event);
    event.fields.num_strings = (uint16_t)strings;
    event.strings.bytes = zeros;
    event.strings.len = 2 * (size_t)strings;
    event.sid.bytes = zeros;
    event.sid.len = sid;
    event.event_data.bytes = zeros;
    event.event_data.len = data;
    zeros[0] = sid > 0;
    zeros[1] = (uint8_t)(sid > 8 ? (sid - 8) / 4 : 0);
    uint32_t refusal = eventlog_write_event(EVENTLOG_UNICODE, 1, &event, out, sizeof out).refusal;
    memset(zeros, 0, 2);
    return refusal;
}

/* What the library accepts at each limit, and refuses behind it. */
static void limits(void)
{
    eventlog_event event;
    eventlog_written w;
    eventlog_answer r;
    CHECK(refusal_of(EVENTLOG_MAX_STRINGS, 0, 0) == EVENTLOG_NOT_REFUSED);
    CHECK(refusal_of(EVENTLOG_MAX_STRINGS + 1, 0, 0) == EVENTLOG_REFUSED_STRING_COUNT);
    CHECK(refusal_of(0, EVENTLOG_MAX_SID, 0) == EVENTLOG_NOT_REFUSED);
    CHECK(refusal_of(0, EVENTLOG_MAX_SID + 4, 0) == EVENTLOG_REFUSED_SID);
    CHECK(refusal_of(0, 0, EVENTLOG_MAX_DATA) == EVENTLOG_NOT_REFUSED);
    CHECK(refusal_of(0, 0, EVENTLOG_MAX_DATA + 1) == EVENTLOG_REFUSED_DATA);

    memset(&event, 0, sizeof event);
    w = eventlog_write_event(EVENTLOG_UNICODE, 1, &event, out, EVENTLOG_MIN_LENGTH);
    CHECK(w.refusal == EVENTLOG_NOT_REFUSED && w.length == EVENTLOG_MIN_LENGTH);
    CHECK(out[4] == (uint8_t)EVENTLOG_SIGNATURE && out[7] == EVENTLOG_SIGNATURE >> 24);
    event.fields.reserved_flags = EVENTLOG_FLAGS_XML;
    CHECK(eventlog_write_event(EVENTLOG_UNICODE, 1, &event, out, sizeof out).refusal == EVENTLOG_REFUSED_FLAGS);
    event.fields.num_strings = 1;
    event.strings.bytes = zeros;
    event.strings.len = 2;
    CHECK(eventlog_write_event(EVENTLOG_UNICODE, 1, &event, out, sizeof out).refusal == EVENTLOG_NOT_REFUSED);
    memset(&event, 0, sizeof event);
    memset(zeros, 1, sizeof zeros);
    event.source_name.bytes = zeros;
    event.source_name.len = EVENTLOG_MAX_LENGTH - EVENTLOG_MIN_LENGTH;
    CHECK(eventlog_write_event(EVENTLOG_UNICODE, 1, &event, out, sizeof out).length == EVENTLOG_MAX_LENGTH);
    event.source_name.len += 4;
    CHECK(eventlog_write_event(EVENTLOG_UNICODE, 1, &event, out, sizeof out).refusal == EVENTLOG_REFUSED_LENGTH);
    memset(zeros, 0, sizeof zeros);

    r = eventlog_read(EVENTLOG_UNICODE, eventlog_fresh(EVENTLOG_WANT_ALL), NULL, 0,
                      EVENTLOG_SEQUENTIAL | EVENTLOG_FORWARDS, 0, EVENTLOG_MAX_READ, out, sizeof out);
    CHECK(r.status == EVENTLOG_STATUS_END_OF_FILE);
    r = eventlog_read(EVENTLOG_UNICODE, eventlog_fresh(EVENTLOG_WANT_ALL), NULL, 0,
                      EVENTLOG_SEQUENTIAL | EVENTLOG_FORWARDS, 0, EVENTLOG_MAX_READ + 1, out, sizeof out);
    CHECK(r.status == EVENTLOG_STATUS_INVALID_PARAMETER);
    r = eventlog_read(EVENTLOG_UNICODE, eventlog_fresh(EVENTLOG_WANT_ALL + 1), NULL, 0,
                      EVENTLOG_SEQUENTIAL | EVENTLOG_FORWARDS, 0, EVENTLOG_MAX_READ, out, sizeof out);
    CHECK(r.status == EVENTLOG_STATUS_INVALID_PARAMETER);
    w = eventlog_listing(EVENTLOG_UNICODE, NULL, 0, out, EVENTLOG_LISTING_ROOM);
    CHECK(w.refusal == EVENTLOG_NOT_REFUSED);
    w = eventlog_listing(EVENTLOG_UNICODE, NULL, 0, out, 9);
    CHECK(w.refusal == EVENTLOG_REFUSED_OUTPUT);
}

/* An event of a name of three bytes is one of ANSI, and its record shows the name in that edition. */
static void editions(void)
{
    eventlog_event event;
    eventlog_written w;
    eventlog_stepped x;
    memset(&event, 0, sizeof event);
    event.source_name.bytes = (const uint8_t *)"abc";
    event.source_name.len = 3;
    CHECK(eventlog_write_event(EVENTLOG_UNICODE, 1, &event, out, sizeof out).refusal == EVENTLOG_REFUSED_NAME);
    w = eventlog_write_event(EVENTLOG_ANSI, 1, &event, out, sizeof out);
    CHECK(w.refusal == EVENTLOG_NOT_REFUSED && w.length == EVENTLOG_MIN_LENGTH + 4);
    x = eventlog_step(EVENTLOG_ANSI, out, w.length, 0);
    CHECK(x.refusal == EVENTLOG_NOT_REFUSED && x.found.source_name.len == 3 && x.found.computer_name.at == 60);
}

/* Names and strings from literals, of UTF-16 where the language has such literals. */
static void literals(void)
{
    eventlog_bytes ansi = EVENTLOG_NAME("A\x80"), run = EVENTLOG_STRINGS("A\0\0B"), empty = EVENTLOG_NAME("");
    CHECK(ansi.len == 2 && memcmp(ansi.bytes, "A\x80", 2) == 0);
    CHECK(run.len == 5 && memcmp(run.bytes, "A\0\0B\0", 5) == 0);
    CHECK(empty.len == 0);
#if (defined __cplusplus && __cplusplus >= 201103L) || (defined __STDC_VERSION__ && __STDC_VERSION__ >= 201112L)
    eventlog_bytes name = EVENTLOG_NAME(u"A\u20AC"), strings = EVENTLOG_STRINGS(u"A\0\0B"), none = EVENTLOG_NAME(u"");
    CHECK(name.len == 4 && memcmp(name.bytes, "A\0\xAC\x20", 4) == 0);
    CHECK(strings.len == 10 && memcmp(strings.bytes, "A\0\0\0\0\0B\0\0\0", 10) == 0);
    CHECK(none.len == 0);
#endif
}

int main(void)
{
    numbers();
    types();
    messages();
    limits();
    editions();
    literals();
    if (failed)
        puts("header.c: failed");
    return failed;
}
