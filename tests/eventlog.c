/* The C border: every call with the samples S and T in both editions, what it refuses, and which bytes it leaves
 * alone. */
#include "eventlog.h"

#include <stdio.h>
#include <string.h>

/* The layout that the library is built with. */
_Static_assert(sizeof(eventlog_fields) == 24, "eventlog_fields");
_Static_assert(sizeof(eventlog_unnumbered) == 20, "eventlog_unnumbered");
_Static_assert(sizeof(eventlog_part) == 16, "eventlog_part");
_Static_assert(sizeof(eventlog_record) == 120, "eventlog_record");
_Static_assert(sizeof(eventlog_stepped) == 144, "eventlog_stepped");
_Static_assert(sizeof(eventlog_next) == 32, "eventlog_next");
_Static_assert(sizeof(eventlog_walked) == 32, "eventlog_walked");
_Static_assert(sizeof(eventlog_written) == 16, "eventlog_written");
_Static_assert(sizeof(eventlog_appended) == 24, "eventlog_appended");
_Static_assert(sizeof(eventlog_handle) == 16, "eventlog_handle");
_Static_assert(sizeof(eventlog_answer) == 40, "eventlog_answer");
_Static_assert(offsetof(eventlog_stepped, found) == 24, "eventlog_stepped.found");
_Static_assert(offsetof(eventlog_next, string) == 8, "eventlog_next.string");
_Static_assert(offsetof(eventlog_handle, types) == 4, "eventlog_handle.types");
_Static_assert(offsetof(eventlog_handle, boundary) == 8, "eventlog_handle.boundary");
_Static_assert(offsetof(eventlog_answer, handle) == 24, "eventlog_answer.handle");

/* A member of another width can leave a struct's size as it is, by its padding. */
#define WIDTH(type, member) sizeof(((type *)0)->member)
_Static_assert(WIDTH(eventlog_part, at) == 8 && WIDTH(eventlog_part, len) == 8, "eventlog_part");
_Static_assert(WIDTH(eventlog_record, start) == 8 && WIDTH(eventlog_record, length) == 8, "eventlog_record");
_Static_assert(WIDTH(eventlog_refused, refusal) == 4 && WIDTH(eventlog_refused, field) == 8, "eventlog_refused");
_Static_assert(WIDTH(eventlog_stepped, refusal) == 4 && WIDTH(eventlog_stepped, field) == 8, "eventlog_stepped");
_Static_assert(WIDTH(eventlog_stepped, at) == 8, "eventlog_stepped");
_Static_assert(WIDTH(eventlog_next, refusal) == 4 && WIDTH(eventlog_next, next) == 8, "eventlog_next");
_Static_assert(WIDTH(eventlog_walked, count) == 8 && WIDTH(eventlog_walked, refusal) == 4, "eventlog_walked");
_Static_assert(WIDTH(eventlog_walked, field) == 8, "eventlog_walked");
_Static_assert(WIDTH(eventlog_walked, at) == 8, "eventlog_walked");
_Static_assert(WIDTH(eventlog_written, refusal) == 4 && WIDTH(eventlog_written, length) == 8, "eventlog_written");
_Static_assert(WIDTH(eventlog_appended, refusal) == 4 && WIDTH(eventlog_appended, used) == 8, "eventlog_appended");
_Static_assert(WIDTH(eventlog_appended, field) == 8, "eventlog_appended");
_Static_assert(WIDTH(eventlog_handle, kind) == 4 && WIDTH(eventlog_handle, types) == 4, "eventlog_handle");
_Static_assert(WIDTH(eventlog_handle, boundary) == 8, "eventlog_handle");
_Static_assert(WIDTH(eventlog_answer, status) == 4 && WIDTH(eventlog_answer, read) == 8, "eventlog_answer");
_Static_assert(WIDTH(eventlog_answer, needed) == 8, "eventlog_answer");

#define COUNT(table) (sizeof(table) / sizeof *(table))

#define UNICODE EVENTLOG_UNICODE

static int failed;

static void check(int line, int holds, const char *fact)
{
    if (!holds) {
        printf("eventlog.c:%d: not so: %s\n", line, fact);
        failed = 1;
    }
}

/* CHECK_AT names the line of a table's row or of a caller. */
#define CHECK(fact) check(__LINE__, (fact), #fact)
#define CHECK_AT(line, fact) check((line), (fact), #fact)

/* ---- the samples ---- */

/* The records S and T of Rules 11.1 and 11.2, joined. S is as it stands there. T has the texts and the layout of
 * Rule 11.2, but other numbers: those that are 0 there are not 0 here, no two fields are the same, and SID and data
 * have other bytes, so that an exchange shows. */
enum { S = 0, T = 64, END = 168, S_LENGTH = 64, T_LENGTH = 104, S_NUMBER = 7, T_NUMBER = 0x14131211 };

/* A few zero bytes behind them, so that a part with another one's length lies in the array. */
static const uint8_t batch[END + 16] = {
    [S] = S_LENGTH, [S + 4] = 'L', 'f', 'L', 'e', [S + 8] = S_NUMBER, [S + 60] = S_LENGTH,

    [T] = T_LENGTH, [T + 4] = 'L', 'f', 'L', 'e',
    [T + 8] = 0x11, 0x12, 0x13, 0x14,         /* record_number */
    [T + 12] = 0x21, 0x22, 0x23, 0x24,        /* time_generated */
    [T + 16] = 0x31, 0x32, 0x33, 0x34,        /* time_written */
    [T + 20] = 0x41, 0x42, 0x43, 0x44,        /* event_id */
    [T + 24] = 16, 0,                         /* event_type */
    [T + 26] = 1, 0,                          /* num_strings */
    [T + 28] = 0x51, 0x52,                    /* event_category */
    [T + 30] = 0x00, 0x80,                    /* reserved_flags */
    [T + 36] = 88,                            /* StringOffset */
    [T + 40] = 12, [T + 44] = 76,             /* UserSidLength, UserSidOffset */
    [T + 48] = 3, [T + 52] = 94,              /* DataLength, DataOffset */
    [T + 56] = 'S', 0, 'c', 0, 'a', 0, 'l', 0, 'e', 0, 0, 0,
    [T + 68] = 'T', 0, '1', 0, 0, 0,
    [T + 76] = 1, 1, 0, 0, 0, 0, 0, 5, 18, 0, 0, 0,
    [T + 88] = 'O', 0, 'K', 0, 0, 0,
    [T + 94] = 0xD1, 0xD2, 0xD3,
    [T + 100] = T_LENGTH,
};

/* Every part that is not named is lent as a null pointer with length 0. */
static const eventlog_event event_s = {.fields = {.time_generated = 0}};

/* Fields are named everywhere: values in the header's order would follow a wrong order of the header. */
#define FIELDS_OF_T                                                                                              \
    .time_generated = 0x24232221, .time_written = 0x34333231, .event_id = 0x44434241, .event_type = 16,          \
    .num_strings = 1, .event_category = 0x5251, .reserved_flags = 0x8000

static const eventlog_event event_t = {
    .fields = {FIELDS_OF_T},
    .source_name = {batch + T + 56, 10}, .computer_name = {batch + T + 68, 4}, .sid = {batch + T + 76, 12},
    .strings = {batch + T + 88, 6}, .event_data = {batch + T + 94, 3},
};

static const eventlog_fields fields_s = {.record_number = S_NUMBER};
static const eventlog_fields fields_t = {.record_number = T_NUMBER, FIELDS_OF_T};

/* The proved calls, without the header's own functions. */
static eventlog_written write_event(uint32_t edition, uint32_t number, eventlog_event e, uint8_t *out, size_t out_len)
{
    eventlog_fields fields = {
        .record_number = number, .time_generated = e.fields.time_generated,
        .time_written = e.fields.time_written, .event_id = e.fields.event_id, .event_type = e.fields.event_type,
        .num_strings = e.fields.num_strings, .event_category = e.fields.event_category,
        .reserved_flags = e.fields.reserved_flags,
    };
    return eventlog_write(edition, fields, e.source_name.bytes, e.source_name.len, e.computer_name.bytes,
                          e.computer_name.len, e.sid.bytes, e.sid.len, e.strings.bytes, e.strings.len,
                          e.event_data.bytes, e.event_data.len, out, out_len);
}

static eventlog_appended append_event(uint32_t edition, uint8_t *log, size_t log_len, size_t used, eventlog_event e)
{
    return eventlog_append(edition, log, log_len, used, e.fields, e.source_name.bytes, e.source_name.len,
                           e.computer_name.bytes, e.computer_name.len, e.sid.bytes, e.sid.len, e.strings.bytes,
                           e.strings.len, e.event_data.bytes, e.event_data.len);
}

/* What a step shows of S and of T where they start at a place; an absent part has a place too. */
static eventlog_record record_s(size_t at)
{
    return (eventlog_record){
        .start = at, .length = S_LENGTH, .fields = fields_s,
        .source_name = {.at = at + 56}, .computer_name = {.at = at + 58}, .sid = {.at = at + 60},
        .strings = {.at = at + 60}, .event_data = {.at = at + 60},
    };
}

static eventlog_record record_t(size_t at)
{
    return (eventlog_record){
        .start = at, .length = T_LENGTH, .fields = fields_t,
        .source_name = {.at = at + 56, .len = 10}, .computer_name = {.at = at + 68, .len = 4},
        .sid = {.at = at + 76, .len = 12}, .strings = {.at = at + 88, .len = 6},
        .event_data = {.at = at + 94, .len = 3},
    };
}

static int same_fields(eventlog_fields a, eventlog_fields b)
{
    return a.record_number == b.record_number && a.time_generated == b.time_generated
        && a.time_written == b.time_written && a.event_id == b.event_id && a.event_type == b.event_type
        && a.num_strings == b.num_strings && a.event_category == b.event_category
        && a.reserved_flags == b.reserved_flags;
}

static int same_part(eventlog_part a, eventlog_part b)
{
    return a.at == b.at && a.len == b.len;
}

static int same_parts(eventlog_record a, eventlog_record b)
{
    return same_part(a.source_name, b.source_name) && same_part(a.computer_name, b.computer_name)
        && same_part(a.sid, b.sid) && same_part(a.strings, b.strings) && same_part(a.event_data, b.event_data);
}

/* A pattern in which a store shows. */
static void fill(uint8_t *p, size_t n)
{
    for (size_t i = 0; i < n; i++)
        p[i] = (uint8_t)(i * 37 + 5);
}

/* ---- step, step_back, refusal ---- */

/* A refusal and its field. */
static int refused(eventlog_refused x, uint32_t refusal, size_t field)
{
    return x.refusal == refusal && x.field == field;
}

static void finds(int line, eventlog_stepped x, size_t at, eventlog_record want)
{
    CHECK_AT(line, x.refusal == 0 && x.field == 0);
    CHECK_AT(line, x.at == at);
    CHECK_AT(line, x.found.start == want.start && x.found.length == want.length);
    CHECK_AT(line, same_fields(x.found.fields, want.fields));
    CHECK_AT(line, same_parts(x.found, want));
}

static void step_refuses(int line, eventlog_stepped x, size_t at, uint32_t refusal, size_t field)
{
    const eventlog_record nothing = {.start = 0};
    CHECK_AT(line, x.refusal == refusal && x.field == field);
    CHECK_AT(line, x.at == at);
    CHECK_AT(line, x.found.start == 0 && x.found.length == 0);
    CHECK_AT(line, same_fields(x.found.fields, nothing.fields));
    CHECK_AT(line, same_parts(x.found, nothing));
}

static void steps_find(void)
{
    finds(__LINE__, eventlog_step(UNICODE, batch, END, S), S, record_s(0));
    finds(__LINE__, eventlog_step(UNICODE, batch, END, T), T, record_t(T));
    finds(__LINE__, eventlog_step(UNICODE, batch + T, T_LENGTH, 0), 0, record_t(0));
    finds(__LINE__, eventlog_step_back(UNICODE, batch, END, T), T, record_s(0));
    finds(__LINE__, eventlog_step_back(UNICODE, batch, END, END), END, record_t(T));
    finds(__LINE__, eventlog_step_back(UNICODE, batch + T, T_LENGTH, T_LENGTH), T_LENGTH, record_t(0));
    CHECK(refused(eventlog_refusal(UNICODE, batch, END, S), 0, 0));
    CHECK(refused(eventlog_refusal(UNICODE, batch, END, T), 0, 0));
}

/* Places where no record of the first len bytes starts or ends: the refusals of both steps. All have field 0. */
static const struct {
    int line;
    size_t len, at;
    uint32_t front, rear;
} misplaced[] = {
    {__LINE__, END, END + 1, 1, 1},
    {__LINE__, END, SIZE_MAX, 1, 1},
    {__LINE__, 63, 0, 1, 1},
    {__LINE__, 63, 63, 1, 1},
    {__LINE__, END, 63, 3, 1},
    {__LINE__, END, 1, 2, 1},
    {__LINE__, END, END - 63, 1, 2},
    {__LINE__, END, END - 1, 1, 3},
};

static void steps_refuse_places(void)
{
    for (size_t i = 0; i < COUNT(misplaced); i++) {
        int line = misplaced[i].line;
        size_t len = misplaced[i].len, at = misplaced[i].at;
        step_refuses(line, eventlog_step(UNICODE, batch, len, at), at, misplaced[i].front, 0);
        step_refuses(line, eventlog_step_back(UNICODE, batch, len, at), at, misplaced[i].rear, 0);
        CHECK_AT(line, refused(eventlog_refusal(UNICODE, batch, len, at), misplaced[i].front, 0));
    }
    step_refuses(__LINE__, eventlog_step(UNICODE, NULL, 0, 0), 0, 1, 0);
    step_refuses(__LINE__, eventlog_step_back(UNICODE, NULL, 0, 0), 0, 1, 0);
    CHECK(refused(eventlog_refusal(UNICODE, NULL, 0, 0), 1, 0));
}

/* One byte of S or T is another: the refusals from the front and from the rear, each with its field. */
static const struct {
    int line;
    size_t record, at;
    uint8_t byte;
    uint32_t front;
    size_t front_field;
    uint32_t rear;
    size_t rear_field;
} corrupted[] = {
    {__LINE__, S, 0, 60, 2, 0, 5, 0},
    {__LINE__, T, 0, 102, 2, 0, 5, 0},
    {__LINE__, T, 2, 1, 3, 0, 5, 0}, /* Length 65,640 */
    {__LINE__, T, 2, 3, 3, 0, 5, 0}, /* 196,712 */
    {__LINE__, T, 2, 4, 2, 0, 5, 0}, /* 262,248 */
    {__LINE__, T, 3, 1, 2, 0, 5, 0}, /* 16,777,320 */
    {__LINE__, T, 102, 1, 5, 100, 3, 0},
    {__LINE__, T, 102, 4, 5, 100, 2, 0},
    {__LINE__, T, 0, 108, 3, 0, 5, 0},
    {__LINE__, T, 4, 0, 4, 4, 4, 4},
    {__LINE__, T, 100, 60, 5, 100, 2, 0},
    {__LINE__, T, 100, 108, 5, 100, 3, 0},
    {__LINE__, T, 100, 100, 5, 100, 4, 4}, /* from the rear the record starts at 4 */
    {__LINE__, T, 24, 3, 6, 24, 6, 24},
    {__LINE__, T, 24, 32, 6, 24, 6, 24},
    {__LINE__, T, 31, 0x40, 7, 30, 7, 30},
    {__LINE__, S, 31, 0x80, 7, 30, 7, 30}, /* 0x8000 without a string */
    {__LINE__, T, 26, 0, 7, 30, 7, 30},
    {__LINE__, T, 27, 1, 8, 26, 8, 26}, /* 257 strings */
    {__LINE__, S, 56, 1, 9, 60, 9, 60},
    {__LINE__, S, 58, 1, 9, 58, 9, 58},
    {__LINE__, T, 40, 8, 10, 44, 10, 44},
    {__LINE__, T, 44, 77, 10, 44, 10, 44},
    {__LINE__, T, 76, 2, 10, 44, 10, 44},
    {__LINE__, T, 77, 2, 10, 44, 10, 44},
    {__LINE__, T, 36, 90, 11, 36, 11, 36},
    {__LINE__, T, 26, 3, 11, 36, 11, 36},
    {__LINE__, T, 52, 95, 12, 48, 12, 48},
    {__LINE__, T, 48, 7, 12, 48, 12, 48},
    {__LINE__, T, 50, 1, 12, 48, 12, 48}, /* 65,539 data bytes */
    {__LINE__, T, 48, 2, 13, 0, 13, 0},
};

/* T with another gap after its names, over the start of a buffer that is not zero. */
static size_t gapped_t(uint8_t *r, size_t gap)
{
    enum { NAMES_END = 74, PARTS = 76, DATA_END = 97 };
    size_t first = NAMES_END + gap, end = first + (DATA_END - PARTS);
    size_t length = (end + 3) / 4 * 4 + 4;
    fill(r, length);
    memcpy(r, batch + T, NAMES_END);
    memcpy(r + first, batch + T + PARTS, DATA_END - PARTS);
    const size_t places[][2] = {{0, length}, {44, first}, {36, first + 12}, {52, first + 18}, {length - 4, length}};
    for (size_t i = 0; i < COUNT(places); i++)
        for (size_t k = 0; k < 4; k++)
            r[places[i][0] + k] = (uint8_t)(places[i][1] >> (8 * k));
    return length;
}

/* The first part stands wherever its offset says, behind the names; the others follow it. */
static void gaps_before_the_first_part(void)
{
    static const size_t gaps[][2] = {{0, 100}, {1, 100}, {2, 104}, {8, 108}, {40, 140}};
    for (size_t i = 0; i < COUNT(gaps); i++) {
        uint8_t r[160], again[160];
        size_t gap = gaps[i][0], length = gapped_t(r, gap);
        CHECK(length == gaps[i][1]);
        eventlog_record want = record_t(0);
        want.length = length;
        want.sid.at = 74 + gap;
        want.strings.at = 86 + gap;
        want.event_data.at = 92 + gap;
        finds(__LINE__, eventlog_step(UNICODE, r, length, 0), 0, want);
        finds(__LINE__, eventlog_step_back(UNICODE, r, length, length), length, want);
        /* written again it is T */
        eventlog_event e = eventlog_event_of(r, &want);
        eventlog_written w = eventlog_write_event(UNICODE, T_NUMBER, &e, again, sizeof again);
        CHECK(w.refusal == 0 && w.length == T_LENGTH && memcmp(again, batch + T, T_LENGTH) == 0);
        r[44] = 73;
        step_refuses(__LINE__, eventlog_step(UNICODE, r, length, 0), 0, 10, 44);
        r[44] = (uint8_t)(74 + gap);
        r[36]++;
        step_refuses(__LINE__, eventlog_step(UNICODE, r, length, 0), 0, 11, 36);
    }
    /* without a part, everything up to Length2 is gap */
    uint8_t s[S_LENGTH + 8];
    fill(s, sizeof s);
    memcpy(s, batch + S, S_LENGTH - 4);
    s[0] = s[sizeof s - 4] = sizeof s;
    memset(s + sizeof s - 3, 0, 3);
    eventlog_record want = record_s(0);
    want.length = sizeof s;
    want.sid.at = want.strings.at = want.event_data.at = sizeof s - 4;
    finds(__LINE__, eventlog_step(UNICODE, s, sizeof s, 0), 0, want);
    finds(__LINE__, eventlog_step_back(UNICODE, s, sizeof s, sizeof s), sizeof s, want);
}

static void corrupted_records_are_refused(void)
{
    for (size_t i = 0; i < COUNT(corrupted); i++) {
        int line = corrupted[i].line;
        size_t len = corrupted[i].record == S ? S_LENGTH : T_LENGTH;
        uint8_t r[T_LENGTH];
        memcpy(r, batch + corrupted[i].record, len);
        r[corrupted[i].at] = corrupted[i].byte;
        uint32_t front = corrupted[i].front, rear = corrupted[i].rear;
        size_t front_field = corrupted[i].front_field, rear_field = corrupted[i].rear_field;
        step_refuses(line, eventlog_step(UNICODE, r, len, 0), 0, front, front_field);
        step_refuses(line, eventlog_step_back(UNICODE, r, len, len), len, rear, rear_field);
        CHECK_AT(line, refused(eventlog_refusal(UNICODE, r, len, 0), front, front_field));
        CHECK_AT(line, refused(eventlog_string_refusal(UNICODE, r, len, 0, 0), front, front_field));
        eventlog_part string = eventlog_string(UNICODE, r, len, 0, 0);
        CHECK_AT(line, string.at == 0 && string.len == 0);
        eventlog_walked w = eventlog_walk(UNICODE, r, len);
        CHECK_AT(line, w.count == 0 && w.refusal == front && w.field == front_field && w.at == 0);
        w = eventlog_walk_back(UNICODE, r, len);
        CHECK_AT(line, w.count == 0 && w.refusal == rear && w.field == rear_field && w.at == len);
    }
}

/* ---- string, string_refusal, next_string ---- */

/* The strings "A", the empty one and "BC" of a record that starts at 8; they lie from 96 to 108. */
static const struct {
    int line;
    size_t at;
    uint32_t k, refusal;
    eventlog_part part;
} asked[] = {
    {__LINE__, 8, 0, 0, {.at = 96, .len = 2}},
    {__LINE__, 8, 1, 0, {.at = 100, .len = 0}},
    {__LINE__, 8, 2, 0, {.at = 102, .len = 4}},
    {__LINE__, 8, 3, 17, {.at = 0, .len = 0}},
    {__LINE__, 8, UINT32_MAX, 17, {.at = 0, .len = 0}},
    {__LINE__, 9, 0, 2, {.at = 0, .len = 0}},
    {__LINE__, 116, 0, 1, {.at = 0, .len = 0}},
};

enum { THREE = 116 };

static void write_three(uint8_t s[THREE])
{
    static const uint8_t three[] = {'A', 0, 0, 0, 0, 0, 'B', 0, 'C', 0, 0, 0};
    fill(s, THREE);
    eventlog_event e = event_t;
    e.fields.num_strings = 3;
    e.strings = (eventlog_bytes){three, sizeof three};
    eventlog_written w = write_event(UNICODE, T_NUMBER, e, s + 8, THREE - 8);
    CHECK(w.refusal == 0 && w.length == 108);
}

static void strings_are_found(void)
{
    uint8_t s[THREE];
    write_three(s);
    for (size_t i = 0; i < COUNT(asked); i++) {
        eventlog_part part = eventlog_string(UNICODE, s, sizeof s, asked[i].at, asked[i].k);
        CHECK_AT(asked[i].line, same_part(part, asked[i].part));
        eventlog_refused x = eventlog_string_refusal(UNICODE, s, sizeof s, asked[i].at, asked[i].k);
        CHECK_AT(asked[i].line, refused(x, asked[i].refusal, 0));
    }
    eventlog_part part = eventlog_string(UNICODE, NULL, 0, 0, 0);
    CHECK(part.at == 0 && part.len == 0);
    CHECK(refused(eventlog_string_refusal(UNICODE, NULL, 0, 0, 0), 1, 0));
}

#define NO_STRING(place) {.refusal = 17, .string = {.at = 0, .len = 0}, .next = (place)}
#define STRING(place, length, after) {.refusal = 0, .string = {.at = (place), .len = (length)}, .next = (after)}

/* Places of their run, and other runs. */
static const struct {
    int line;
    eventlog_part run;
    size_t place;
    eventlog_next next;
} asked_next[] = {
    {__LINE__, {.at = 96, .len = 12}, 96, STRING(96, 2, 100)},
    {__LINE__, {.at = 96, .len = 12}, 100, STRING(100, 0, 102)},
    {__LINE__, {.at = 96, .len = 12}, 102, STRING(102, 4, 108)},
    {__LINE__, {.at = 96, .len = 12}, 108, NO_STRING(108)},
    {__LINE__, {.at = 96, .len = 12}, 109, NO_STRING(109)},
    {__LINE__, {.at = 96, .len = 12}, 95, NO_STRING(95)},
    {__LINE__, {.at = 96, .len = 12}, 0, NO_STRING(0)},
    {__LINE__, {.at = 96, .len = 12}, SIZE_MAX, NO_STRING(SIZE_MAX)},
    /* units are counted from the place */
    {__LINE__, {.at = 96, .len = 12}, 97, STRING(97, 0, 99)},
    {__LINE__, {.at = 96, .len = 12}, 103, STRING(103, 2, 107)},
    {__LINE__, {.at = 96, .len = 12}, 104, STRING(104, 2, 108)},
    {__LINE__, {.at = 96, .len = 12}, 107, NO_STRING(107)},
    /* the run ends in a zero unit, before it, right behind it */
    {__LINE__, {.at = 96, .len = 11}, 102, NO_STRING(102)},
    {__LINE__, {.at = 96, .len = 10}, 102, NO_STRING(102)},
    {__LINE__, {.at = 96, .len = 4}, 96, STRING(96, 2, 100)},
    {__LINE__, {.at = 96, .len = 4}, 100, NO_STRING(100)},
    /* to the buffer's end, and past it */
    {__LINE__, {.at = 96, .len = 20}, 108, STRING(108, 6, 116)},
    {__LINE__, {.at = 96, .len = 21}, 96, NO_STRING(96)},
    {__LINE__, {.at = 96, .len = SIZE_MAX - 95}, 96, NO_STRING(96)},
    {__LINE__, {.at = 96, .len = SIZE_MAX}, 96, NO_STRING(96)},
    {__LINE__, {.at = 116, .len = 0}, 116, NO_STRING(116)},
    {__LINE__, {.at = 117, .len = 0}, 117, NO_STRING(117)},
    {__LINE__, {.at = SIZE_MAX, .len = 2}, SIZE_MAX, NO_STRING(SIZE_MAX)},
    {__LINE__, {.at = 0, .len = 0}, 0, NO_STRING(0)},
};

static int same_next(eventlog_next a, eventlog_next b)
{
    return a.refusal == b.refusal && same_part(a.string, b.string) && a.next == b.next;
}

static void next_strings_are_found(void)
{
    uint8_t s[THREE], before[THREE];
    write_three(s);
    memcpy(before, s, THREE);
    for (size_t i = 0; i < COUNT(asked_next); i++) {
        eventlog_next next = eventlog_next_string(UNICODE, s, THREE, asked_next[i].run, asked_next[i].place);
        CHECK_AT(asked_next[i].line, same_next(next, asked_next[i].next));
    }
    for (size_t len = 0; len <= 2; len += 2) {
        eventlog_next next = eventlog_next_string(UNICODE, NULL, 0, (eventlog_part){.at = 0, .len = len}, 0);
        CHECK(same_next(next, (eventlog_next)NO_STRING(0)));
    }

    /* in turn, the record's strings by number */
    eventlog_record found = eventlog_step(UNICODE, s, THREE, 8).found;
    CHECK(same_part(found.strings, (eventlog_part){.at = 96, .len = 12}));
    size_t place = found.strings.at;
    for (uint32_t k = 0; k < found.fields.num_strings; k++) {
        eventlog_next next = eventlog_next_string(UNICODE, s, THREE, found.strings, place);
        CHECK(next.refusal == 0 && same_part(next.string, eventlog_string(UNICODE, s, THREE, 8, k)));
        place = next.next;
    }
    CHECK(place == found.strings.at + found.strings.len);
    CHECK(memcmp(s, before, THREE) == 0);
}

/* ---- walk, walk_back ---- */

#define WALKED(records, number, failed, place) {.count = (records), .refusal = (number), .field = (failed), .at = (place)}

static int same_walked(eventlog_walked a, eventlog_walked b)
{
    return a.count == b.count && a.refusal == b.refusal && a.field == b.field && a.at == b.at;
}

static void walks_answer(void)
{
    uint8_t bad_s[END], bad_t[END];
    memcpy(bad_s, batch, END);
    memcpy(bad_t, batch, END);
    bad_s[S + 24] = 3;
    bad_t[T + 31] = 0x40;
    const struct {
        int line;
        const uint8_t *s;
        size_t len;
        eventlog_walked front, rear;
    } rows[] = {
        {__LINE__, batch, END, WALKED(2, 0, 0, END), WALKED(2, 0, 0, 0)},
        {__LINE__, batch, T, WALKED(1, 0, 0, T), WALKED(1, 0, 0, 0)},
        {__LINE__, NULL, 0, WALKED(0, 0, 0, 0), WALKED(0, 0, 0, 0)},
        /* the last four of 167 bytes are 0, 104, 0, 0: a Length of 26,624 */
        {__LINE__, batch, END - 1, WALKED(1, 3, 0, T), WALKED(0, 3, 0, END - 1)},
        {__LINE__, batch, T + 63, WALKED(1, 1, 0, T), WALKED(0, 2, 0, T + 63)},
        {__LINE__, batch + 1, END - 1, WALKED(0, 2, 0, 0), WALKED(1, 1, 0, T - 1)},
        {__LINE__, bad_s, END, WALKED(0, 6, 24, 0), WALKED(1, 6, 24, T)},
        {__LINE__, bad_t, END, WALKED(1, 7, 30, T), WALKED(0, 7, 30, END)},
    };
    for (size_t i = 0; i < COUNT(rows); i++) {
        CHECK_AT(rows[i].line, same_walked(eventlog_walk(UNICODE, rows[i].s, rows[i].len), rows[i].front));
        CHECK_AT(rows[i].line, same_walked(eventlog_walk_back(UNICODE, rows[i].s, rows[i].len), rows[i].rear));
    }
}

/* ---- write ---- */

static const uint8_t zeros[61441];
static const uint8_t sid_of_15[68] = {1, 15};
static const uint8_t sid_of_16[72] = {1, 16};
static uint8_t ones[262144];

/* Each output and its copy, which gets what is to be written. An output for any record has room for some more bytes. */
static uint8_t out[524288], want[524288];
enum { ROOM = 262148 };

static void lend(size_t n)
{
    fill(out, n);
    memcpy(want, out, n);
}

static void writes(int line, uint32_t number, eventlog_event e, size_t out_len, const uint8_t *record, size_t length)
{
    lend(256);
    memcpy(want, record, length);
    eventlog_written w = write_event(UNICODE, number, e, out, out_len);
    CHECK_AT(line, w.refusal == 0 && w.length == length);
    CHECK_AT(line, memcmp(out, want, 256) == 0);
}

static void write_lays_out(void)
{
    writes(__LINE__, S_NUMBER, event_s, 128, batch + S, S_LENGTH);
    writes(__LINE__, S_NUMBER, event_s, S_LENGTH, batch + S, S_LENGTH);
    writes(__LINE__, T_NUMBER, event_t, 128, batch + T, T_LENGTH);
    writes(__LINE__, T_NUMBER, event_t, T_LENGTH, batch + T, T_LENGTH);
}

static void write_refuses(int line, eventlog_event e, size_t out_len, uint32_t refusal)
{
    lend(ROOM);
    eventlog_written w = write_event(UNICODE, T_NUMBER, e, out, out_len);
    CHECK_AT(line, w.refusal == refusal);
    CHECK_AT(line, w.length == 0);
    CHECK_AT(line, memcmp(out, want, ROOM) == 0);
}

enum { LOG = 200 };

/* The log is S and T and 32 bytes. */
static void append_refuses(int line, size_t log_len, size_t used, eventlog_event e, uint32_t refusal)
{
    uint8_t log[LOG], before[LOG];
    fill(log, LOG);
    memcpy(log, batch, END);
    memcpy(before, log, LOG);
    eventlog_appended a = append_event(UNICODE, log, log_len, used, e);
    CHECK_AT(line, a.refusal == refusal && a.field == 0);
    CHECK_AT(line, a.used == used);
    CHECK_AT(line, memcmp(log, before, LOG) == 0);
}

/* T with a change is neither written nor appended. */
#define REFUSES(refusal, ...)                            \
    do {                                                 \
        eventlog_event e = event_t;                      \
        __VA_ARGS__;                                     \
        write_refuses(__LINE__, e, ROOM, refusal);       \
        append_refuses(__LINE__, LOG, END, e, refusal);  \
    } while (0)

static void numbers_and_texts_are_refused(void)
{
    REFUSES(6, e.fields.event_type = 3);
    REFUSES(6, e.fields.event_type = 32);
    REFUSES(7, e.fields.reserved_flags = 0x4000);
    REFUSES(7, e.fields.reserved_flags = 0x8000; e.fields.num_strings = 0; e.strings = (eventlog_bytes){zeros, 0});
    REFUSES(7, e.fields.reserved_flags = 0x8001);
    REFUSES(8, e.fields.num_strings = 257; e.strings = (eventlog_bytes){zeros, 514});
    REFUSES(9, e.source_name.len = 9);
    REFUSES(9, e.source_name = (eventlog_bytes){zeros, 2});
    REFUSES(9, e.computer_name.len = 3);
    REFUSES(9, e.computer_name.len = 6);
    REFUSES(10, e.sid.len = 11);
    REFUSES(10, e.sid.len = 8);
    REFUSES(10, e.sid = (eventlog_bytes){zeros, 8});
    REFUSES(10, e.sid = (eventlog_bytes){ones, 7});
    REFUSES(10, e.sid = (eventlog_bytes){sid_of_16, 72});
    REFUSES(11, e.strings = (eventlog_bytes){NULL, 0});
    REFUSES(11, e.strings.len = 4);
    REFUSES(11, e.strings.len = 7);
    REFUSES(11, e.fields.num_strings = 0; e.fields.reserved_flags = 0);
    REFUSES(11, e.fields.num_strings = 2);
}

static void sizes_are_refused(void)
{
    REFUSES(12, e.event_data = (eventlog_bytes){zeros, 61441});
    REFUSES(2, e.source_name = (eventlog_bytes){ones, 262000}; e.computer_name = (eventlog_bytes){ones, 200});
    REFUSES(2, e = event_s; e.source_name = (eventlog_bytes){ones, 262078});
    REFUSES(2, e = event_s; e.source_name = (eventlog_bytes){ones, 262080});
    write_refuses(__LINE__, event_t, T_LENGTH - 1, 15);
    write_refuses(__LINE__, event_s, S_LENGTH - 1, 15);
    eventlog_written w = write_event(UNICODE, S_NUMBER, event_s, NULL, 0);
    CHECK(w.refusal == 15 && w.length == 0);
}

/* An event has every fault, and they are mended one by one. */
static void write_refuses_in_order(void)
{
    eventlog_event e = {.fields = {.event_type = 3, .reserved_flags = 0x4000, .num_strings = 257},
                        .source_name = {ones, 262077}, .computer_name = {zeros, 2}, .sid = {zeros, 8},
                        .strings = {zeros, 3}, .event_data = {zeros, 61441}};
    write_refuses(__LINE__, e, 63, 6);
    e.fields.event_type = 1;
    write_refuses(__LINE__, e, 63, 7);
    e.fields.reserved_flags = 0;
    write_refuses(__LINE__, e, 63, 8);
    e.fields.num_strings = 256;
    write_refuses(__LINE__, e, 63, 9);
    e.source_name.len = 262076;
    write_refuses(__LINE__, e, 63, 9);
    e.computer_name.len = 0;
    write_refuses(__LINE__, e, 63, 10);
    e.sid.len = 0;
    write_refuses(__LINE__, e, 63, 11);
    e.strings.len = 512;
    write_refuses(__LINE__, e, 63, 12);
    e.event_data.len = 61440;
    write_refuses(__LINE__, e, 63, 2);
    e.source_name.len = 0;
    write_refuses(__LINE__, e, 63, 15);
}

static void write_accepts(int line, eventlog_event e, size_t length)
{
    lend(ROOM);
    eventlog_written w = write_event(UNICODE, T_NUMBER, e, out, length);
    CHECK_AT(line, w.refusal == 0);
    CHECK_AT(line, w.length == length);
    CHECK_AT(line, memcmp(out + length, want + length, ROOM - length) == 0);
    CHECK_AT(line, refused(eventlog_refusal(UNICODE, out, length, 0), 0, 0));
    CHECK_AT(line, eventlog_step_back(UNICODE, out, length, length).refusal == 0);
}

/* S with a change is accepted and has this Length. */
#define ACCEPTS(length, ...)                             \
    do {                                                 \
        eventlog_event e = event_s;                      \
        __VA_ARGS__;                                     \
        write_accepts(__LINE__, e, length);              \
    } while (0)

static void write_accepts_types_and_limits(void)
{
    ACCEPTS(64, e.fields.event_type = 1);
    ACCEPTS(64, e.fields.event_type = 2);
    ACCEPTS(64, e.fields.event_type = 4);
    ACCEPTS(64, e.fields.event_type = 8);
    ACCEPTS(64, e.fields.event_type = 16);
    ACCEPTS(68, e.fields.reserved_flags = 0x8000; e.fields.num_strings = 1; e.strings = (eventlog_bytes){zeros, 2});
    ACCEPTS(576, e.fields.num_strings = 256; e.strings = (eventlog_bytes){zeros, 512});
    ACCEPTS(65532, e.source_name = (eventlog_bytes){ones, 65468});
    ACCEPTS(65536, e.source_name = (eventlog_bytes){ones, 65472});
    ACCEPTS(131072, e.source_name = (eventlog_bytes){ones, 131008});
    ACCEPTS(196608, e.computer_name = (eventlog_bytes){ones, 196544});
    ACCEPTS(262136, e.computer_name = (eventlog_bytes){ones, 262072});
    ACCEPTS(262140, e.source_name = (eventlog_bytes){ones, 262076});
    ACCEPTS(132, e.sid = (eventlog_bytes){sid_of_15, 68});
    ACCEPTS(61504, e.event_data = (eventlog_bytes){zeros, 61440});
}

/* ---- append ---- */

static void append_numbers(void)
{
    uint8_t log[LOG], after[LOG];
    fill(log, LOG);
    memcpy(after, log, LOG);
    memcpy(after, batch + S, S_LENGTH);
    memcpy(after + 8, (const uint8_t[]){1, 0, 0, 0}, 4);
    eventlog_appended a = append_event(UNICODE, log, LOG, 0, event_s);
    CHECK(a.refusal == 0 && a.field == 0 && a.used == T);
    CHECK(memcmp(log, after, LOG) == 0);

    memcpy(after + T, batch + T, T_LENGTH);
    memcpy(after + T + 8, (const uint8_t[]){2, 0, 0, 0}, 4);
    a = append_event(UNICODE, log, LOG, T, event_t);
    CHECK(a.refusal == 0 && a.field == 0 && a.used == END);
    CHECK(memcmp(log, after, LOG) == 0);
    eventlog_record second = record_t(T);
    second.fields.record_number = 2;
    finds(__LINE__, eventlog_step(UNICODE, log, LOG, T), T, second);
    finds(__LINE__, eventlog_step_back(UNICODE, log, LOG, END), END, second);
}

static void append_numbers_after_the_last(void)
{
    uint8_t log[LOG], after[LOG];
    fill(log, LOG);
    memcpy(log, batch + S, S_LENGTH);
    memset(log + 8, 255, 4);
    memcpy(after, log, LOG);
    memcpy(after + T, batch + T, T_LENGTH);
    memcpy(after + T + 8, (const uint8_t[]){0, 0, 0, 0}, 4);
    eventlog_appended a = append_event(UNICODE, log, END, T, event_t);
    CHECK(a.refusal == 0 && a.field == 0 && a.used == END);
    CHECK(memcmp(log, after, LOG) == 0);
}

static void append_refuses_in_order(void)
{
    eventlog_event bad = event_t;
    bad.fields.event_type = 3;
    append_refuses(__LINE__, END, END + 1, event_t, 1);
    append_refuses(__LINE__, END, SIZE_MAX, bad, 1);
    append_refuses(__LINE__, 0, 1, event_t, 1);
    append_refuses(__LINE__, LOG, 63, event_t, 14);
    append_refuses(__LINE__, LOG, 65, event_t, 14);
    append_refuses(__LINE__, LOG, LOG, event_t, 14);
    append_refuses(__LINE__, LOG, END - 1, bad, 14);
    append_refuses(__LINE__, LOG, 0, bad, 6);
    append_refuses(__LINE__, END, END, bad, 6);
    append_refuses(__LINE__, LOG, END, event_t, 15);
    append_refuses(__LINE__, END, END, event_t, 15);
    append_refuses(__LINE__, END - 1, T, event_t, 15);
    append_refuses(__LINE__, T_LENGTH - 1, 0, event_t, 15);
    eventlog_appended a = append_event(UNICODE, NULL, 0, 0, event_s);
    CHECK(a.refusal == 15 && a.field == 0 && a.used == 0);
    a = append_event(UNICODE, NULL, 0, 1, event_s);
    CHECK(a.refusal == 1 && a.field == 0 && a.used == 1);
}

/* 14 has the field of the last record that failed, whatever else is refused. */
static void append_says_the_field(void)
{
    static const struct {
        size_t at;
        uint8_t byte;
        size_t field;
    } rows[] = {{4, 0, 4}, {0, 100, 0}, {24, 3, 24}, {31, 0x40, 30}, {27, 1, 26}, {44, 77, 44}, {36, 90, 36}, {52, 95, 48}, {48, 2, 0}};
    for (size_t i = 0; i < COUNT(rows); i++) {
        uint8_t log[LOG], before[LOG];
        fill(log, LOG);
        memcpy(log, batch, END);
        log[T + rows[i].at] = rows[i].byte;
        memcpy(before, log, LOG);
        eventlog_appended a = append_event(UNICODE, log, LOG, END, event_s);
        CHECK(a.refusal == 14 && a.field == rows[i].field && a.used == END);
        CHECK(a.field == eventlog_step_back(UNICODE, log, LOG, END).field);
        CHECK(memcmp(log, before, LOG) == 0);
    }
}

/* ---- fresh, read ---- */

#define ALL EVENTLOG_WANT_ALL

/* Every kind but 0 is a boundary. */
#define HANDLE(k, t, b) {.kind = (k), .types = (t), .boundary = (b)}
#define FRESH HANDLE(0, ALL, 0)
#define BOUNDARY(b) HANDLE(7, ALL, b)

static int same_handle(eventlog_handle a, eventlog_handle b)
{
    return a.kind == b.kind && a.types == b.types && a.boundary == b.boundary;
}

/* The handle that a success answers. */
static int goes_on(eventlog_handle answered, eventlog_handle given, size_t boundary)
{
    return answered.kind == 1 && answered.types == given.types && answered.boundary == boundary;
}

enum { FORWARDS = 5, BACKWARDS = 9, SEEK_FORWARDS = 6, SEEK_BACKWARDS = 10 };

/* Reads of the first bytes of S and T: what is copied, S or T, and the new boundary. */
static const struct {
    int line;
    eventlog_handle h;
    size_t log_len;
    uint32_t flags, number;
    size_t size;
    const char *records;
    size_t boundary;
} reads[] = {
    {__LINE__, FRESH, END, FORWARDS, 0, 64, "S", T},
    {__LINE__, FRESH, END, FORWARDS, 0, 167, "S", T},
    {__LINE__, FRESH, END, FORWARDS, 9, 168, "ST", END},
    {__LINE__, FRESH, END, FORWARDS, 0, 524287, "ST", END},
    {__LINE__, FRESH, END, BACKWARDS, 0, 168, "TS", 0},
    {__LINE__, FRESH, END, BACKWARDS, 0, 167, "T", T},
    {__LINE__, BOUNDARY(T), END, FORWARDS, 0, 104, "T", END},
    {__LINE__, BOUNDARY(T), END, BACKWARDS, 0, 104, "S", 0},
    {__LINE__, BOUNDARY(END), END, BACKWARDS, 0, 104, "T", T},
    /* a fresh handle's boundary is not looked at */
    {__LINE__, HANDLE(0, ALL, END + 1), END, FORWARDS, 0, 168, "ST", END},
    {__LINE__, FRESH, END, SEEK_FORWARDS, S_NUMBER, 168, "ST", END},
    {__LINE__, FRESH, END, SEEK_FORWARDS, T_NUMBER, 168, "T", END},
    {__LINE__, BOUNDARY(END), END, SEEK_FORWARDS, S_NUMBER, 64, "S", T},
    {__LINE__, FRESH, END, SEEK_BACKWARDS, S_NUMBER, 168, "S", 0},
    {__LINE__, FRESH, END, SEEK_BACKWARDS, T_NUMBER, 168, "TS", 0},
    {__LINE__, BOUNDARY(0), END, SEEK_BACKWARDS, T_NUMBER, 167, "T", T},
    /* before a record that refuses */
    {__LINE__, FRESH, END - 1, FORWARDS, 0, 168, "S", T},
    {__LINE__, FRESH, END - 1, SEEK_FORWARDS, S_NUMBER, 168, "S", T},
};

static void read_copies(void)
{
    for (size_t i = 0; i < COUNT(reads); i++) {
        lend(sizeof out);
        size_t read = 0;
        for (const char *c = reads[i].records; *c != 0; c++) {
            size_t length = *c == 'S' ? S_LENGTH : T_LENGTH;
            memcpy(want + read, batch + (*c == 'S' ? S : T), length);
            read += length;
        }
        eventlog_answer r = eventlog_read(UNICODE, reads[i].h, batch, reads[i].log_len, reads[i].flags,
                                          reads[i].number, reads[i].size, out, reads[i].size);
        CHECK_AT(reads[i].line, r.status == 0);
        CHECK_AT(reads[i].line, r.read == read && r.needed == 0);
        CHECK_AT(reads[i].line, goes_on(r.handle, reads[i].h, reads[i].boundary));
        CHECK_AT(reads[i].line, memcmp(out, want, sizeof out) == 0);
    }
}

/* Reads that are refused; where two statuses could apply, the first of them. */
static const struct {
    int line;
    eventlog_handle h;
    size_t log_len;
    uint32_t flags, number;
    size_t size, out_len;
    uint32_t status;
    size_t needed;
} unread[] = {
    {__LINE__, FRESH, END, 0, 0, 168, 168, 0xC000000D, 0},
    {__LINE__, FRESH, END, 1, 0, 168, 168, 0xC000000D, 0},
    {__LINE__, FRESH, END, 4, 0, 168, 168, 0xC000000D, 0},
    {__LINE__, FRESH, END, 7, 7, 168, 168, 0xC000000D, 0},
    {__LINE__, FRESH, END, 13, 0, 168, 168, 0xC000000D, 0},
    {__LINE__, FRESH, END, 16 + FORWARDS, 0, 168, 168, 0xC000000D, 0},
    {__LINE__, FRESH, END, 0x80000000 + BACKWARDS, 0, 168, 168, 0xC000000D, 0},
    {__LINE__, BOUNDARY(T), END, 3, 0, 168, 168, 0xC000000D, 0},
    {__LINE__, HANDLE(0, ALL, T), END, 12, 0, 168, 168, 0xC000000D, 0},
    {__LINE__, FRESH, END, FORWARDS, 0, 524288, 524288, 0xC000000D, 0},
    {__LINE__, FRESH, END, FORWARDS, 0, SIZE_MAX, 168, 0xC000000D, 0},
    {__LINE__, FRESH, END, FORWARDS, 0, 168, 167, 0xC000000D, 0},
    {__LINE__, BOUNDARY(END + 1), END, 7, 0, 168, 168, 0xC000000D, 0},
    {__LINE__, BOUNDARY(END + 1), END, FORWARDS, 0, 168, 167, 0xC000000D, 0},
    /* a set with another bit: after flags and size, before the boundary, and in a seek too */
    {__LINE__, HANDLE(0, 64, 0), END, FORWARDS, 0, 168, 168, 0xC000000D, 0},
    {__LINE__, HANDLE(0, ALL | 64, 0), END, BACKWARDS, 0, 168, 168, 0xC000000D, 0},
    {__LINE__, HANDLE(0, ALL | 0x10000, 9), END, SEEK_FORWARDS, S_NUMBER, 168, 168, 0xC000000D, 0},
    {__LINE__, HANDLE(7, 0x80000000, T), END, SEEK_BACKWARDS, 9, 168, 168, 0xC000000D, 0},
    {__LINE__, HANDLE(7, UINT32_MAX, END + 1), END, FORWARDS, 0, 168, 168, 0xC000000D, 0},
    {__LINE__, HANDLE(7, 64, END), END, FORWARDS, 0, 168, 168, 0xC000000D, 0},
    {__LINE__, HANDLE(0, 64, 0), 0, BACKWARDS, 0, 0, 168, 0xC000000D, 0},
    {__LINE__, HANDLE(7, 64, T), END - 1, FORWARDS, 0, 168, 168, 0xC000000D, 0},
    {__LINE__, HANDLE(7, 0, END + 1), END, FORWARDS, 0, 168, 168, 0xC0000008, 0},
    {__LINE__, BOUNDARY(END + 1), END, FORWARDS, 0, 168, 168, 0xC0000008, 0},
    {__LINE__, BOUNDARY(SIZE_MAX), END, BACKWARDS, 0, 168, 168, 0xC0000008, 0},
    {__LINE__, BOUNDARY(END + 1), END, SEEK_FORWARDS, 9, 168, 168, 0xC0000008, 0},
    {__LINE__, BOUNDARY(END), END - 1, SEEK_FORWARDS, T_NUMBER, 168, 168, 0xC0000008, 0},
    {__LINE__, FRESH, END - 1, SEEK_FORWARDS, T_NUMBER, 168, 168, 0xC000018E, 0},
    {__LINE__, BOUNDARY(T), END - 1, SEEK_BACKWARDS, 9, 168, 168, 0xC000018E, 0},
    {__LINE__, FRESH, END, SEEK_FORWARDS, 9, 168, 168, 0xC000000D, 0},
    {__LINE__, BOUNDARY(T), END, SEEK_BACKWARDS, 9, 0, 168, 0xC000000D, 0},
    {__LINE__, FRESH, 0, SEEK_FORWARDS, 0, 168, 168, 0xC000000D, 0},
    {__LINE__, FRESH, 0, FORWARDS, 0, 0, 168, 0xC0000011, 0},
    {__LINE__, FRESH, 0, BACKWARDS, 0, 168, 168, 0xC0000011, 0},
    {__LINE__, BOUNDARY(END), END, FORWARDS, 0, 168, 168, 0xC0000011, 0},
    {__LINE__, BOUNDARY(0), END, BACKWARDS, 0, 168, 168, 0xC0000011, 0},
    {__LINE__, BOUNDARY(T), END - 1, FORWARDS, 0, 0, 168, 0xC000018E, 0},
    {__LINE__, FRESH, END - 1, BACKWARDS, 0, 168, 168, 0xC000018E, 0},
    {__LINE__, BOUNDARY(END - 1), END, FORWARDS, 0, 168, 168, 0xC000018E, 0},
    {__LINE__, FRESH, END, FORWARDS, 0, 0, 168, 0xC0000023, 64},
    {__LINE__, BOUNDARY(T), END, FORWARDS, 0, 103, 168, 0xC0000023, 104},
    {__LINE__, FRESH, END, BACKWARDS, 0, 103, 103, 0xC0000023, 104},
    {__LINE__, BOUNDARY(0), END, SEEK_FORWARDS, T_NUMBER, 103, 168, 0xC0000023, 104},
    {__LINE__, FRESH, END, SEEK_BACKWARDS, S_NUMBER, 63, 168, 0xC0000023, 64},
};

static void read_refuses(void)
{
    for (size_t i = 0; i < COUNT(unread); i++) {
        lend(sizeof out);
        eventlog_answer r = eventlog_read(UNICODE, unread[i].h, batch, unread[i].log_len, unread[i].flags,
                                          unread[i].number, unread[i].size, out, unread[i].out_len);
        CHECK_AT(unread[i].line, r.status == unread[i].status);
        CHECK_AT(unread[i].line, r.read == 0 && r.needed == unread[i].needed);
        CHECK_AT(unread[i].line, same_handle(r.handle, unread[i].h));
        CHECK_AT(unread[i].line, memcmp(out, want, sizeof out) == 0);
    }
}

static void read_goes_on(void)
{
    eventlog_handle h = eventlog_fresh(ALL);
    CHECK(h.kind == 0 && h.types == ALL && h.boundary == 0);
    eventlog_answer r = eventlog_read(UNICODE, h, batch, END, FORWARDS, 0, 64, out, sizeof out);
    CHECK(r.status == 0 && r.read == 64 && r.handle.boundary == T);
    r = eventlog_read(UNICODE, r.handle, batch, END, FORWARDS, 0, 104, out, sizeof out);
    CHECK(r.status == 0 && r.read == 104 && r.handle.boundary == END);
    r = eventlog_read(UNICODE, r.handle, batch, END, FORWARDS, 0, 104, out, sizeof out);
    CHECK(r.status == 0xC0000011 && r.handle.kind == 1 && r.handle.boundary == END);

    r = eventlog_read(UNICODE, h, NULL, 0, FORWARDS, 0, 0, NULL, 0);
    CHECK(r.status == 0xC0000011 && r.read == 0 && r.needed == 0 && r.handle.kind == 0);

    /* T ends these 167 bytes; no record ends with the 63 before it. */
    r = eventlog_read(UNICODE, h, batch + 1, END - 1, BACKWARDS, 0, 168, out, sizeof out);
    CHECK(r.status == 0 && r.read == 104 && r.handle.boundary == 63);
    r = eventlog_read(UNICODE, r.handle, batch + 1, END - 1, BACKWARDS, 0, 168, out, sizeof out);
    CHECK(r.status == 0xC000018E && r.read == 0 && r.handle.boundary == 63);

    /* Of two records with the number a seek takes the first. */
    uint8_t twice[2 * S_LENGTH];
    memcpy(twice, batch, S_LENGTH);
    memcpy(twice + S_LENGTH, batch, S_LENGTH);
    r = eventlog_read(UNICODE, h, twice, sizeof twice, SEEK_FORWARDS, S_NUMBER, 64, out, sizeof out);
    CHECK(r.status == 0 && r.handle.boundary == S_LENGTH);
}

/* ---- reads of some types ---- */

/* A record for each type, numbered from 1 on, and one more of type 1: S or T with that number and type. */
enum { A = 0, B = 64, C = 168, D = 232, E = 336, F = 400, G = 464, MIXED = 528 };

static uint8_t mixed[MIXED];

static const struct {
    char name;
    size_t at, length;
    uint8_t type;
} kinds[] = {
    {'a', A, S_LENGTH, 1}, {'b', B, T_LENGTH, 2}, {'c', C, S_LENGTH, 4}, {'d', D, T_LENGTH, 8}, {'e', E, S_LENGTH, 16},
    {'f', F, S_LENGTH, 0}, {'g', G, S_LENGTH, 1},
};

static void mix(void)
{
    for (size_t i = 0; i < COUNT(kinds); i++) {
        uint8_t *record = mixed + kinds[i].at;
        memcpy(record, batch + (kinds[i].length == S_LENGTH ? S : T), kinds[i].length);
        memset(record + 8, 0, 4);
        record[8] = (uint8_t)(i + 1);
        record[24] = kinds[i].type;
    }
}

/* Reads of these records, one byte of them changed if there is a place for it: what is copied, and the new boundary; or
 * the status and the bytes needed. */
static const struct {
    int line;
    size_t changed;
    eventlog_handle h;
    uint32_t flags, number;
    size_t size;
    const char *records;
    size_t boundary;
    uint32_t status;
    size_t needed;
} mixed_reads[] = {
    /* each type by its own bit */
    {__LINE__, 0, HANDLE(0, 1, 0), FORWARDS, 0, 528, "ag", MIXED, 0, 0},
    {__LINE__, 0, HANDLE(0, 2, 0), FORWARDS, 0, 528, "b", C, 0, 0},
    {__LINE__, 0, HANDLE(0, 4, 0), FORWARDS, 0, 528, "c", D, 0, 0},
    {__LINE__, 0, HANDLE(0, 8, 0), FORWARDS, 0, 528, "d", E, 0, 0},
    {__LINE__, 0, HANDLE(0, 16, 0), FORWARDS, 0, 528, "e", F, 0, 0},
    {__LINE__, 0, HANDLE(0, 32, 0), FORWARDS, 0, 528, "f", G, 0, 0},
    {__LINE__, 0, HANDLE(0, 1, 0), BACKWARDS, 0, 528, "ga", A, 0, 0},
    {__LINE__, 0, HANDLE(0, 2, 0), BACKWARDS, 0, 528, "b", B, 0, 0},
    {__LINE__, 0, HANDLE(0, 32, 0), BACKWARDS, 0, 528, "f", F, 0, 0},
    {__LINE__, 0, HANDLE(0, 62, 0), FORWARDS, 0, 528, "bcdef", G, 0, 0},
    {__LINE__, 0, HANDLE(0, 31, 0), BACKWARDS, 0, 528, "gedcba", A, 0, 0},
    {__LINE__, 0, FRESH, FORWARDS, 0, 528, "abcdefg", MIXED, 0, 0},
    /* those skipped take no room; the last copied one gives the boundary */
    {__LINE__, 0, HANDLE(0, 5, 0), FORWARDS, 0, 128, "ac", D, 0, 0},
    {__LINE__, 0, HANDLE(0, 5, 0), FORWARDS, 0, 191, "ac", D, 0, 0},
    {__LINE__, 0, HANDLE(7, 5, D), FORWARDS, 0, 64, "g", MIXED, 0, 0},
    {__LINE__, 0, HANDLE(0, 5, 0), BACKWARDS, 0, 128, "gc", C, 0, 0},
    {__LINE__, 0, HANDLE(7, 5, C), BACKWARDS, 0, 128, "a", A, 0, 0},
    {__LINE__, 0, HANDLE(7, 5, C), FORWARDS, 0, 64, "c", D, 0, 0},
    /* one that does not fit stops a read, though a later one would fit */
    {__LINE__, 0, HANDLE(0, 11, 0), FORWARDS, 0, 167, "a", B, 0, 0},
    /* seeks find any type, and go on past what is not wanted */
    {__LINE__, 0, HANDLE(0, 1, 0), SEEK_FORWARDS, 1, 528, "ag", MIXED, 0, 0},
    {__LINE__, 0, HANDLE(0, 1, 0), SEEK_FORWARDS, 2, 528, "g", MIXED, 0, 0},
    {__LINE__, 0, HANDLE(7, 4, MIXED), SEEK_FORWARDS, 2, 528, "c", D, 0, 0},
    {__LINE__, 0, HANDLE(0, 1, 0), SEEK_BACKWARDS, 6, 528, "a", A, 0, 0},
    {__LINE__, 0, HANDLE(7, 10, A), SEEK_BACKWARDS, 6, 528, "db", B, 0, 0},
    {__LINE__, 0, HANDLE(0, 32, 0), SEEK_BACKWARDS, 6, 528, "f", F, 0, 0},
    /* too small is about the next wanted one */
    {__LINE__, 0, HANDLE(0, 8, 0), FORWARDS, 0, 103, "", 0, 0xC0000023, 104},
    {__LINE__, 0, HANDLE(0, 2, 0), BACKWARDS, 0, 0, "", 0, 0xC0000023, 104},
    {__LINE__, 0, HANDLE(0, 16, 0), SEEK_FORWARDS, 2, 63, "", 0, 0xC0000023, 64},
    {__LINE__, 0, HANDLE(0, 8, 0), SEEK_BACKWARDS, 6, 103, "", 0, 0xC0000023, 104},
    /* no wanted one is left */
    {__LINE__, 0, HANDLE(7, 2, C), FORWARDS, 0, 528, "", 0, 0xC0000011, 0},
    {__LINE__, 0, HANDLE(7, 32, F), BACKWARDS, 0, 528, "", 0, 0xC0000011, 0},
    {__LINE__, 0, HANDLE(0, 2, 0), SEEK_FORWARDS, 3, 528, "", 0, 0xC0000011, 0},
    {__LINE__, 0, HANDLE(0, 32, 0), SEEK_BACKWARDS, 5, 528, "", 0, 0xC0000011, 0},
    {__LINE__, 0, HANDLE(0, 0, 0), FORWARDS, 0, 0, "", 0, 0xC0000011, 0},
    {__LINE__, 0, HANDLE(0, 0, 9), SEEK_BACKWARDS, 7, 528, "", 0, 0xC0000011, 0},
    {__LINE__, 0, HANDLE(0, 0, 0), SEEK_FORWARDS, 8, 528, "", 0, 0xC000000D, 0},
    /* a record that refuses, its signature changed: met while skipping, or after a wanted one */
    {__LINE__, C + 4, HANDLE(0, 1, 0), FORWARDS, 0, 528, "a", B, 0, 0},
    {__LINE__, C + 4, HANDLE(7, 1, B), FORWARDS, 0, 528, "", 0, 0xC000018E, 0},
    {__LINE__, C + 4, HANDLE(0, 8, 0), FORWARDS, 0, 528, "", 0, 0xC000018E, 0},
    {__LINE__, C + 4, HANDLE(0, 0, 0), FORWARDS, 0, 0, "", 0, 0xC000018E, 0},
    {__LINE__, C + 4, HANDLE(0, 2, 0), BACKWARDS, 0, 528, "", 0, 0xC000018E, 0},
    {__LINE__, C + 4, HANDLE(0, 1, 0), BACKWARDS, 0, 528, "g", G, 0, 0},
    {__LINE__, C + 4, HANDLE(0, 1, 0), SEEK_FORWARDS, 2, 528, "", 0, 0xC000018E, 0},
    {__LINE__, C + 4, HANDLE(0, 1, 0), SEEK_BACKWARDS, 2, 528, "a", A, 0, 0},
    {__LINE__, C + 4, HANDLE(0, 1, 0), SEEK_BACKWARDS, 4, 528, "", 0, 0xC000018E, 0},
    {__LINE__, C + 4, HANDLE(0, 2, 0), FORWARDS, 0, 103, "", 0, 0xC0000023, 104},
};

static void some_types_are_read(void)
{
    for (size_t i = 0; i < COUNT(mixed_reads); i++) {
        int line = mixed_reads[i].line;
        lend(sizeof out);
        mix();
        size_t read = 0;
        for (const char *c = mixed_reads[i].records; *c != 0; c++) {
            size_t k = (size_t)(*c - 'a');
            memcpy(want + read, mixed + kinds[k].at, kinds[k].length);
            read += kinds[k].length;
        }
        if (mixed_reads[i].changed != 0)
            mixed[mixed_reads[i].changed]++;
        eventlog_answer r = eventlog_read(UNICODE, mixed_reads[i].h, mixed, MIXED, mixed_reads[i].flags,
                                          mixed_reads[i].number, mixed_reads[i].size, out, mixed_reads[i].size);
        CHECK_AT(line, r.status == mixed_reads[i].status && r.read == read && r.needed == mixed_reads[i].needed);
        if (r.status == 0)
            CHECK_AT(line, goes_on(r.handle, mixed_reads[i].h, mixed_reads[i].boundary));
        else
            CHECK_AT(line, same_handle(r.handle, mixed_reads[i].h));
        CHECK_AT(line, memcmp(out, want, sizeof out) == 0);
    }
}

/* The samples of Rules 11.80 to 11.84, and every bit of a set by itself. */
static void sets_of_types(void)
{
    uint8_t log[3 * S_LENGTH];
    for (size_t i = 0; i < 3; i++)
        memcpy(log + i * S_LENGTH, batch, S_LENGTH);
    log[24] = log[2 * S_LENGTH + 24] = 4;
    eventlog_answer r = eventlog_read(UNICODE, eventlog_fresh(4), log, sizeof log, FORWARDS, 0, 128, out, sizeof out);
    CHECK(r.status == 0 && r.read == 128 && goes_on(r.handle, eventlog_fresh(4), 192));
    CHECK(memcmp(out, log, S_LENGTH) == 0 && memcmp(out + S_LENGTH, log + 2 * S_LENGTH, S_LENGTH) == 0);
    r = eventlog_read(UNICODE, eventlog_fresh(32), log, sizeof log, FORWARDS, 0, 63, out, sizeof out);
    CHECK(r.status == 0xC0000023 && r.needed == 64 && same_handle(r.handle, eventlog_fresh(32)));
    r = eventlog_read(UNICODE, r.handle, log, sizeof log, FORWARDS, 0, 128, out, sizeof out);
    CHECK(r.status == 0 && r.read == 64 && goes_on(r.handle, eventlog_fresh(32), 128));
    CHECK(memcmp(out, batch, S_LENGTH) == 0);
    r = eventlog_read(UNICODE, r.handle, log, sizeof log, FORWARDS, 0, 128, out, sizeof out);
    CHECK(r.status == 0xC0000011 && goes_on(r.handle, eventlog_fresh(32), 128));
    r = eventlog_read(UNICODE, eventlog_fresh(32), log, sizeof log, SEEK_FORWARDS, S_NUMBER, 64, out, sizeof out);
    CHECK(r.status == 0 && r.read == 64 && goes_on(r.handle, eventlog_fresh(32), 128));
    r = eventlog_read(UNICODE, eventlog_fresh(64), log, sizeof log, FORWARDS, 0, 64, out, sizeof out);
    CHECK(r.status == 0xC000000D && same_handle(r.handle, eventlog_fresh(64)));

    CHECK(eventlog_types_count(0x3F) == 6 && eventlog_types_count(0x21) == 2);
    CHECK(eventlog_types_count(0x40) == 0 && eventlog_types_count(UINT32_MAX) == 6);
    CHECK(eventlog_types_count(0) == 0);
    for (unsigned bit = 0; bit < 32; bit++) {
        uint32_t set = (uint32_t)1 << bit;
        CHECK(eventlog_types_count(set) == (bit < 6) && eventlog_types_count(ALL & ~set) == (bit < 6 ? 5 : 6));
        eventlog_handle h = eventlog_fresh(set);
        CHECK(h.kind == 0 && h.types == set && h.boundary == 0);
        r = eventlog_read(UNICODE, h, NULL, 0, FORWARDS, 0, 0, NULL, 0);
        CHECK(r.status == (bit < 6 ? 0xC0000011 : 0xC000000D) && same_handle(r.handle, h));
    }
}

/* ---- long records ---- */

/* Four bytes, the low one first. */
static void put(uint8_t *p, size_t number)
{
    for (int i = 0; i < 4; i++)
        p[i] = (uint8_t)(number >> 8 * i);
}

/* The refusal, the same from both ends, of S with another Length and so many strings. From its names on it has some
 * zero bytes, then units that are not zero, and some zero bytes before Length2. */
static uint32_t refusal_of(size_t length, uint8_t strings, size_t first, size_t last)
{
    memcpy(out, batch + S, 56);
    memset(out + 56, 1, length - 60);
    memset(out + 56, 0, first);
    memset(out + length - 4 - last, 0, last);
    put(out, length);
    put(out + length - 4, length);
    out[26] = strings;
    put(out + 36, 60);
    eventlog_refused x = eventlog_refusal(UNICODE, out, length, 0);
    CHECK(eventlog_step(UNICODE, out, length, 0).refusal == x.refusal);
    CHECK(eventlog_step_back(UNICODE, out, length, length).refusal == x.refusal);
    CHECK(eventlog_walk(UNICODE, out, length).refusal == x.refusal);
    CHECK(eventlog_walk_back(UNICODE, out, length).refusal == x.refusal);
    /* the name that has no end: the second one, if the first has some zero bytes */
    CHECK(x.field == (x.refusal == 9 ? 56 + (first == 0 && last == 0 ? 0 : first == 0 ? length - 60 : 2) : x.refusal == 11 ? 36 : 0));
    CHECK(eventlog_step_back(UNICODE, out, length, length).field == x.field);
    CHECK(eventlog_walk(UNICODE, out, length).field == x.field);
    return x.refusal;
}

/* The first unit of Length2 is zero at these Lengths, and ends no text; a zero unit before it does. */
static void length2_ends_no_text(void)
{
    static const size_t lengths[] = {65536, 131072, 196608};
    for (size_t i = 0; i < COUNT(lengths); i++) {
        CHECK(refusal_of(lengths[i], 0, 0, 0) == 9);
        CHECK(refusal_of(lengths[i], 0, 0, 2) == 9);
        CHECK(refusal_of(lengths[i], 0, 0, 4) == 0);
        CHECK(refusal_of(lengths[i], 0, 2, 0) == 9);
        CHECK(refusal_of(lengths[i], 0, 2, 2) == 0);
        CHECK(refusal_of(lengths[i], 1, 4, 0) == 11);
        CHECK(refusal_of(lengths[i], 1, 4, 2) == 0);
        CHECK(refusal_of(lengths[i], 2, 4, 2) == 11);
        CHECK(refusal_of(lengths[i], 2, 4, 4) == 0);
    }
    CHECK(refusal_of(262140, 0, 2, 2) == 0);
    CHECK(refusal_of(262144, 0, 2, 2) == 2);
}

/* The longest record between S and T: appended, walked, and read from both ends. */
static void longest_record_in_a_log(void)
{
    enum { LONGEST = 262140, LONG_END = S_LENGTH + LONGEST, LONG_LOG = LONG_END + T_LENGTH };
    static uint8_t log[LONG_LOG];
    eventlog_event e = event_t;
    e.fields.num_strings = 256;
    e.strings = (eventlog_bytes){zeros, 512};
    e.event_data = (eventlog_bytes){zeros, 61440};
    /* The fixed part, the rest of the names, the SID and Length2 take 56, 8, 12 and 4 bytes, and there is no gap. */
    e.source_name = (eventlog_bytes){ones, LONGEST - 512 - 61440 - 80};
    memcpy(log, batch + S, S_LENGTH);
    eventlog_appended a = append_event(UNICODE, log, LONG_END - 1, S_LENGTH, e);
    CHECK(a.refusal == 15 && a.field == 0 && a.used == S_LENGTH);
    a = append_event(UNICODE, log, LONG_END, S_LENGTH, e);
    CHECK(a.refusal == 0 && a.field == 0 && a.used == LONG_END);
    a = append_event(UNICODE, log, LONG_LOG, LONG_END, event_t);
    CHECK(a.refusal == 0 && a.field == 0 && a.used == LONG_LOG);
    eventlog_walked front = WALKED(3, 0, 0, LONG_LOG), rear = WALKED(3, 0, 0, 0);
    CHECK(same_walked(eventlog_walk(UNICODE, log, LONG_LOG), front));
    CHECK(same_walked(eventlog_walk_back(UNICODE, log, LONG_LOG), rear));
    eventlog_record found = eventlog_step(UNICODE, log, LONG_LOG, S_LENGTH).found;
    CHECK(found.length == LONGEST && found.event_data.at == LONG_END - 4 - 61440);
    CHECK(same_part(eventlog_string(UNICODE, log, LONG_LOG, S_LENGTH, 255),
                    (eventlog_part){.at = found.event_data.at - 2, .len = 0}));
    CHECK(same_parts(found, eventlog_step_back(UNICODE, log, LONG_LOG, LONG_END).found));

    static const struct {
        eventlog_handle h;
        uint32_t flags;
        size_t boundary;
    } rows[] = {
        {BOUNDARY(S_LENGTH), FORWARDS, LONG_END},
        {BOUNDARY(LONG_END), BACKWARDS, S_LENGTH},
    };
    for (size_t i = 0; i < COUNT(rows); i++) {
        lend(ROOM);
        eventlog_answer r = eventlog_read(UNICODE, rows[i].h, log, LONG_LOG, rows[i].flags, 0, LONGEST - 1, out,
                                          sizeof out);
        CHECK(r.status == 0xC0000023 && r.read == 0 && r.needed == LONGEST);
        CHECK(memcmp(out, want, ROOM) == 0);
        memcpy(want, log + S_LENGTH, LONGEST);
        r = eventlog_read(UNICODE, rows[i].h, log, LONG_LOG, rows[i].flags, 0, LONGEST, out, sizeof out);
        CHECK(r.status == 0 && r.read == LONGEST && r.needed == 0 && r.handle.boundary == rows[i].boundary);
        CHECK(memcmp(out, want, ROOM) == 0);
    }
}

/* ---- listing ---- */

static void listing_answers(void)
{
    static const struct {
        int line;
        size_t len, out_len;
        uint32_t refusal;
        const char *text;
    } rows[] = {
        {__LINE__, END, 34, 0, "records 2\n0 64 7\n64 104 336794129\n"},
        {__LINE__, END, 33, 15, ""},
        {__LINE__, END - 1, 24, 0, "refused 3 at 64 field 0\n"},
        {__LINE__, END - 1, 23, 15, ""},
        {__LINE__, S_LENGTH, 256, 0, "records 1\n0 64 7\n"},
        {__LINE__, 1, 23, 0, "refused 1 at 0 field 0\n"},
        {__LINE__, 0, 10, 0, "records 0\n"},
        {__LINE__, 0, 9, 15, ""},
    };
    for (size_t i = 0; i < COUNT(rows); i++) {
        lend(256);
        memcpy(want, rows[i].text, strlen(rows[i].text));
        eventlog_written w = eventlog_listing(UNICODE, batch, rows[i].len, out, rows[i].out_len);
        CHECK_AT(rows[i].line, w.refusal == rows[i].refusal);
        CHECK_AT(rows[i].line, w.length == strlen(rows[i].text));
        CHECK_AT(rows[i].line, memcmp(out, want, 256) == 0);
    }
    eventlog_written w = eventlog_listing(UNICODE, NULL, 0, out, 10);
    CHECK(w.refusal == 0 && w.length == 10 && memcmp(out, "records 0\n", 10) == 0);
    w = eventlog_listing(UNICODE, NULL, 0, NULL, 0);
    CHECK(w.refusal == 15 && w.length == 0);
}

/* ---- the header's own functions ---- */

/* T, but for its number, is what was written behind S in this log. */
static int is_t(const uint8_t *log)
{
    return memcmp(log + T, batch + T, 8) == 0 && memcmp(log + T + 12, batch + T + 12, T_LENGTH - 12) == 0;
}

static void events_are_taken_apart(void)
{
    lend(256);
    memcpy(want, batch + T, T_LENGTH);
    eventlog_written w = eventlog_write_event(UNICODE, T_NUMBER, &event_t, out, T_LENGTH);
    CHECK(w.refusal == 0 && w.length == T_LENGTH);
    CHECK(memcmp(out, want, 256) == 0);
    lend(256);
    w = eventlog_write_event(UNICODE, T_NUMBER, &event_t, out, T_LENGTH - 1);
    CHECK(w.refusal == 15 && w.length == 0);
    CHECK(memcmp(out, want, 256) == 0);

    uint8_t log[LOG], after[LOG];
    fill(log, LOG);
    memcpy(log, batch, S_LENGTH);
    memcpy(after, log, LOG);
    eventlog_appended a = eventlog_append_event(UNICODE, log, END - 1, T, &event_t);
    CHECK(a.refusal == 15 && a.field == 0 && a.used == T);
    CHECK(memcmp(log, after, LOG) == 0);
    a = eventlog_append_event(UNICODE, log, END, T, &event_t);
    CHECK(a.refusal == 0 && a.field == 0 && a.used == END);
    memcpy(after + T, batch + T, T_LENGTH);
    memcpy(after + T + 8, (const uint8_t[]){S_NUMBER + 1, 0, 0, 0}, 4);
    CHECK(memcmp(log, after, LOG) == 0);
}

static void swap_bytes(const uint8_t **a, const uint8_t **b)
{
    const uint8_t *first = *a;
    *a = *b;
    *b = first;
}

static void swap_lens(size_t *a, size_t *b)
{
    size_t first = *a;
    *a = *b;
    *b = first;
}

/* Two parts of T are exchanged, or only where they are, or only how long: neither function then gives T. So a
 * function that exchanged them itself would not give T for T. */
static void exchanges_show(void)
{
    enum { BYTES = 1, LENS = 2 };
    for (size_t i = 0; i < 5; i++)
        for (size_t k = 0; k < i; k++)
            for (int what = BYTES; what <= (BYTES | LENS); what++) {
                eventlog_event e = event_t;
                eventlog_bytes *parts[] = {&e.source_name, &e.computer_name, &e.sid, &e.strings, &e.event_data};
                if (what & BYTES)
                    swap_bytes(&parts[i]->bytes, &parts[k]->bytes);
                if (what & LENS)
                    swap_lens(&parts[i]->len, &parts[k]->len);
                uint8_t log[LOG];
                fill(log, LOG);
                memcpy(log, batch, S_LENGTH);
                CHECK(eventlog_write_event(UNICODE, T_NUMBER, &e, log + T, LOG - T).refusal != 0 || !is_t(log));
                fill(log + T, LOG - T);
                CHECK(eventlog_append_event(UNICODE, log, LOG, T, &e).refusal != 0 || !is_t(log));
            }
    uint8_t log[LOG];
    memcpy(log, batch, S_LENGTH);
    CHECK(eventlog_append_event(UNICODE, log, LOG, T, &event_t).refusal == 0 && is_t(log));
}

static void records_are_written_again(void)
{
    for (size_t at = 0, length = 0; at < END; at += length) {
        eventlog_record found = eventlog_step(UNICODE, batch, END, at).found;
        eventlog_event e = eventlog_event_of(batch, &found);
        length = found.length;
        lend(256);
        memcpy(want, batch + at, length);
        CHECK(eventlog_write_event(UNICODE, found.fields.record_number, &e, out, sizeof out).length == length);
        CHECK(memcmp(out, want, 256) == 0);
    }
    eventlog_bytes own = eventlog_bytes_of(batch, (eventlog_part){.at = T + 56, .len = 10});
    CHECK(own.bytes == batch + T + 56 && own.len == 10);
    CHECK(eventlog_bytes_of(NULL, (eventlog_part){.at = 0, .len = 0}).len == 0);
}

/* ---- ANSI ---- */

/* S, which has the same bytes in both editions, and T in ANSI; T with the numbers, the SID and the data of the batch
 * above. */
enum { ANSI_T_LENGTH = 92, ANSI_END = T + ANSI_T_LENGTH, ANSI_S_COMPUTER = 57 };

static const uint8_t ansi_batch[ANSI_END] = {
    [S] = S_LENGTH, [S + 4] = 'L', 'f', 'L', 'e', [S + 8] = S_NUMBER, [S + 60] = S_LENGTH,

    [T] = ANSI_T_LENGTH, [T + 4] = 'L', 'f', 'L', 'e',
    [T + 8] = 0x11, 0x12, 0x13, 0x14,
    [T + 12] = 0x21, 0x22, 0x23, 0x24,
    [T + 16] = 0x31, 0x32, 0x33, 0x34,
    [T + 20] = 0x41, 0x42, 0x43, 0x44,
    [T + 24] = 16, 0, 1, 0, 0x51, 0x52, 0x00, 0x80,
    [T + 36] = 80,                            /* StringOffset */
    [T + 40] = 12, [T + 44] = 68,             /* UserSidLength, UserSidOffset */
    [T + 48] = 3, [T + 52] = 83,              /* DataLength, DataOffset */
    [T + 56] = 'S', 'c', 'a', 'l', 'e', 0,
    [T + 62] = 'T', '1', 0,
    [T + 68] = 1, 1, 0, 0, 0, 0, 0, 5, 18, 0, 0, 0,
    [T + 80] = 'O', 'K', 0,
    [T + 83] = 0xD1, 0xD2, 0xD3,
    [T + 88] = ANSI_T_LENGTH,
};

static const eventlog_event ansi_event_t = {
    .fields = {FIELDS_OF_T},
    .source_name = EVENTLOG_NAME("Scale"), .computer_name = EVENTLOG_NAME("T1"), .sid = {ansi_batch + T + 68, 12},
    .strings = EVENTLOG_STRINGS("OK"), .event_data = {ansi_batch + T + 83, 3},
};

static eventlog_record ansi_record_s(size_t at)
{
    eventlog_record s = record_s(at);
    s.computer_name.at = at + ANSI_S_COMPUTER;
    return s;
}

static eventlog_record ansi_record_t(size_t at)
{
    return (eventlog_record){
        .start = at, .length = ANSI_T_LENGTH, .fields = fields_t,
        .source_name = {.at = at + 56, .len = 5}, .computer_name = {.at = at + 62, .len = 2},
        .sid = {.at = at + 68, .len = 12}, .strings = {.at = at + 80, .len = 3},
        .event_data = {.at = at + 83, .len = 3},
    };
}

static void ansi_steps_and_walks(uint32_t ansi)
{
    finds(__LINE__, eventlog_step(ansi, ansi_batch, ANSI_END, S), S, ansi_record_s(0));
    finds(__LINE__, eventlog_step(ansi, ansi_batch, ANSI_END, T), T, ansi_record_t(T));
    finds(__LINE__, eventlog_step_back(ansi, ansi_batch, ANSI_END, T), T, ansi_record_s(0));
    finds(__LINE__, eventlog_step_back(ansi, ansi_batch, ANSI_END, ANSI_END), ANSI_END, ansi_record_t(T));
    CHECK(refused(eventlog_refusal(ansi, ansi_batch, ANSI_END, S), 0, 0));
    CHECK(refused(eventlog_refusal(ansi, ansi_batch, ANSI_END, T), 0, 0));
    step_refuses(__LINE__, eventlog_step(ansi, NULL, 0, 0), 0, 1, 0);
    step_refuses(__LINE__, eventlog_step_back(ansi, NULL, 0, 0), 0, 1, 0);

    const eventlog_walked front = WALKED(2, 0, 0, ANSI_END), rear = WALKED(2, 0, 0, 0), none = WALKED(0, 0, 0, 0);
    CHECK(same_walked(eventlog_walk(ansi, ansi_batch, ANSI_END), front));
    CHECK(same_walked(eventlog_walk_back(ansi, ansi_batch, ANSI_END), rear));
    CHECK(same_walked(eventlog_walk(ansi, NULL, 0), none) && same_walked(eventlog_walk_back(ansi, NULL, 0), none));
    const eventlog_walked cut = WALKED(1, 3, 0, T);
    CHECK(same_walked(eventlog_walk(ansi, ansi_batch, ANSI_END - 1), cut));
}

/* One byte of S or of T is another: refusal and field, the same from both ends but for 5. */
static const struct {
    int line;
    size_t record, at;
    uint8_t byte;
    uint32_t front;
    size_t front_field;
    uint32_t rear;
    size_t rear_field;
} ansi_corrupted[] = {
    {__LINE__, T, 0, 90, 2, 0, 5, 0},
    {__LINE__, T, 4, 0, 4, 4, 4, 4},
    {__LINE__, T, 88, 60, 5, 88, 2, 0},
    {__LINE__, T, 24, 3, 6, 24, 6, 24},
    {__LINE__, T, 31, 0x40, 7, 30, 7, 30},
    {__LINE__, S, 31, 0x80, 7, 30, 7, 30},
    {__LINE__, T, 27, 1, 8, 26, 8, 26},
    {__LINE__, T, 44, 64, 10, 44, 10, 44}, /* in Computername's zero byte */
    {__LINE__, T, 44, 69, 10, 44, 10, 44},
    {__LINE__, T, 69, 2, 10, 44, 10, 44},
    {__LINE__, T, 36, 81, 11, 36, 11, 36},
    {__LINE__, T, 26, 9, 11, 36, 11, 36},
    {__LINE__, T, 52, 84, 12, 48, 12, 48},
    {__LINE__, T, 48, 6, 12, 48, 12, 48},
    {__LINE__, T, 81, 0, 12, 48, 12, 48}, /* a zero byte inside the string: the data would start one byte earlier */
    {__LINE__, T, 82, 1, 11, 36, 11, 36},  /* none behind it but in the gap */
};

static void ansi_corrupted_records_are_refused(uint32_t ansi)
{
    for (size_t i = 0; i < COUNT(ansi_corrupted); i++) {
        int line = ansi_corrupted[i].line;
        size_t len = ansi_corrupted[i].record == S ? S_LENGTH : ANSI_T_LENGTH;
        uint8_t r[ANSI_T_LENGTH];
        memcpy(r, ansi_batch + ansi_corrupted[i].record, len);
        if (ansi_corrupted[i].at == 82)
            memset(r + 86, 1, 2);
        r[ansi_corrupted[i].at] = ansi_corrupted[i].byte;
        uint32_t front = ansi_corrupted[i].front, rear = ansi_corrupted[i].rear;
        size_t front_field = ansi_corrupted[i].front_field, rear_field = ansi_corrupted[i].rear_field;
        step_refuses(line, eventlog_step(ansi, r, len, 0), 0, front, front_field);
        step_refuses(line, eventlog_step_back(ansi, r, len, len), len, rear, rear_field);
        CHECK_AT(line, refused(eventlog_refusal(ansi, r, len, 0), front, front_field));
        CHECK_AT(line, refused(eventlog_string_refusal(ansi, r, len, 0, 0), front, front_field));
        CHECK_AT(line, same_part(eventlog_string(ansi, r, len, 0, 0), (eventlog_part){.at = 0, .len = 0}));
        const eventlog_walked forth = WALKED(0, front, front_field, 0), back = WALKED(0, rear, rear_field, len);
        CHECK_AT(line, same_walked(eventlog_walk(ansi, r, len), forth));
        CHECK_AT(line, same_walked(eventlog_walk_back(ansi, r, len), back));
    }
}

/* The strings "A", the empty one and "BC" of a record, and places of their run. */
static void ansi_strings_are_found(uint32_t ansi)
{
    enum { LENGTH = 92, RUN = 80 };
    uint8_t s[LENGTH];
    fill(s, LENGTH);
    eventlog_event e = ansi_event_t;
    e.fields.num_strings = 3;
    e.strings = (eventlog_bytes)EVENTLOG_STRINGS("A\0\0BC");
    e.event_data.len = 0;
    eventlog_written w = write_event(ansi, T_NUMBER, e, s, LENGTH);
    CHECK(w.refusal == 0 && w.length == LENGTH);

    static const eventlog_part strings[] = {
        {.at = RUN, .len = 1}, {.at = RUN + 2, .len = 0}, {.at = RUN + 3, .len = 2},
    };
    const eventlog_part run = {.at = RUN, .len = 6};
    size_t place = RUN;
    for (uint32_t k = 0; k < COUNT(strings); k++) {
        CHECK(same_part(eventlog_string(ansi, s, LENGTH, 0, k), strings[k]));
        CHECK(refused(eventlog_string_refusal(ansi, s, LENGTH, 0, k), 0, 0));
        eventlog_next next = eventlog_next_string(ansi, s, LENGTH, run, place);
        CHECK(next.refusal == 0 && same_part(next.string, strings[k]) && next.next > place);
        place = next.next;
    }
    CHECK(place == RUN + 6);
    CHECK(refused(eventlog_string_refusal(ansi, s, LENGTH, 0, 3), 17, 0));
    CHECK(same_part(eventlog_string(ansi, s, LENGTH, 0, 3), (eventlog_part){.at = 0, .len = 0}));

    static const struct {
        int line;
        eventlog_part run;
        size_t place;
        eventlog_next next;
    } rows[] = {
        {__LINE__, {.at = RUN, .len = 6}, RUN + 1, STRING(RUN + 1, 0, RUN + 2)},
        {__LINE__, {.at = RUN, .len = 6}, RUN + 4, STRING(RUN + 4, 1, RUN + 6)},
        {__LINE__, {.at = RUN, .len = 6}, RUN + 5, STRING(RUN + 5, 0, RUN + 6)},
        {__LINE__, {.at = RUN, .len = 6}, RUN + 6, NO_STRING(RUN + 6)},
        {__LINE__, {.at = RUN, .len = 6}, RUN - 1, NO_STRING(RUN - 1)},
        {__LINE__, {.at = RUN, .len = 6}, SIZE_MAX, NO_STRING(SIZE_MAX)},
        {__LINE__, {.at = RUN, .len = 5}, RUN + 3, NO_STRING(RUN + 3)},
        {__LINE__, {.at = RUN, .len = 2}, RUN, STRING(RUN, 1, RUN + 2)},
        {__LINE__, {.at = RUN, .len = 1}, RUN, NO_STRING(RUN)},
        {__LINE__, {.at = RUN, .len = 12}, RUN, STRING(RUN, 1, RUN + 2)},
        {__LINE__, {.at = RUN, .len = 13}, RUN, NO_STRING(RUN)},
        {__LINE__, {.at = RUN, .len = SIZE_MAX}, RUN, NO_STRING(RUN)},
    };
    for (size_t i = 0; i < COUNT(rows); i++) {
        eventlog_next next = eventlog_next_string(ansi, s, LENGTH, rows[i].run, rows[i].place);
        CHECK_AT(rows[i].line, same_next(next, rows[i].next));
    }
}

static void ansi_writes(int line, uint32_t ansi, uint32_t number, eventlog_event e, const uint8_t *record,
                        size_t length)
{
    lend(256);
    memcpy(want, record, length);
    eventlog_written w = write_event(ansi, number, e, out, length);
    CHECK_AT(line, w.refusal == 0 && w.length == length);
    CHECK_AT(line, memcmp(out, want, 256) == 0);
    lend(256);
    w = write_event(ansi, number, e, out, length - 1);
    CHECK_AT(line, w.refusal == 15 && w.length == 0);
    CHECK_AT(line, memcmp(out, want, 256) == 0);
}

/* T with a change is neither written nor, behind S and T, appended. */
#define ANSI_REFUSES(number, ...)                                                       \
    do {                                                                                \
        eventlog_event e = ansi_event_t;                                                \
        __VA_ARGS__;                                                                    \
        lend(ROOM);                                                                     \
        eventlog_written w = write_event(ansi, T_NUMBER, e, out, ROOM);                 \
        CHECK(w.refusal == (number) && w.length == 0);                                  \
        CHECK(memcmp(out, want, ROOM) == 0);                                            \
        memcpy(out, ansi_batch, ANSI_END);                                              \
        memcpy(want, out, ROOM);                                                        \
        eventlog_appended a = append_event(ansi, out, ROOM, ANSI_END, e);               \
        CHECK(a.refusal == (number) && a.field == 0 && a.used == ANSI_END);             \
        CHECK(memcmp(out, want, ROOM) == 0);                                            \
    } while (0)

/* S with a change is written with this Length and read again. */
#define ANSI_ACCEPTS(size, ...)                                                         \
    do {                                                                                \
        eventlog_event e = event_s;                                                     \
        __VA_ARGS__;                                                                    \
        lend(ROOM);                                                                     \
        eventlog_written w = write_event(ansi, S_NUMBER, e, out, size);                 \
        CHECK(w.refusal == 0 && w.length == (size));                                    \
        CHECK(memcmp(out + (size), want + (size), ROOM - (size)) == 0);                 \
        eventlog_stepped x = eventlog_step(ansi, out, size, 0);                         \
        CHECK(x.refusal == 0 && x.found.source_name.len == e.source_name.len);          \
        CHECK(x.found.computer_name.len == e.computer_name.len);                        \
        CHECK(x.found.strings.len == e.strings.len);                                    \
        CHECK(same_parts(eventlog_step_back(ansi, out, size, size).found, x.found));    \
    } while (0)

static void ansi_events_are_written(uint32_t ansi)
{
    ansi_writes(__LINE__, ansi, S_NUMBER, event_s, ansi_batch + S, S_LENGTH);
    ansi_writes(__LINE__, ansi, T_NUMBER, ansi_event_t, ansi_batch + T, ANSI_T_LENGTH);
    ANSI_REFUSES(6, e.fields.event_type = 3);
    ANSI_REFUSES(7, e.fields.reserved_flags = 0x4000);
    ANSI_REFUSES(8, e.fields.num_strings = 257; e.strings = (eventlog_bytes){zeros, 257});
    ANSI_REFUSES(9, e.source_name.len = 6);
    ANSI_REFUSES(9, e.source_name = (eventlog_bytes){zeros, 1});
    ANSI_REFUSES(9, e.computer_name = (eventlog_bytes){(const uint8_t *)"T\0001", 3});
    ANSI_REFUSES(9, e.source_name = event_t.source_name);
    ANSI_REFUSES(10, e.sid.len = 11);
    ANSI_REFUSES(11, e.strings = (eventlog_bytes){NULL, 0});
    ANSI_REFUSES(11, e.strings.len = 2);
    ANSI_REFUSES(11, e.strings = (eventlog_bytes){zeros, 2});
    ANSI_REFUSES(11, e.fields.num_strings = 2);
    ANSI_REFUSES(12, e.event_data = (eventlog_bytes){zeros, 61441});
    ANSI_REFUSES(2, e = event_s; e.source_name = (eventlog_bytes){ones, 262079});
    ANSI_REFUSES(2, e = event_s; e.computer_name = (eventlog_bytes){ones, 262079});
    /* an odd number of bytes is right */
    ANSI_ACCEPTS(64, e.source_name = (eventlog_bytes){ones, 1});
    ANSI_ACCEPTS(64, e.source_name = (eventlog_bytes){ones, 1}; e.computer_name = (eventlog_bytes){ones, 1});
    ANSI_ACCEPTS(68, e.source_name = (eventlog_bytes){ones, 3});
    ANSI_ACCEPTS(68, e.computer_name = (eventlog_bytes){ones, 5});
    ANSI_ACCEPTS(320, e.fields.num_strings = 256; e.strings = (eventlog_bytes){zeros, 256});
    ANSI_ACCEPTS(262140, e.source_name = (eventlog_bytes){ones, 262077});
    ANSI_ACCEPTS(262140, e.source_name = (eventlog_bytes){ones, 262078});
    ANSI_ACCEPTS(262140, e.computer_name = (eventlog_bytes){ones, 262078});
}

static void ansi_events_are_appended(uint32_t ansi)
{
    uint8_t log[LOG], after[LOG];
    fill(log, LOG);
    memcpy(log, ansi_batch + S, S_LENGTH);
    memset(log + 8, 255, 4);
    memcpy(after, log, LOG);
    memcpy(after + T, ansi_batch + T, ANSI_T_LENGTH);
    memset(after + T + 8, 0, 4);
    eventlog_appended a = append_event(ansi, log, ANSI_END - 1, T, ansi_event_t);
    CHECK(a.refusal == 15 && a.field == 0 && a.used == T);
    a = append_event(ansi, log, LOG, T, ansi_event_t);
    CHECK(a.refusal == 0 && a.field == 0 && a.used == ANSI_END);
    CHECK(memcmp(log, after, LOG) == 0);
    a = append_event(ansi, log, LOG, ANSI_END + 1, ansi_event_t);
    CHECK(a.refusal == 14 && a.used == ANSI_END + 1);
    a = append_event(ansi, log, LOG, LOG + 1, ansi_event_t);
    CHECK(a.refusal == 1 && a.used == LOG + 1);
    log[T + 36]++;
    a = append_event(ansi, log, LOG, ANSI_END, event_s);
    CHECK(a.refusal == 14 && a.field == 36 && a.used == ANSI_END);
    a = append_event(ansi, log, LOG, 0, event_s);
    CHECK(a.refusal == 0 && a.used == S_LENGTH && log[8] == 1);
}

/* Reads of S and T: what is copied, S or T, and the new boundary; or the status and the bytes needed. */
static const struct {
    int line;
    eventlog_handle h;
    uint32_t flags, number;
    size_t size;
    const char *records;
    size_t boundary;
    uint32_t status;
    size_t needed;
} ansi_reads[] = {
    {__LINE__, FRESH, FORWARDS, 0, 64, "S", T, 0, 0},
    {__LINE__, FRESH, FORWARDS, 0, 156, "ST", ANSI_END, 0, 0},
    {__LINE__, FRESH, FORWARDS, 0, 524287, "ST", ANSI_END, 0, 0},
    {__LINE__, FRESH, BACKWARDS, 0, 156, "TS", 0, 0, 0},
    {__LINE__, FRESH, BACKWARDS, 0, 155, "T", T, 0, 0},
    {__LINE__, BOUNDARY(T), FORWARDS, 0, 92, "T", ANSI_END, 0, 0},
    {__LINE__, BOUNDARY(T), BACKWARDS, 0, 92, "S", 0, 0, 0},
    {__LINE__, FRESH, SEEK_FORWARDS, T_NUMBER, 156, "T", ANSI_END, 0, 0},
    {__LINE__, FRESH, SEEK_BACKWARDS, T_NUMBER, 156, "TS", 0, 0, 0},
    {__LINE__, FRESH, 7, 0, 156, "", 0, 0xC000000D, 0},
    {__LINE__, FRESH, FORWARDS, 0, 524288, "", 0, 0xC000000D, 0},
    {__LINE__, BOUNDARY(ANSI_END + 1), FORWARDS, 0, 156, "", 0, 0xC0000008, 0},
    {__LINE__, FRESH, SEEK_FORWARDS, 9, 156, "", 0, 0xC000000D, 0},
    {__LINE__, BOUNDARY(ANSI_END), FORWARDS, 0, 156, "", 0, 0xC0000011, 0},
    {__LINE__, BOUNDARY(0), BACKWARDS, 0, 156, "", 0, 0xC0000011, 0},
    {__LINE__, BOUNDARY(1), FORWARDS, 0, 156, "", 0, 0xC000018E, 0},
    {__LINE__, BOUNDARY(T), FORWARDS, 0, 91, "", 0, 0xC0000023, 92},
    {__LINE__, FRESH, BACKWARDS, 0, 91, "", 0, 0xC0000023, 92},
    /* S has type 0, T type 16 */
    {__LINE__, HANDLE(0, 16, 0), FORWARDS, 0, 92, "T", ANSI_END, 0, 0},
    {__LINE__, HANDLE(0, 32, 0), BACKWARDS, 0, 64, "S", 0, 0, 0},
    {__LINE__, HANDLE(0, 16, 0), SEEK_FORWARDS, S_NUMBER, 92, "T", ANSI_END, 0, 0},
    {__LINE__, HANDLE(0, 32, 0), SEEK_BACKWARDS, T_NUMBER, 92, "S", 0, 0, 0},
    {__LINE__, HANDLE(0, 48, 0), FORWARDS, 0, 156, "ST", ANSI_END, 0, 0},
    {__LINE__, HANDLE(0, 16, 0), FORWARDS, 0, 91, "", 0, 0xC0000023, 92},
    {__LINE__, HANDLE(7, 32, T), FORWARDS, 0, 156, "", 0, 0xC0000011, 0},
    {__LINE__, HANDLE(0, 15, 0), BACKWARDS, 0, 156, "", 0, 0xC0000011, 0},
    {__LINE__, HANDLE(0, 64, 0), FORWARDS, 0, 156, "", 0, 0xC000000D, 0},
};

static void ansi_log_is_served(uint32_t ansi)
{
    for (size_t i = 0; i < COUNT(ansi_reads); i++) {
        int line = ansi_reads[i].line;
        lend(sizeof out);
        size_t read = 0;
        for (const char *c = ansi_reads[i].records; *c != 0; c++) {
            size_t length = *c == 'S' ? S_LENGTH : ANSI_T_LENGTH;
            memcpy(want + read, ansi_batch + (*c == 'S' ? S : T), length);
            read += length;
        }
        eventlog_answer r = eventlog_read(ansi, ansi_reads[i].h, ansi_batch, ANSI_END, ansi_reads[i].flags,
                                          ansi_reads[i].number, ansi_reads[i].size, out, ansi_reads[i].size);
        CHECK_AT(line, r.status == ansi_reads[i].status && r.read == read && r.needed == ansi_reads[i].needed);
        if (r.status == 0)
            CHECK_AT(line, goes_on(r.handle, ansi_reads[i].h, ansi_reads[i].boundary));
        else
            CHECK_AT(line, same_handle(r.handle, ansi_reads[i].h));
        CHECK_AT(line, memcmp(out, want, sizeof out) == 0);
    }
}

static void ansi_batch_is_listed(uint32_t ansi)
{
    static const char text[] = "records 2\n0 64 7\n64 92 336794129\n";
    enum { TEXT = sizeof text - 1 };
    lend(256);
    eventlog_written w = eventlog_listing(ansi, ansi_batch, ANSI_END, out, TEXT - 1);
    CHECK(w.refusal == 15 && w.length == 0 && memcmp(out, want, 256) == 0);
    memcpy(want, text, TEXT);
    w = eventlog_listing(ansi, ansi_batch, ANSI_END, out, 256);
    CHECK(w.refusal == 0 && w.length == TEXT && memcmp(out, want, 256) == 0);
}

static void ansi_events_are_taken_apart(uint32_t ansi)
{
    lend(256);
    memcpy(want, ansi_batch + T, ANSI_T_LENGTH);
    eventlog_written w = eventlog_write_event(ansi, T_NUMBER, &ansi_event_t, out, 256);
    CHECK(w.refusal == 0 && w.length == ANSI_T_LENGTH && memcmp(out, want, 256) == 0);
    uint8_t log[LOG];
    memcpy(log, ansi_batch, S_LENGTH);
    eventlog_appended a = eventlog_append_event(ansi, log, LOG, T, &ansi_event_t);
    CHECK(a.refusal == 0 && a.field == 0 && a.used == ANSI_END);
    memcpy(log + T + 8, ansi_batch + T + 8, 4);
    CHECK(memcmp(log, ansi_batch, ANSI_END) == 0);
    static const size_t starts[] = {S, T};
    for (size_t i = 0; i < COUNT(starts); i++) {
        eventlog_record found = eventlog_step(ansi, ansi_batch, ANSI_END, starts[i]).found;
        eventlog_event e = eventlog_event_of(ansi_batch, &found);
        w = eventlog_write_event(ansi, found.fields.record_number, &e, out, sizeof out);
        CHECK(found.length != 0 && w.refusal == 0 && w.length == found.length);
        CHECK(memcmp(out, ansi_batch + starts[i], found.length) == 0);
    }
}

/* ---- one edition's records in the other ---- */

/* The log S, T of the one edition, given to the calls as one of the other: S is good, T is refused with 12. */
static void other_edition_is_refused(uint32_t edition, const uint8_t *log, size_t end, eventlog_record s)
{
    finds(__LINE__, eventlog_step(edition, log, end, S), S, s);
    finds(__LINE__, eventlog_step_back(edition, log, end, T), T, s);
    step_refuses(__LINE__, eventlog_step(edition, log, end, T), T, 12, 48);
    step_refuses(__LINE__, eventlog_step_back(edition, log, end, end), end, 12, 48);
    CHECK(refused(eventlog_refusal(edition, log, end, T), 12, 48));
    CHECK(refused(eventlog_string_refusal(edition, log, end, T, 0), 12, 48));
    CHECK(same_part(eventlog_string(edition, log, end, T, 0), (eventlog_part){.at = 0, .len = 0}));
    const eventlog_walked front = WALKED(1, 12, 48, T), rear = WALKED(0, 12, 48, end);
    CHECK(same_walked(eventlog_walk(edition, log, end), front));
    CHECK(same_walked(eventlog_walk_back(edition, log, end), rear));

    static uint8_t used[512];
    memcpy(used, log, end);
    eventlog_appended a = append_event(edition, used, sizeof used, end, event_s);
    CHECK(a.refusal == 14 && a.field == 48 && a.used == end && memcmp(used, log, end) == 0);

    const eventlog_handle at_t = BOUNDARY(T);
    eventlog_answer r = eventlog_read(edition, at_t, log, end, FORWARDS, 0, 200, out, sizeof out);
    CHECK(r.status == 0xC000018E && r.read == 0);
    r = eventlog_read(edition, eventlog_fresh(ALL), log, end, BACKWARDS, 0, 200, out, sizeof out);
    CHECK(r.status == 0xC000018E && r.read == 0);
    r = eventlog_read(edition, eventlog_fresh(ALL), log, end, SEEK_FORWARDS, T_NUMBER, 200, out, sizeof out);
    CHECK(r.status == 0xC000018E && r.read == 0);
    r = eventlog_read(edition, eventlog_fresh(ALL), log, end, FORWARDS, 0, 200, out, sizeof out);
    CHECK(r.status == 0 && r.read == S_LENGTH);

    static const char text[] = "refused 12 at 64 field 48\n";
    eventlog_written w = eventlog_listing(edition, log, end, out, sizeof out);
    CHECK(w.refusal == 0 && w.length == sizeof text - 1 && memcmp(out, text, sizeof text - 1) == 0);
}

/* Every number but 0 is ANSI. */
static void every_other_number_is_ansi(void)
{
    static const uint32_t numbers[] = {EVENTLOG_ANSI, 2, 0x100, 0x10000, 0x80000000, UINT32_MAX};
    for (size_t i = 0; i < COUNT(numbers); i++) {
        uint32_t ansi = numbers[i];
        ansi_steps_and_walks(ansi);
        ansi_corrupted_records_are_refused(ansi);
        ansi_strings_are_found(ansi);
        ansi_events_are_written(ansi);
        ansi_events_are_appended(ansi);
        ansi_log_is_served(ansi);
        ansi_batch_is_listed(ansi);
        ansi_events_are_taken_apart(ansi);
        other_edition_is_refused(ansi, batch, END, ansi_record_s(0));
    }
    other_edition_is_refused(UNICODE, ansi_batch, ANSI_END, record_s(0));
    eventlog_event e = event_s;
    e.source_name = ansi_event_t.source_name;
    CHECK(write_event(UNICODE, S_NUMBER, e, out, sizeof out).refusal == 9);
}

int main(void)
{
    memset(ones, 1, sizeof ones);
    steps_find();
    steps_refuse_places();
    corrupted_records_are_refused();
    gaps_before_the_first_part();
    strings_are_found();
    next_strings_are_found();
    walks_answer();
    write_lays_out();
    numbers_and_texts_are_refused();
    sizes_are_refused();
    write_refuses_in_order();
    write_accepts_types_and_limits();
    append_numbers();
    append_numbers_after_the_last();
    append_refuses_in_order();
    append_says_the_field();
    read_copies();
    read_refuses();
    read_goes_on();
    some_types_are_read();
    sets_of_types();
    length2_ends_no_text();
    longest_record_in_a_log();
    listing_answers();
    events_are_taken_apart();
    exchanges_show();
    records_are_written_again();
    every_other_number_is_ansi();
    puts(failed ? "eventlog.c: failed" : "eventlog.c: passed");
    return failed;
}
