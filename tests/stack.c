/* How much stack each call takes: it runs on a stack of its own that was painted before, and what is no longer paint
 * was used. A call that only returns is measured first, and what it takes is taken off. Every call is held to half of
 * the header's number. */
#include "eventlog.h"

#include <stdio.h>
#include <string.h>
#include <ucontext.h>

/* With room for the buffer of `stores: copy_page`, which the compiler is to leave out: it would be seen here. */
enum { STACK = 256 * 1024, PAINT = 0xA5 };

static uint8_t stack[STACK];
static ucontext_t here, there;
static void (*called)(void);

static void run(void)
{
    called();
}

/* The bytes of the stack that a call used. */
static size_t used_by(void (*call)(void))
{
    memset(stack, PAINT, STACK);
    called = call;
    getcontext(&there);
    there.uc_stack.ss_sp = stack;
    there.uc_stack.ss_size = STACK;
    there.uc_link = &here;
    makecontext(&there, run, 0);
    swapcontext(&here, &there);
    size_t untouched = 0;
    while (untouched < STACK && stack[untouched] == PAINT)
        untouched++;
    return STACK - untouched;
}

static uint8_t batch[5 * EVENTLOG_MAX_LENGTH], out[EVENTLOG_MAX_READ], name[200000];
static size_t used;

/* A record with every part, a large number and long places: each way through the code is gone. */
#define EVENT(computer, run)                                                                                      \
    {                                                                                                             \
        .fields = {.event_type = EVENTLOG_AUDIT_FAILURE, .num_strings = 2, .reserved_flags = EVENTLOG_FLAGS_XML}, \
        .source_name = {name, sizeof name}, .computer_name = EVENTLOG_NAME(computer),                             \
        .sid = {(const uint8_t *)"\1\1\0\0\0\0\0\5\22\0\0", 12}, .strings = EVENTLOG_STRINGS(run),                 \
        .event_data = {name, 30000},                                                                              \
    }

static const eventlog_event events[] = {
    [EVENTLOG_UNICODE] = EVENT(u"T1", u"OK\0fine"),
    [EVENTLOG_ANSI] = EVENT("T1", "OK\0fine"),
};

/* The edition that is measured. */
static uint32_t edition;

/* Answers are kept, so that no call is left out. */
static volatile size_t kept;

static void nothing(void) { kept = 0; }
static void fresh(void) { kept = eventlog_fresh(EVENTLOG_WANT_ALL).types; }
static void types_count(void) { kept = eventlog_types_count(EVENTLOG_WANT_ALL); }
static void step(void) { kept = eventlog_step(edition, batch, used, 0).found.length; }
static void step_back(void) { kept = eventlog_step_back(edition, batch, used, used).found.length; }
static void refusal(void) { kept = eventlog_refusal(edition, batch, used, 0).refusal; }
static void string(void) { kept = eventlog_string(edition, batch, used, 0, 1).at; }
static void string_refusal(void) { kept = eventlog_string_refusal(edition, batch, used, 0, 1).refusal; }
static void next_string(void)
{
    eventlog_part run = eventlog_step(edition, batch, used, 0).found.strings;
    kept = eventlog_next_string(edition, batch, used, run, run.at).next;
}
static void walk(void) { kept = eventlog_walk(edition, batch, used).count; }
static void walk_back(void) { kept = eventlog_walk_back(edition, batch, used).count; }
static void write_event(void)
{
    kept = eventlog_write_event(edition, UINT32_MAX, &events[edition], out, sizeof out).length;
}
static void append(void) { kept = eventlog_append_event(edition, batch, sizeof batch, used, &events[edition]).used; }
static void listing(void) { kept = eventlog_listing(edition, batch, used, out, sizeof out).length; }
static void card_blocks(void) { kept = eventlog_card_blocks(used); }
static void card_write(void) { kept = eventlog_card_write(name, sizeof name, out, sizeof out).length; }
static void card_read(void) { kept = eventlog_card_read(out, 400 * EVENTLOG_CARD_BLOCK, batch + used, sizeof batch - used).length; }
static void card_judge(void) { kept = eventlog_card_judge(out, 400 * EVENTLOG_CARD_BLOCK, 399); }
static void to_utf16(void) { kept = eventlog_windows_1252_to_utf16(name, 1000, out, sizeof out).length; }
static void from_utf16(void) { kept = eventlog_windows_1252_from_utf16(out, 2000, batch + used, 1000).length; }

static void read_with(uint32_t flags, uint32_t types)
{
    kept = eventlog_read(edition, eventlog_fresh(types), batch, used, flags, 0, sizeof out, out, sizeof out).read;
}

static void forwards(void) { read_with(EVENTLOG_SEQUENTIAL | EVENTLOG_FORWARDS, EVENTLOG_WANT_ALL); }
static void backwards(void) { read_with(EVENTLOG_SEQUENTIAL | EVENTLOG_BACKWARDS, EVENTLOG_WANT_ALL); }
static void seek(void) { read_with(EVENTLOG_SEEK | EVENTLOG_BACKWARDS, EVENTLOG_WANT_ALL); }

/* The last record alone is an error, the first alone a warning: the others are skipped. */
static void skipping(void) { read_with(EVENTLOG_SEQUENTIAL | EVENTLOG_FORWARDS, EVENTLOG_WANT_ERROR); }
static void skipping_back(void) { read_with(EVENTLOG_SEQUENTIAL | EVENTLOG_BACKWARDS, EVENTLOG_WANT_WARNING); }
static void seek_skipping(void) { read_with(EVENTLOG_SEEK | EVENTLOG_BACKWARDS, EVENTLOG_WANT_WARNING); }

int main(void)
{
    static const struct {
        const char *name;
        void (*call)(void);
    } calls[] = {
        {"fresh", fresh}, {"types_count", types_count}, {"step", step}, {"step_back", step_back}, {"refusal", refusal},
        {"string", string}, {"string_refusal", string_refusal}, {"next_string", next_string}, {"walk", walk},
        {"walk_back", walk_back}, {"write", write_event}, {"append", append}, {"read forwards", forwards},
        {"read backwards", backwards}, {"read seek", seek}, {"read forwards, skipping", skipping},
        {"read backwards, skipping", skipping_back}, {"read seek, skipping", seek_skipping}, {"listing", listing},
        {"card_blocks", card_blocks}, {"card_write", card_write}, {"card_read", card_read},
        {"card_judge", card_judge}, {"to_utf16", to_utf16}, {"from_utf16", from_utf16},
    };
    memset(name, 1, sizeof name);
    size_t most = 0, base = used_by(nothing);
    for (edition = EVENTLOG_UNICODE; edition <= EVENTLOG_ANSI; edition++) {
        /* Records numbered from 4,294,967,294 on, so that a listing has long numbers; a seek finds the third, 0. */
        used = eventlog_write_event(edition, UINT32_MAX - 1, &events[edition], batch, sizeof batch).length;
        size_t last = 0;
        for (int i = 0; i < 3; i++) {
            last = used;
            used = eventlog_append_event(edition, batch, sizeof batch, used, &events[edition]).used;
        }
        batch[24] = EVENTLOG_WARNING_TYPE;
        batch[last + 24] = EVENTLOG_ERROR_TYPE;
        for (size_t i = 0; i < sizeof calls / sizeof *calls; i++) {
            kept = 0;
            size_t taken = used_by(calls[i].call) - base;
            if (kept == 0 && calls[i].call != refusal && calls[i].call != string_refusal
                && calls[i].call != card_judge) {
                printf("stack.c: %s answers nothing, edition %u\n", calls[i].name, edition);
                return 1;
            }
            if (taken > EVENTLOG_MAX_STACK / 2) {
                printf("stack.c: %s takes %zu bytes of stack, edition %u\n", calls[i].name, taken, edition);
                return 1;
            }
            if (taken > most)
                most = taken;
        }
    }
    printf("stack.c: passed, at most %zu bytes of stack\n", most);
    return 0;
}
