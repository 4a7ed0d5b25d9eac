/* Prints the records of a log, appends an entry to it in memory, and reads the log back: all of it from the rear, and
 * then its errors and warnings. */
#include <eventlog.h>

#include <stdio.h>

/* The log's texts are UTF-16. */
static const uint32_t edition = EVENTLOG_UNICODE;

static uint8_t event_log[1 << 20], batch[EVENTLOG_MAX_READ];

static int fail(const char *call, uint32_t number)
{
    fprintf(stderr, "%s: %s\n", call, eventlog_message(number));
    return 1;
}

/* Prints UTF-16 between two texts; a unit that is not ASCII is printed as its number. */
static void print_text(const char *before, const uint8_t *buffer, eventlog_part text, const char *after)
{
    printf("%s", before);
    for (size_t i = text.at; i < text.at + text.len; i += 2) {
        unsigned unit = buffer[i] | (unsigned)buffer[i + 1] << 8;
        printf(unit >= ' ' && unit <= '~' ? "%c" : "\\u%04x", unit);
    }
    printf("%s", after);
}

/* Prints the records of a buffer, from the front. */
static int print_records(const uint8_t *buffer, size_t len)
{
    for (size_t at = 0; at < len;) {
        eventlog_stepped step = eventlog_step(edition, buffer, len, at);
        if (step.refusal != EVENTLOG_NOT_REFUSED)
            return fail("step", step.refusal);
        eventlog_record found = step.found;
        printf("%u: event %u, type %u", found.fields.record_number, found.fields.event_id, found.fields.event_type);
        print_text(", from ", buffer, found.source_name, "");
        print_text(" on ", buffer, found.computer_name, "\n");
        eventlog_next next = eventlog_next_string(edition, buffer, len, found.strings, found.strings.at);
        while (next.refusal == EVENTLOG_NOT_REFUSED) {
            print_text("    \"", buffer, next.string, "\"\n");
            next = eventlog_next_string(edition, buffer, len, found.strings, next.next);
        }
        at += found.length;
    }
    return 0;
}

/* Reads the records of these types from a log, all of them one way, and prints them. */
static int print_types(size_t used, uint32_t flags, uint32_t types)
{
    eventlog_handle handle = eventlog_fresh(types);
    for (;;) {
        eventlog_answer answer = eventlog_read(edition, handle, event_log, used, flags, 0,
                                               sizeof batch, batch, sizeof batch);
        if (answer.status == EVENTLOG_STATUS_END_OF_FILE)
            return 0;
        if (answer.status != EVENTLOG_STATUS_SUCCESS)
            return fail("read", answer.status);
        if (print_records(batch, answer.read) != 0)
            return 1;
        handle = answer.handle;
    }
}

int main(int argc, char **argv)
{
    FILE *file = argc == 2 ? fopen(argv[1], "rb") : NULL;
    if (file == NULL) {
        fputs("usage: records LOG\n", stderr);
        return 2;
    }
    size_t used = fread(event_log, 1, sizeof event_log, file);
    fclose(file);
    if (print_records(event_log, used) != 0)
        return 1;

    eventlog_event repair = {
        .fields = {.event_id = 300, .event_type = EVENTLOG_INFORMATION_TYPE, .num_strings = 2},
        .source_name = EVENTLOG_NAME(u"Scale"), .computer_name = EVENTLOG_NAME(u"T1"),
        .strings = EVENTLOG_STRINGS(u"load cell replaced\0zero point set"),
    };
    eventlog_appended appended = eventlog_append_event(edition, event_log, sizeof event_log, used, &repair);
    if (appended.refusal != EVENTLOG_NOT_REFUSED)
        return fail("append", appended.refusal);

    puts("from the rear:");
    if (print_types(appended.used, EVENTLOG_SEQUENTIAL | EVENTLOG_BACKWARDS, EVENTLOG_WANT_ALL) != 0)
        return 1;
    puts("errors and warnings:");
    return print_types(appended.used, EVENTLOG_SEQUENTIAL | EVENTLOG_FORWARDS,
                       EVENTLOG_WANT_ERROR | EVENTLOG_WANT_WARNING);
}
