/* Windows event records (EVENTLOGRECORD of MS-EVEN 2.2.3): reading, walking, writing, appending and
 * serving them, from a proved library for x86-64 Linux. Link libeventlog.a.
 *
 * Any bytes, any places, any numbers and any handle may be given to any call. A buffer is a pointer and
 * its length; a null pointer with length 0 is an empty one. What is given as const is not changed. An
 * output must not overlap any other buffer of the same call: the proofs take lent buffers to be apart.
 *
 * Every call is thread-safe: the library has no variables of its own, so calls may run at the same time,
 * except that nobody else may use a buffer while a call writes to it. Nothing is allocated, no other
 * library is needed but for the C library's memset and memmove, and no call waits. A call takes at most
 * EVENTLOG_MAX_STACK bytes of stack below its caller's frame. That was measured: tests/stack.c runs each
 * call on a painted stack, looks how much of the paint is gone, and holds every call to half of that
 * number. A listing goes deeper with each digit of a number; there the longest has ten of the twenty that
 * a number can have.
 *
 * The rules that are named here by their numbers stand in docs/SPECIFICATION.md.
 *
 * Names and strings are texts of units, and the edition says how many bytes a unit has. The caller gives it to each
 * call that reads, walks, writes, appends or serves: EVENTLOG_UNICODE, 0, or EVENTLOG_ANSI; every number but 0 is
 * ANSI. In Unicode a unit has two bytes, UTF-16, the low one first, as all numbers in a record have it. In ANSI it has
 * one byte. A zero unit is a unit whose bytes are all 0. All else is the same in both editions. Units are not judged:
 * a text may hold half of a surrogate pair, or any byte but 0 (Rules 1.6, 3.2 and 3.4). A record does not tell its
 * edition, and some bytes are a good record in both; all records of a batch or a log are taken to have the one given.
 *
 * A record, places counted from its start (section 2):
 *
 *    place  bytes  field
 *        0      4  Length, of the whole record: 64 to 262,140, a multiple of 4
 *        4      4  Reserved, 0x654C664C
 *        8      4  RecordNumber
 *       12      4  TimeGenerated, seconds since 1970
 *       16      4  TimeWritten, seconds since 1970
 *       20      4  EventID
 *       24      2  EventType
 *       26      2  NumStrings
 *       28      2  EventCategory
 *       30      2  ReservedFlags
 *       32      4  ClosingRecordNumber, ignored
 *       36      4  StringOffset
 *       40      4  UserSidLength
 *       44      4  UserSidOffset
 *       48      4  DataLength
 *       52      4  DataOffset
 *       56         SourceName and its zero unit, of 2 bytes in Unicode, 1 in ANSI
 *                  Computername and its zero unit
 *                  a gap of any length
 *                  the SID
 *                  the strings, each with its zero unit
 *                  the data
 *                  a gap, at most 3 bytes, to a multiple of 4; none where neither SID nor strings nor data is
 *                  present
 *               4  Length2, which holds the number of Length
 *
 * A gap has any bytes in it. A SID with n sub-authorities, n from 0 to 15, has 8 + 4n bytes; its first byte is 1
 * and its second n. SID, strings and data may be absent, their length or count being 0; then their offset may be
 * any number, else it is the part's place in this order. So the first of them that is present starts wherever its
 * offset says, at or after the end of the names, and the others follow without a gap. Writing makes the gap after the
 * names 0 to 3 bytes long, to a multiple of 4 (Rules 2.12 and 6.9).
 *
 * Cost: a record's names and strings are looked at unit by unit, its data and gaps not at all. So a call is
 * linear in the names and strings of the records that it looks at, and in the bytes that it copies; each says
 * which, and how often. */
#ifndef EVENTLOG_H
#define EVENTLOG_H

#include <stddef.h>
#include <stdint.h>

#ifdef __cplusplus
extern "C" {
#endif

/* ---- numbers ---- */

#define EVENTLOG_VERSION "0.1.0"

/* Editions. Every other number is ANSI too. */
#define EVENTLOG_UNICODE 0u
#define EVENTLOG_ANSI 1u

/* Why a call refuses (Rule 4.2). Reading tests 1 to 13 in this order, and the first test that fails decides. A
 * record's refusal comes with the field that failed (Rule 4.25): its place, counted from the record's start. The
 * field is named here beside each number; for a success and for all others it is 0. */
#define EVENTLOG_NOT_REFUSED 0u
/* The place is past the buffer's end, or too few bytes for any record stand there. Field 0. */
#define EVENTLOG_REFUSED_PLACE 1u
/* Length is no multiple of 4, or not within its limits (Rule 2.3). Field 0, Length; from the rear 0 as well. */
#define EVENTLOG_REFUSED_LENGTH 2u
/* Length is more than the bytes left. Field 0. */
#define EVENTLOG_REFUSED_CUT_SHORT 3u
/* Reserved is not 0x654C664C. Field 4. */
#define EVENTLOG_REFUSED_SIGNATURE 4u
/* Length2 differs from Length. Field Length - 4, Length2's place; from the rear 0, Length. */
#define EVENTLOG_REFUSED_LENGTH2 5u
/* The event type is none of the six (Rule 2.8). Field 24. */
#define EVENTLOG_REFUSED_EVENT_TYPE 6u
/* The flags are not 0, and not 0x8000 with at least one string. Field 30. */
#define EVENTLOG_REFUSED_FLAGS 7u
/* There are more than 256 strings. Field 26. */
#define EVENTLOG_REFUSED_STRING_COUNT 8u
/* A name does not end before Length2 (Rule 3.5); for writing, it holds a zero unit, or in Unicode has an odd number of
 * bytes. Field: where that name starts, 56 or Computername's place. */
#define EVENTLOG_REFUSED_NAME 9u
/* A SID is present, and its form, its offset or its end is wrong (Rule 4.6). Field 44, UserSidOffset. */
#define EVENTLOG_REFUSED_SID 10u
/* Strings are present, and their offset is wrong or one does not end before Length2 (Rule 4.7); for writing,
 * they are not as many as said. Field 36, StringOffset. */
#define EVENTLOG_REFUSED_STRINGS 11u
/* Data is present, and it is too long, or its offset or its end is wrong (Rule 4.8). Field 48, DataLength. */
#define EVENTLOG_REFUSED_DATA 12u
/* Length is not the size that the parts add up to (Rule 2.20). Field 0. */
#define EVENTLOG_REFUSED_SIZE 13u
/* The log does not end with a good record. Field: that of the record's own refusal, as eventlog_step_back has it. */
#define EVENTLOG_REFUSED_LOG_END 14u
/* The output is too short. */
#define EVENTLOG_REFUSED_OUTPUT 15u
/* The listing program's input is too long. No call answers this one. */
#define EVENTLOG_REFUSED_INPUT 16u
/* The record has no such string, or no ended string starts at the place of the run. */
#define EVENTLOG_REFUSED_NO_STRING 17u
/* A unit of UTF-16 is none of windows-1252, or half a unit is left. */
#define EVENTLOG_REFUSED_UNIT 18u
/* The log is longer than a memory card carries. */
#define EVENTLOG_REFUSED_CARD_LOG 19u
/* The image of a card is not whole blocks, or too few or too many; or it has no block at the place. */
#define EVENTLOG_REFUSED_CARD_LENGTH 20u
/* A block's check is not that of its bytes. */
#define EVENTLOG_REFUSED_BLOCK_CHECK 21u
/* A block's number is not its place. */
#define EVENTLOG_REFUSED_BLOCK_NUMBER 22u
/* A block's used count is wrong, or a payload byte after the used ones is not zero. */
#define EVENTLOG_REFUSED_BLOCK_USED 23u
/* A block's last mark is not 1 in the last block and 0 in every other. */
#define EVENTLOG_REFUSED_BLOCK_MARK 24u

/* What a read answers: an NTSTATUS, under its name in MS-ERREF. */
#define EVENTLOG_STATUS_SUCCESS 0u
#define EVENTLOG_STATUS_INVALID_HANDLE 0xC0000008u
#define EVENTLOG_STATUS_INVALID_PARAMETER 0xC000000Du
#define EVENTLOG_STATUS_END_OF_FILE 0xC0000011u
#define EVENTLOG_STATUS_BUFFER_TOO_SMALL 0xC0000023u
#define EVENTLOG_STATUS_EVENTLOG_FILE_CORRUPT 0xC000018Eu

/* A read's flags: one of the first two, with one of the last two. */
#define EVENTLOG_SEQUENTIAL 1u
#define EVENTLOG_SEEK 2u
#define EVENTLOG_FORWARDS 4u
#define EVENTLOG_BACKWARDS 8u

/* A handle's kind. Every other number is a boundary too. */
#define EVENTLOG_FRESH 0u
#define EVENTLOG_BOUNDARY 1u

/* An event's type, under its name in MS-EVEN 2.2.2. EVENTLOG_SUCCESS is a type and no answer of a call. */
#define EVENTLOG_SUCCESS 0u
#define EVENTLOG_ERROR_TYPE 1u
#define EVENTLOG_WARNING_TYPE 2u
#define EVENTLOG_INFORMATION_TYPE 4u
#define EVENTLOG_AUDIT_SUCCESS 8u
#define EVENTLOG_AUDIT_FAILURE 16u

/* The types that a read wants: a handle's set has a bit for each, and is any sum of these. Five have the value of their
 * type, and type 0 has the next bit (Rule 8.27). A set of 0 wants none. */
#define EVENTLOG_WANT_ERROR 1u
#define EVENTLOG_WANT_WARNING 2u
#define EVENTLOG_WANT_INFORMATION 4u
#define EVENTLOG_WANT_AUDIT_SUCCESS 8u
#define EVENTLOG_WANT_AUDIT_FAILURE 16u
#define EVENTLOG_WANT_SUCCESS 32u
#define EVENTLOG_WANT_ALL 63u

/* The one value of ReservedFlags but 0: the last string is XML, so there is one at least. */
#define EVENTLOG_FLAGS_XML 0x8000u

/* Reserved, which every record has. */
#define EVENTLOG_SIGNATURE 0x654C664Cu

/* Limits: a record's Length, its strings, its SID's and its data's bytes; the size that a read may ask; how much
 * more than the batch is always enough for a listing's output; a call's stack. */
#define EVENTLOG_MIN_LENGTH 64u
#define EVENTLOG_MAX_LENGTH 262140u
#define EVENTLOG_MAX_STRINGS 256u
#define EVENTLOG_MAX_SID 68u
#define EVENTLOG_MAX_DATA 61440u
#define EVENTLOG_MAX_READ 524287u
#define EVENTLOG_LISTING_ROOM 64u
#define EVENTLOG_MAX_STACK 4096u

/* A memory card: the bytes of a block and of its payload, the most blocks, and the longest log. */
#define EVENTLOG_CARD_BLOCK 512u
#define EVENTLOG_CARD_PAYLOAD 500u
#define EVENTLOG_MAX_CARD_BLOCKS 33555u
#define EVENTLOG_MAX_CARD_LOG 16777500u

/* ---- what is given and answered ---- */

/* The fields of a record that are plain numbers. */
typedef struct {
    uint32_t record_number;
    uint32_t time_generated;
    uint32_t time_written;
    uint32_t event_id;
    uint16_t event_type;
    uint16_t num_strings;
    uint16_t event_category;
    uint16_t reserved_flags;
} eventlog_fields;

/* The same but for the record number, which appending gives. */
typedef struct {
    uint32_t time_generated;
    uint32_t time_written;
    uint32_t event_id;
    uint16_t event_type;
    uint16_t num_strings;
    uint16_t event_category;
    uint16_t reserved_flags;
} eventlog_unnumbered;

/* Some bytes of a lent buffer: the place of the first one, and how many. */
typedef struct {
    size_t at;
    size_t len;
} eventlog_part;

/* A record: where it starts, its Length, its fields and where its parts lie in the buffer. A name lies without
 * its zero unit, the strings lie with theirs, as one part; an absent part has length 0 and lies where the parts before
 * it end, an absent SID where the first present part starts, and all three at Length2 where none is present. */
typedef struct {
    size_t start;
    size_t length;
    eventlog_fields fields;
    eventlog_part source_name;
    eventlog_part computer_name;
    eventlog_part sid;
    eventlog_part strings;
    eventlog_part event_data;
} eventlog_record;

/* A record's refusal, 0 for none, and the field that failed, counted from the record's start. In the structs below
 * they stand side by side under the same names. */
typedef struct {
    uint32_t refusal;
    size_t field;
} eventlog_refused;

/* What a step answers: the refusal, 0 for none, and its field; the place asked for, refused or not; the record, all
 * 0 where it is refused. */
typedef struct {
    uint32_t refusal;
    size_t field;
    size_t at;
    eventlog_record found;
} eventlog_stepped;

/* The string that starts at a place of a run of strings: the refusal, 0 for none; where the string lies, without
 * its zero unit; and the place after its zero unit. Where it is refused the string lies at 0 with length 0, and next
 * is the place that was asked for. */
typedef struct {
    uint32_t refusal;
    eventlog_part string;
    size_t next;
} eventlog_next;

/* How many records a walk found before it ended, the refusal that ended it, 0 for none, its field, and where it
 * stopped: the place of the record that was refused, from the rear its end; without a refusal the batch's length, from
 * the rear 0. */
typedef struct {
    size_t count;
    uint32_t refusal;
    size_t field;
    size_t at;
} eventlog_walked;

/* The refusal, 0 for none, and how many bytes were written. */
typedef struct {
    uint32_t refusal;
    size_t length;
} eventlog_written;

/* The refusal, 0 for none, its field, which only 14 has, and how much of the log's buffer is used now. */
typedef struct {
    uint32_t refusal;
    size_t field;
    size_t used;
} eventlog_appended;

/* A read handle: kind EVENTLOG_FRESH is fresh, whatever its boundary; every other kind is a boundary at this
 * byte of the log. types is the set of event types that its reads want. */
typedef struct {
    uint32_t kind;
    uint32_t types;
    size_t boundary;
} eventlog_handle;

/* What a read answers: an NTSTATUS, 0 for success; bytes read; the Length of a wanted record that was too long for the
 * size, else 0; and the next handle. */
typedef struct {
    uint32_t status;
    size_t read;
    size_t needed;
    eventlog_handle handle;
} eventlog_answer;

/* ---- the proved calls ----
 *
 * The edition, EVENTLOG_UNICODE or EVENTLOG_ANSI, comes first in each that looks at texts. */

/* The record that starts at a place, or its refusal, 1 to 13.
 * Cost: its names and strings are looked at once. */
eventlog_stepped eventlog_step(uint32_t edition, const uint8_t *buffer, size_t buffer_len, size_t at);

/* The record that ends at a place, or its refusal, 1 to 13: the bytes ahead are here those before the place, and
 * Length2 says in 2 and 3 how many of them are the record (Rule 4.5).
 * Cost: as eventlog_step. */
eventlog_stepped eventlog_step_back(uint32_t edition, const uint8_t *buffer, size_t buffer_len, size_t end);

/* The refusal of the record that starts at a place, 1 to 13, and its field; 0 and 0 where nothing is refused.
 * Cost: its names and strings are looked at once. */
eventlog_refused eventlog_refusal(uint32_t edition, const uint8_t *buffer, size_t buffer_len, size_t at);

/* Where string k, counted from 0, of the record that starts at a place lies, without its zero unit; at 0 with
 * length 0 where it is refused.
 * Cost: as eventlog_step, and the strings up to this one once more. Asked for each string in turn, that is the
 * number of strings times the record; eventlog_next_string takes the run once. */
eventlog_part eventlog_string(uint32_t edition, const uint8_t *buffer, size_t buffer_len, size_t at, uint32_t k);

/* The refusal of string k: the record's, 1 to 13, with its field; 17 where k is not below its number of strings, with
 * field 0; else 0 and 0.
 * Cost: as eventlog_step. */
eventlog_refused eventlog_string_refusal(uint32_t edition, const uint8_t *buffer, size_t buffer_len, size_t at,
                                         uint32_t k);

/* The string that starts at a place of a run of strings, and the place after its zero unit. The run is the strings of
 * a record as a step answers them, or any other part; no record is judged. Ask at the run's own place first, and then
 * at each next: of a record that a step found, those are its strings in their order, as eventlog_string has them, and
 * after the last one next is the run's end. Units are counted from the place given, which may be any place of the run,
 * and the zero unit that ends the string has to lie wholly in the run. Refused with 17 where no ended string starts
 * there: the place lies before the run or at its end or past it, no zero unit follows in the run, or the run does not
 * lie in the buffer.
 * Cost: this string, or where it is refused the rest of the run, is looked at once; so all strings of a run cost the
 * run once. */
eventlog_next eventlog_next_string(uint32_t edition, const uint8_t *buffer, size_t buffer_len, eventlog_part run,
                                   size_t place);

/* The walk of a batch from the front, to its end (refusal 0) or to a record that is refused with 1 to 13. An
 * empty batch has no records and no refusal.
 * Cost: as eventlog_refusal for each record. */
eventlog_walked eventlog_walk(uint32_t edition, const uint8_t *buffer, size_t buffer_len);

/* The walk of a batch from the rear, to its start (refusal 0) or to a record that eventlog_step_back refuses with
 * 1 to 13. Where one walk refuses, so does the other; their answers may differ.
 * Cost: as eventlog_walk. */
eventlog_walked eventlog_walk_back(uint32_t edition, const uint8_t *buffer, size_t buffer_len);

/* Writes a record over the start of the output and answers its Length (section 6). A name is given without its
 * zero unit; strings is all the strings, each with its zero unit, one after another. An empty sid, strings or
 * event_data means that the part is absent. Ignored bytes (Rule 2.21) become zero. Refused with the first of:
 *    6, 7, 8  as in reading;
 *    9  the bytes of a name hold a zero unit, or are in Unicode an odd number;
 *   10  sid has bytes and is no SID;
 *   11  strings is something else than num_strings strings, each with its zero unit;
 *   12  event_data has more bytes than EVENTLOG_MAX_DATA;
 *    2  Length would be above EVENTLOG_MAX_LENGTH;
 *   15  the output has no room for the record.
 * A refusal answers length 0 and leaves the output as it was; a success leaves the output past Length.
 * eventlog_write_event takes the same as a struct.
 * Cost: the names and strings are looked at once, and every byte is copied once. */
eventlog_written eventlog_write(uint32_t edition, eventlog_fields fields,
                                const uint8_t *source_name, size_t source_name_len,
                                const uint8_t *computer_name, size_t computer_name_len,
                                const uint8_t *sid, size_t sid_len,
                                const uint8_t *strings, size_t strings_len,
                                const uint8_t *event_data, size_t event_data_len,
                                uint8_t *out, size_t out_len);

/* Appends a record behind the used bytes of the log and answers how much is used then. Its number is 1 where
 * used is 0, else the last record's plus one; after 4,294,967,295 comes 0. The parts are as in eventlog_write.
 * Refused with 1 where used is more than log_len; with 14 where used is not 0 and eventlog_step_back refuses
 * there, with the field of that refusal; then as in eventlog_write, the rest of the log being the output. All others
 * have field 0. The edition is that of the last record and of the new one. Records before the last are not judged. A
 * refusal answers the old used length and leaves the log as it was; a success leaves the log before the old used
 * length and past the new one. eventlog_append_event takes the same as a struct.
 * Cost: as eventlog_step_back and eventlog_write, however long the log is. */
eventlog_appended eventlog_append(uint32_t edition, uint8_t *log, size_t log_len, size_t used,
                                  eventlog_unnumbered fields,
                                  const uint8_t *source_name, size_t source_name_len,
                                  const uint8_t *computer_name, size_t computer_name_len,
                                  const uint8_t *sid, size_t sid_len,
                                  const uint8_t *strings, size_t strings_len,
                                  const uint8_t *event_data, size_t event_data_len);

/* A handle that nothing was read with: kind 0, boundary 0 and these types. Any set may be given: a read judges it. */
eventlog_handle eventlog_fresh(uint32_t types);

/* How many of the six event types are in a set. Bits that are none of EVENTLOG_WANT_ALL are not counted, and nothing is
 * refused. */
uint32_t eventlog_types_count(uint32_t types);

/* Reads as many wanted records as fit into the size, one after another, over the start of the output, up to a wanted
 * one that does not fit or to any record that is refused (section 8). A record is wanted if its event type is in the
 * handle's types; the others are judged and skipped, and take no room. The size is what a client asks for, and out_len
 * is what the caller has lent: a server checks the one against the other here, and nothing past the size is written,
 * however long the output is. Flags: EVENTLOG_SEQUENTIAL or EVENTLOG_SEEK, with EVENTLOG_FORWARDS or
 * EVENTLOG_BACKWARDS. Sequential goes on from the boundary; with a fresh handle that is byte 0 forwards, and the log's
 * end backwards. Seek looks from byte 0 on, whatever the boundary, for the first record that has the record number,
 * whatever its type, and starts with it, or past it where it is not wanted; the number is for seek alone. Backwards the
 * newest record comes first, and the bytes of a record are not turned round. Refused with the first of these statuses
 * (Rule 8.7):
 *   0xC000000D  the flags are other ones, or the size is above EVENTLOG_MAX_READ or out_len, or types has a bit that is
 *               none of EVENTLOG_WANT_ALL;
 *   0xC0000008  the boundary is greater than log_len;
 *   0xC000018E  a seek comes to a record that is refused and has not found the number;
 *   0xC000000D  a seek comes to the log's end and has not found it;
 *   0xC0000011  no bytes are ahead of the starting place, or none after the records that were skipped from there on;
 *   0xC000018E  a record is refused that is met there before a wanted one;
 *   0xC0000023  the first wanted one is longer than the size; needed is its Length.
 * A refusal answers read 0, needed 0 but for the last status, and the handle as it was given, every member; it leaves
 * the output as it was. A success answers the bytes read, needed 0 and a handle of kind 1 with the same types, whose
 * boundary is the end of the last record copied, backwards its start, so that records skipped after it are met again;
 * the rest of the output is left. With EVENTLOG_WANT_ALL nothing is skipped.
 * Cost: as eventlog_refusal for each record copied or skipped and for the one that stops the read, unless that is only
 * too long; and every byte of those copied is copied once; a seek walks from the front up to the record first. */
eventlog_answer eventlog_read(uint32_t edition, eventlog_handle handle, const uint8_t *log, size_t log_len,
                              uint32_t flags, uint32_t record_number, size_t size, uint8_t *out, size_t out_len);

/* Writes the listing of a batch over the start of the output and answers the length of the text: a line
 * `records N`, then for each record from the front a line `start Length number`. Where eventlog_walk refuses
 * the batch, the text is only the line `refused K at P field F`, the refusal, the place of the record and the
 * field that failed, and the call still answers refusal 0. Numbers are decimal; each line ends with one newline,
 * and no zero byte follows. An output that is shorter than the text is refused with 15 and length 0, and left as it
 * was. Else the output past the text is left. EVENTLOG_LISTING_ROOM bytes more than the batch are always enough.
 * The listing program lists Unicode.
 * Cost: as eventlog_walk, to judge the records and measure the text; then their Lengths and numbers are read again. */
eventlog_written eventlog_listing(uint32_t edition, const uint8_t *buffer, size_t buffer_len, uint8_t *out,
                                  size_t out_len);

/* ---- a memory card to carry a log (section 13) ----
 *
 * An image is the blocks of a log, one after another. A block, places counted from its start:
 *
 *    place  bytes  field
 *        0      4  the block's number, from 0
 *        4      2  how many payload bytes are used: 500, in the last block 1 to 500, in an empty log's only block 0
 *        6    500  the payload, zero after the used bytes
 *      506      2  the last mark: 1 in the last block, else 0
 *      508      2  the check's low half: the sum of bytes 0 to 507, modulo 65,521
 *      510      2  its high half: the sum of byte i times (508 - i), modulo 65,521
 *
 * The log is any bytes: no record is judged. */

/* How many blocks a log of so many bytes takes: 1 for an empty one, else the bytes over 500, rounded up; for a log
 * that is too long for a card too. An image has EVENTLOG_CARD_BLOCK bytes for each. */
size_t eventlog_card_blocks(size_t bytes);

/* Writes the image of a log over the start of the output and answers how many bytes it has. Refused with 19 where
 * the log has more bytes than EVENTLOG_MAX_CARD_LOG, and then with 15 where the output has no room for the image.
 * A refusal answers length 0 and leaves the output as it was; a success leaves the output past the image.
 * Cost: every byte of the image is written once, and summed up once. */
eventlog_written eventlog_card_write(const uint8_t *log, size_t log_len, uint8_t *out, size_t out_len);

/* Reads the log of an image over the start of the output and answers how many bytes it has. Refused with 20 where
 * image_len is no multiple of 512, 0 or more than 33,555 blocks; then as the first block that eventlog_card_judge
 * refuses, 21 to 24; then with 15 where the output has no room for the log. A refusal answers length 0 and leaves
 * the output as it was; a success leaves the output past the log.
 * Cost: every byte of the image is summed up once, and every byte of the log is copied once. */
eventlog_written eventlog_card_read(const uint8_t *image, size_t image_len, uint8_t *out, size_t out_len);

/* The refusal of the block at a place of an image, counted from 0, judged for this place; 0 where nothing is
 * refused. 20 where image_len is wrong or the image has no such block; else the first of 21, 22, 23 and 24.
 * Cost: the block is summed up once, however long the image is. */
uint32_t eventlog_card_judge(const uint8_t *image, size_t image_len, size_t place);

/* ---- windows-1252 for the screen (section 14) ----
 *
 * Each byte of windows-1252 is one unit of UTF-16, by the Unicode Consortium's table; bytes 81, 8D, 8F, 90 and 9D,
 * which it leaves undefined, are units of the same number. No two bytes have one unit. A unit is two bytes, the low
 * one first, at any address. */

/* Writes bytes of windows-1252 as UTF-16 over the start of the output and answers how many bytes that took, two for
 * each. Refused with 15 where the output has fewer. A refusal answers length 0 and leaves the output as it was; a
 * success leaves the output past the units.
 * Cost: one look into a table for each byte. */
eventlog_written eventlog_windows_1252_to_utf16(const uint8_t *bytes, size_t bytes_len, uint8_t *out, size_t out_len);

/* Writes UTF-16 as bytes of windows-1252 over the start of the output and answers how many, one for each unit.
 * units_len counts bytes. Refused with 18 where units_len is odd or the table does not have a unit, and then with 15
 * where the output has fewer bytes than there are units. A refusal answers length 0 and leaves the output as it was; a
 * success leaves the output past the bytes.
 * Cost: every unit is looked up twice, in a table: once to judge it, and once to write it. */
eventlog_written eventlog_windows_1252_from_utf16(const uint8_t *units, size_t units_len, uint8_t *out,
                                                  size_t out_len);

/* ---- written here, in C: not proved ---- */

/* Some bytes, to be given. */
typedef struct {
    const uint8_t *bytes;
    size_t len;
} eventlog_bytes;

/* An event without its record number: what appending is given besides the edition and the log. */
typedef struct {
    eventlog_unnumbered fields;
    eventlog_bytes source_name;
    eventlog_bytes computer_name;
    eventlog_bytes sid;
    eventlog_bytes strings;
    eventlog_bytes event_data;
} eventlog_event;

/* Initialisers of an eventlog_bytes from a literal: a name, and a run of strings. For Unicode it is one of UTF-16 (C11,
 * C++11), u"Scale" and u"first\0second"; for ANSI one of bytes, "Scale" and "first\0second". The compiler adds the last
 * string's zero unit. */
#ifdef __cplusplus
#define EVENTLOG_NAME(literal) {reinterpret_cast<const uint8_t *>(literal), sizeof(literal) - sizeof *(literal)}
#define EVENTLOG_STRINGS(literal) {reinterpret_cast<const uint8_t *>(literal), sizeof(literal)}
#else
#define EVENTLOG_NAME(literal) {(const uint8_t *)(literal), sizeof(literal) - sizeof *(literal)}
#define EVENTLOG_STRINGS(literal) {(const uint8_t *)(literal), sizeof(literal)}
#endif

/* eventlog_write of an event. */
static inline eventlog_written eventlog_write_event(uint32_t edition, uint32_t record_number,
                                                    const eventlog_event *event, uint8_t *out, size_t out_len)
{
    eventlog_fields fields;
    fields.record_number = record_number;
    fields.time_generated = event->fields.time_generated;
    fields.time_written = event->fields.time_written;
    fields.event_id = event->fields.event_id;
    fields.event_type = event->fields.event_type;
    fields.num_strings = event->fields.num_strings;
    fields.event_category = event->fields.event_category;
    fields.reserved_flags = event->fields.reserved_flags;
    return eventlog_write(edition, fields,
                          event->source_name.bytes, event->source_name.len,
                          event->computer_name.bytes, event->computer_name.len,
                          event->sid.bytes, event->sid.len,
                          event->strings.bytes, event->strings.len,
                          event->event_data.bytes, event->event_data.len,
                          out, out_len);
}

/* eventlog_append of an event. */
static inline eventlog_appended eventlog_append_event(uint32_t edition, uint8_t *log, size_t log_len, size_t used,
                                                      const eventlog_event *event)
{
    return eventlog_append(edition, log, log_len, used, event->fields,
                           event->source_name.bytes, event->source_name.len,
                           event->computer_name.bytes, event->computer_name.len,
                           event->sid.bytes, event->sid.len,
                           event->strings.bytes, event->strings.len,
                           event->event_data.bytes, event->event_data.len);
}

/* A part's own bytes. The part is to lie in the buffer, as the parts of a record found there do. */
static inline eventlog_bytes eventlog_bytes_of(const uint8_t *buffer, eventlog_part part)
{
    eventlog_bytes own;
    own.bytes = part.len == 0 ? buffer : buffer + part.at;
    own.len = part.len;
    return own;
}

/* The event of a record that was found in the buffer: to be written or appended again, in the same edition. Its parts
 * are the buffer's own bytes. Written again, its record is at most four bytes longer than the one that was found;
 * where that would be above EVENTLOG_MAX_LENGTH, it is refused with 2 (Rule 6.15). */
static inline eventlog_event eventlog_event_of(const uint8_t *buffer, const eventlog_record *record)
{
    eventlog_event event;
    event.fields.time_generated = record->fields.time_generated;
    event.fields.time_written = record->fields.time_written;
    event.fields.event_id = record->fields.event_id;
    event.fields.event_type = record->fields.event_type;
    event.fields.num_strings = record->fields.num_strings;
    event.fields.event_category = record->fields.event_category;
    event.fields.reserved_flags = record->fields.reserved_flags;
    event.source_name = eventlog_bytes_of(buffer, record->source_name);
    event.computer_name = eventlog_bytes_of(buffer, record->computer_name);
    event.sid = eventlog_bytes_of(buffer, record->sid);
    event.strings = eventlog_bytes_of(buffer, record->strings);
    event.event_data = eventlog_bytes_of(buffer, record->event_data);
    return event;
}

/* A refusal or a status in plain words, without a full stop; it is not to be freed. */
static inline const char *eventlog_message(uint32_t number)
{
    switch (number) {
    case EVENTLOG_NOT_REFUSED: return "nothing is refused";
    case EVENTLOG_REFUSED_PLACE: return "the place is past the end, or too few bytes stand there";
    case EVENTLOG_REFUSED_LENGTH: return "Length is out of range or not a multiple of 4";
    case EVENTLOG_REFUSED_CUT_SHORT: return "Length is more than the bytes left";
    case EVENTLOG_REFUSED_SIGNATURE: return "Reserved is not the signature";
    case EVENTLOG_REFUSED_LENGTH2: return "Length and Length2 differ";
    case EVENTLOG_REFUSED_EVENT_TYPE: return "the event type is none of the six";
    case EVENTLOG_REFUSED_FLAGS: return "the flags are neither 0 nor, with a string, 0x8000";
    case EVENTLOG_REFUSED_STRING_COUNT: return "there are more than 256 strings";
    case EVENTLOG_REFUSED_NAME: return "a name is not ended, or cannot be a name";
    case EVENTLOG_REFUSED_SID: return "the SID is wrong or misplaced";
    case EVENTLOG_REFUSED_STRINGS: return "the strings are misplaced, not ended, or not as many as said";
    case EVENTLOG_REFUSED_DATA: return "the data is too long or misplaced";
    case EVENTLOG_REFUSED_SIZE: return "Length is not the laid-out size";
    case EVENTLOG_REFUSED_LOG_END: return "the log does not end with a good record";
    case EVENTLOG_REFUSED_OUTPUT: return "the output is too short";
    case EVENTLOG_REFUSED_INPUT: return "the listing program's input is too long";
    case EVENTLOG_REFUSED_NO_STRING: return "there is no such string";
    case EVENTLOG_REFUSED_UNIT: return "windows-1252 does not have a unit, or half a unit is left";
    case EVENTLOG_REFUSED_CARD_LOG: return "the log is longer than a card carries";
    case EVENTLOG_REFUSED_CARD_LENGTH: return "the image's length is wrong, or it has no such block";
    case EVENTLOG_REFUSED_BLOCK_CHECK: return "a block's check is wrong";
    case EVENTLOG_REFUSED_BLOCK_NUMBER: return "a block's number is not its place";
    case EVENTLOG_REFUSED_BLOCK_USED: return "a block's used count is wrong, or its rest is not zero";
    case EVENTLOG_REFUSED_BLOCK_MARK: return "a block's last mark is wrong";
    case EVENTLOG_STATUS_INVALID_HANDLE: return "the handle's boundary is past the log's end";
    case EVENTLOG_STATUS_INVALID_PARAMETER: return "flags, size or types are wrong, or no record has the number sought";
    case EVENTLOG_STATUS_END_OF_FILE: return "no wanted record is left in that direction";
    case EVENTLOG_STATUS_BUFFER_TOO_SMALL: return "the next wanted record is longer than the size asked";
    case EVENTLOG_STATUS_EVENTLOG_FILE_CORRUPT: return "a record that is not good is met";
    default: return "no number that the library answers";
    }
}

#ifdef __cplusplus
}
#endif

#endif
