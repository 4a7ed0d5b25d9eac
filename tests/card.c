/* The memory card from C: the image of a log and back, what is refused, and which bytes are left alone. */
#include "eventlog.h"

#include <stdio.h>
#include <string.h>

static int failed;

static void check(int line, int holds, const char *fact)
{
    if (!holds) {
        printf("card.c:%d: not so: %s\n", line, fact);
        failed = 1;
    }
}

#define CHECK(fact) check(__LINE__, (fact), #fact)

enum { BLOCK = EVENTLOG_CARD_BLOCK, PAYLOAD = EVENTLOG_CARD_PAYLOAD, LEFT = 0xEE };

static uint8_t lent[(EVENTLOG_MAX_CARD_BLOCKS + 1) * BLOCK], image[sizeof lent], back[EVENTLOG_MAX_CARD_LOG + 1];

static int is(eventlog_written got, uint32_t refusal, size_t length)
{
    return got.refusal == refusal && got.length == length;
}

static int all(const uint8_t *bytes, size_t len, uint8_t value)
{
    for (size_t i = 0; i < len; i++)
        if (bytes[i] != value)
            return 0;
    return 1;
}

/* A log of this length is written and read back, and neither call writes past its end. */
static void carries(size_t len)
{
    size_t blocks = eventlog_card_blocks(len), whole = blocks * BLOCK;
    CHECK(blocks == (len == 0 ? 1 : (len + PAYLOAD - 1) / PAYLOAD));
    memset(image, LEFT, whole + 16);
    CHECK(is(eventlog_card_write(lent, len, image, whole - 1), EVENTLOG_REFUSED_OUTPUT, 0));
    CHECK(all(image, whole + 16, LEFT));
    CHECK(is(eventlog_card_write(lent, len, image, whole + 16), EVENTLOG_NOT_REFUSED, whole));
    CHECK(all(image + whole, 16, LEFT));
    for (size_t k = 0; k < blocks; k++)
        CHECK(eventlog_card_judge(image, whole, k) == 0);
    CHECK(eventlog_card_judge(image, whole, blocks) == EVENTLOG_REFUSED_CARD_LENGTH);
    memset(back, LEFT, len + 1);
    if (len > 0)
        CHECK(is(eventlog_card_read(image, whole, back, len - 1), EVENTLOG_REFUSED_OUTPUT, 0));
    CHECK(all(back, len, LEFT));
    CHECK(is(eventlog_card_read(image, whole, back, len + 1), EVENTLOG_NOT_REFUSED, len));
    CHECK(memcmp(back, lent, len) == 0 && back[len] == LEFT);
}

/* The refusal of the image with a byte changed, by the call and by the judge of that block. */
static uint32_t changed(size_t len, size_t at, uint8_t value)
{
    uint8_t old = image[at];
    image[at] = value;
    uint32_t refusal = eventlog_card_read(image, len, back, sizeof back).refusal;
    CHECK(refusal == eventlog_card_judge(image, len, at / BLOCK));
    image[at] = old;
    return refusal;
}

static void damage_is_refused(void)
{
    size_t whole = eventlog_card_write(lent, 1001, image, sizeof image).length;
    CHECK(whole == 3 * BLOCK);
    for (size_t at = 0; at < whole; at++)
        CHECK(changed(whole, at, (uint8_t)(image[at] + 1)) == EVENTLOG_REFUSED_BLOCK_CHECK);
    for (size_t len = 0; len < whole; len++) {
        uint32_t refusal = len > 0 && len % BLOCK == 0 ? EVENTLOG_REFUSED_BLOCK_MARK : EVENTLOG_REFUSED_CARD_LENGTH;
        CHECK(is(eventlog_card_read(image, len, back, sizeof back), refusal, 0));
    }
    uint8_t first[BLOCK];
    memcpy(first, image, BLOCK);
    memcpy(image, image + BLOCK, BLOCK);
    memcpy(image + BLOCK, first, BLOCK);
    CHECK(is(eventlog_card_read(image, whole, back, sizeof back), EVENTLOG_REFUSED_BLOCK_NUMBER, 0));
}

/* Writes the check of a block again, after a change. */
static void check_again(uint8_t *block)
{
    uint32_t low = 0, high = 0;
    for (uint32_t i = 0; i < 508; i++) {
        low += block[i];
        high += block[i] * (508 - i);
    }
    low %= 65521;
    high %= 65521;
    block[508] = (uint8_t)low;
    block[509] = (uint8_t)(low >> 8);
    block[510] = (uint8_t)high;
    block[511] = (uint8_t)(high >> 8);
}

/* A block of a right check, changed at one place. */
static uint32_t judged_with(size_t at, uint8_t value)
{
    memset(image, 0, BLOCK);
    eventlog_card_write(lent, 3, image, BLOCK);
    image[at] = value;
    check_again(image);
    return eventlog_card_judge(image, BLOCK, 0);
}

static void fields_are_refused(void)
{
    CHECK(judged_with(506, 1) == EVENTLOG_NOT_REFUSED);
    CHECK(judged_with(0, 1) == EVENTLOG_REFUSED_BLOCK_NUMBER);
    CHECK(judged_with(3, 1) == EVENTLOG_REFUSED_BLOCK_NUMBER);
    CHECK(judged_with(5, 2) == EVENTLOG_REFUSED_BLOCK_USED);
    CHECK(judged_with(9, 1) == EVENTLOG_REFUSED_BLOCK_USED);
    CHECK(judged_with(505, 1) == EVENTLOG_REFUSED_BLOCK_USED);
    CHECK(judged_with(506, 0) == EVENTLOG_REFUSED_BLOCK_MARK);
    CHECK(judged_with(506, 2) == EVENTLOG_REFUSED_BLOCK_MARK);
    CHECK(judged_with(507, 1) == EVENTLOG_REFUSED_BLOCK_MARK);
}

static void limits_are_refused(void)
{
    size_t over = EVENTLOG_MAX_CARD_LOG + 1, blocks = EVENTLOG_MAX_CARD_BLOCKS + 1;
    CHECK(eventlog_card_blocks(over) == blocks);
    CHECK(eventlog_card_blocks(SIZE_MAX) == SIZE_MAX / PAYLOAD + 1);
    CHECK(is(eventlog_card_write(lent, over, image, 0), EVENTLOG_REFUSED_CARD_LOG, 0));
    CHECK(is(eventlog_card_read(image, blocks * BLOCK, back, 0), EVENTLOG_REFUSED_CARD_LENGTH, 0));
    CHECK(eventlog_card_judge(image, blocks * BLOCK, 0) == EVENTLOG_REFUSED_CARD_LENGTH);
    CHECK(is(eventlog_card_read(NULL, 0, back, sizeof back), EVENTLOG_REFUSED_CARD_LENGTH, 0));
    CHECK(eventlog_card_judge(NULL, 0, 0) == EVENTLOG_REFUSED_CARD_LENGTH);
    CHECK(is(eventlog_card_write(NULL, 0, NULL, 0), EVENTLOG_REFUSED_OUTPUT, 0));
}

int main(void)
{
    static const size_t lengths[] = {0, 1, 499, 500, 501, 1000, 1001, EVENTLOG_MAX_CARD_LOG - 1, EVENTLOG_MAX_CARD_LOG};
    for (size_t i = 0; i < sizeof lent; i++)
        lent[i] = (uint8_t)(i * 7919 >> 5);
    for (size_t i = 0; i < sizeof lengths / sizeof *lengths; i++)
        carries(lengths[i]);
    damage_is_refused();
    fields_are_refused();
    limits_are_refused();
    puts(failed ? "card.c: failed" : "card.c: passed");
    return failed;
}
