/* example.c: the library used from C. Checks and reads a day sheet, writes the same sheet by a stream, corrects one reading in place, and then
 * exchanges the whole.
 *
 * Each result is compared with what it must be; at the first that is otherwise the program says which, and ends with status 1.
 */
#include "loughcable.h"

#include <inttypes.h>
#include <stdio.h>
#include <stdlib.h>
#include <string.h>

/* What the Rust crate asserts of the same structs. */
_Static_assert(sizeof(loughcable_answer) == 16 && sizeof(loughcable_info) == 24 && sizeof(loughcable_place) == 24, "sizes");
_Static_assert(sizeof(loughcable_found) == 40 && sizeof(loughcable_prototype) == 16 && sizeof(loughcable_tally) == 24, "sizes");

/* A reading: which tank, when (milliseconds since 1970), and the gravity. */
typedef struct { const char *tank; uint64_t time; uint16_t gravity; } reading;

static const reading readings[] = {{"T0001", 1794700800000, 1052}, {"T0002", 1794700860000, 1048}};
enum { READINGS = 2 };

/* The sheet of these readings, by hand: a list of 34 bytes, and in it two lists of 16. */
static const uint8_t sheet[] = {0xe2,
    0xd0, 0x85, 'T', '0', '0', '0', '1', 0x86, 0x01, 0xa1, 0xdc, 0x80, 0xf0, 0x00, 0x82, 0x04, 0x1c,
    0xd0, 0x85, 'T', '0', '0', '0', '2', 0x86, 0x01, 0xa1, 0xdc, 0x81, 0xda, 0x60, 0x82, 0x04, 0x18};

static void expect(int truth, const char *what)
{
    if (!truth) {
        printf("wrong: %s\n", what);
        exit(1);
    }
}

/* The value of an answer that must not be a refusal. */
static uint64_t got(loughcable_answer answer, const char *what)
{
    if (answer.refusal != LOUGHCABLE_ACCEPTED) {
        printf("wrong: %s was refused with %" PRIu32 "\n", what, answer.refusal);
        exit(1);
    }
    return answer.value;
}

/* One reading of the sheet: a list of a string and two numbers. */
static void read_reading(const uint8_t *bytes, size_t len, const reading *expected)
{
    loughcable_place tank = loughcable_at(bytes, len, 0), time = loughcable_at(bytes, len, 1), gravity = loughcable_at(bytes, len, 2);
    expect(!tank.refusal && !time.refusal && !gravity.refusal, "a reading has three items");
    loughcable_place name = loughcable_value(bytes + tank.start, tank.len);
    expect(!name.refusal && name.len == 5 && !memcmp(bytes + tank.start + name.start, expected->tank, 5), "the tank's name");
    uint64_t when = got(loughcable_u64(bytes + time.start, time.len), "the time");
    uint64_t weight = got(loughcable_u16(bytes + gravity.start, gravity.len), "the gravity");
    expect(when == expected->time && weight == expected->gravity, "time and gravity");
    printf("  tank %s at %" PRIu64 ": gravity %" PRIu64 "\n", expected->tank, when, weight);
}

/* The strict check first; then the readings, each from the place of the one before. */
static void read_sheet(void)
{
    loughcable_tally tally = loughcable_check(sheet, sizeof sheet);
    expect(!tally.refusal && tally.items == 9 && tally.depth == 2, "the sheet is strict");
    printf("a strict sheet of %zu items, %zu levels deep\n", tally.items, tally.depth);
    expect(got(loughcable_item_count(sheet, sizeof sheet), "the count") == READINGS, "two readings");
    loughcable_place first = loughcable_at(sheet, sizeof sheet, 0);
    expect(!first.refusal, "the first reading");
    loughcable_found at = {0, first.start, first.len, 0, first.start};
    for (size_t i = 0; i < READINGS; i++) {
        at = loughcable_at_with_cache(sheet, sizeof sheet, at.index, at.offset, i);
        expect(!at.refusal, "the next reading");
        read_reading(sheet + at.start, at.len, &readings[i]);
    }
    at = loughcable_at_with_cache(sheet, sizeof sheet, at.index, at.offset, READINGS);
    expect(at.refusal == LOUGHCABLE_RLP_IS_TOO_SHORT && at.index == READINGS - 1, "there is no third");
}

/* A cut sheet and one with a byte too many are refused. */
static void read_damage(void)
{
    uint8_t longer[sizeof sheet + 1] = {0};
    memcpy(longer, sheet, sizeof sheet);
    expect(loughcable_check(sheet, sizeof sheet - 1).refusal == LOUGHCABLE_RLP_IS_TOO_SHORT, "a cut sheet");
    expect(loughcable_check(longer, sizeof longer).refusal == LOUGHCABLE_TRAILING_BYTES, "a sheet with a byte behind it");
    printf("a cut sheet and one with a byte behind it are refused\n");
}

/* The same sheet, written into a buffer. Answers its length. */
static size_t write_sheet(uint8_t *buf, size_t room)
{
    uint32_t state[LOUGHCABLE_STATE];
    const size_t s = LOUGHCABLE_STATE;
    got(loughcable_stream_new_list(state, s, buf, room, 0, READINGS), "a new list");
    for (size_t i = 0; i < READINGS; i++) {
        const reading *it = &readings[i];
        got(loughcable_stream_begin_list(state, s, buf, room, 3), "a list");
        got(loughcable_stream_append(state, s, buf, room, (const uint8_t *)it->tank, strlen(it->tank)), "a string");
        expect(loughcable_stream_out(state, s, buf, room).refusal == LOUGHCABLE_UNFINISHED, "unfinished");
        got(loughcable_stream_append_u64(state, s, buf, room, it->time), "a u64");
        got(loughcable_stream_append_u16(state, s, buf, room, it->gravity), "a u16");
    }
    size_t len = (size_t)got(loughcable_stream_out(state, s, buf, room), "a finished stream");
    expect(len == sizeof sheet && !memcmp(buf, sheet, len), "the bytes written are the sheet");
    printf("the sheet written by a stream: %zu bytes, the same\n", len);
    return len;
}

/* The empty path names the whole sheet, which gives way to the number 84. A path of no indexes has a pointer too. */
static void amend_whole(uint8_t *buf, size_t room, size_t len, const uint8_t *replacement, size_t n)
{
    const size_t whole[] = {0};
    size_t m = (size_t)got(loughcable_amend(buf, room, len, whole, 0, replacement, n), "the amending of the whole");
    expect(m == 1 && buf[0] == 84 && buf[1] == 0 && buf[len - 1] == 0, "the number alone, and zeros up to the old end");
    printf("the whole sheet exchanged: %zu byte\n", m);
}

/* The second reading's gravity, item 2 of item 1, becomes 84, which takes two bytes less; the headers of both lists follow. */
static void amend_sheet(uint8_t *buf, size_t room, size_t len)
{
    const size_t gravity[] = {1, 2}, nowhere[] = {2, 2};
    uint8_t replacement[9];
    size_t n = (size_t)got(loughcable_encode_u16(replacement, sizeof replacement, 84), "an encoding");
    size_t m = (size_t)got(loughcable_amend(buf, room, len, gravity, 2, replacement, n), "the amending");
    uint8_t expected[sizeof sheet];
    memcpy(expected, sheet, sizeof sheet);
    expected[0] = 0xe0;
    expected[18] = 0xce;
    expected[32] = 84;
    expected[33] = expected[34] = 0;
    expect(m == 33 && !memcmp(buf, expected, sizeof expected), "the amended sheet, and zeros up to the old end");
    expect(loughcable_amend(buf, room, m, nowhere, 2, replacement, n).refusal == LOUGHCABLE_NO_SUCH_ITEM, "a third reading");
    loughcable_tally tally = loughcable_check(buf, m);
    expect(!tally.refusal && tally.items == 9 && tally.depth == 2, "the amended sheet is strict");
    printf("one reading corrected in place: %zu bytes\n", m);
    amend_whole(buf, room, m, replacement, n);
}

int main(void)
{
    uint8_t buf[64];
    memset(buf, 0xee, sizeof buf);
    read_sheet();
    read_damage();
    amend_sheet(buf, sizeof buf, write_sheet(buf, sizeof buf));
    expect(buf[35] == 0xee && buf[63] == 0xee, "the bytes behind are kept");
    printf("all as expected\n");
    return 0;
}
