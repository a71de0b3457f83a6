/* loughcable.h: the RLP library for C. Link crates/loughcable/out/libloughcable.a, which `rt lib` in crates/loughcable proves and makes (x86-64
 * code for Linux).
 *
 * Every call ends with its stated answer or with a refusal's number, on every input. A refusal changes no byte and no state.
 * A pointer and a length name a lent slice: so many valid bytes (or numbers), which the library does not keep after the call. A slice that a
 * call writes to must not overlap the call's other slices. A slice of no bytes, or of no numbers, may have any pointer that is not NULL.
 * Answers come by value. `refusal` is 0 where the call is accepted; else it is one of the numbers below, and every other field is 0 (but the
 * place in a loughcable_found, which is the one handed in).
 *
 * What each call does is said in docs/RULES.md, and that it does so is proved. This header and the program's compiler and linker are trusted.
 * "(12, 13)" behind a call are the refusals that it gives. Where several hold, the rules say which one is given; for the strict check, the
 * stream and the amender it is the first of those in the brackets.
 */
#ifndef LOUGHCABLE_H
#define LOUGHCABLE_H

#include <stddef.h>
#include <stdint.h>

#ifdef __cplusplus
extern "C" {
#endif

/* The first nine arise in reading; their names are those of the Rust crate rlp 0.6.1. */
enum loughcable_refusal {
    LOUGHCABLE_ACCEPTED = 0,
    LOUGHCABLE_RLP_IS_TOO_SHORT = 1,                 /* the bytes end before the item does; or the list has no such item */
    LOUGHCABLE_RLP_DATA_LEN_WITH_ZERO_PREFIX = 2,    /* a length begins with a zero byte */
    LOUGHCABLE_RLP_INVALID_INDIRECTION = 3,          /* a length, a byte or a number is written longer than it need be */
    LOUGHCABLE_RLP_IS_TOO_BIG = 4,                   /* a number or a length has more bytes than its type */
    LOUGHCABLE_RLP_INCONSISTENT_LENGTH_AND_DATA = 5, /* a string's stated length passes the bytes that are there */
    LOUGHCABLE_RLP_INVALID_LENGTH = 6,               /* a string's end would lie past every address */
    LOUGHCABLE_RLP_EXPECTED_TO_BE_DATA = 7,          /* a list stands where a string or a number was asked for */
    LOUGHCABLE_RLP_EXPECTED_TO_BE_LIST = 8,          /* no list stands where a list was asked for */
    LOUGHCABLE_INVALID_BOOLEAN = 9,                  /* a truth is neither 0 nor 1 */
    LOUGHCABLE_TRAILING_BYTES = 10,                  /* bytes follow after the sheet */
    LOUGHCABLE_TOO_DEEP = 11,                        /* lists lie in one another deeper than LOUGHCABLE_LEVELS */
    LOUGHCABLE_TOO_LARGE = 12,                       /* a lent slice has more bytes than LOUGHCABLE_LIMIT */
    LOUGHCABLE_NO_ROOM = 13,                         /* the buffer has no room for what is to be written */
    LOUGHCABLE_TOO_MANY_ITEMS = 14,                  /* the open list does not take so many items */
    LOUGHCABLE_NO_OPEN_LIST = 15,                    /* there is no open list to finish */
    LOUGHCABLE_LIST_TYPE_MISMATCH = 16,              /* the innermost open list is counted, and closes by itself */
    LOUGHCABLE_UNFINISHED = 17,                      /* a list is still open */
    LOUGHCABLE_COUNT_MISMATCH = 18,                  /* raw bytes do not hold the stated number of items */
    LOUGHCABLE_NO_SUCH_ITEM = 19,                    /* the path names no item of the sheet */
    LOUGHCABLE_STATE_MISMATCH = 20                   /* the stream's state does not match its buffer */
};

/* The longest slice of bytes, and the most levels of lists in a strict sheet. Reading calls have no such limits. */
#define LOUGHCABLE_LIMIT 1048576
#define LOUGHCABLE_LEVELS 16

/* A number: a value, a count, a length; 1 for yes and 0 for no. */
typedef struct { uint32_t refusal; uint64_t value; } loughcable_answer;
/* An item's header and value lengths. */
typedef struct { uint32_t refusal; size_t header_len; size_t value_len; } loughcable_info;
/* A part of the bytes that were lent: len bytes from bytes + start on. */
typedef struct { uint32_t refusal; size_t start; size_t len; } loughcable_place;
/* The same, with the place to hand in next time. On a refusal index and offset are those handed in. */
typedef struct { uint32_t refusal; size_t start; size_t len; size_t index; size_t offset; } loughcable_found;
/* What an item is: kind 0 null, 1 data of count bytes, 2 a list of count items. */
typedef struct { uint32_t refusal; uint32_t kind; size_t count; } loughcable_prototype;
/* How many items, itself included, and how many levels. */
typedef struct { uint32_t refusal; size_t items; size_t depth; } loughcable_tally;

/* ---- Reading, as the crate rlp reads: the item at the front of the bytes. What follows it is not looked at. ---- */

/* The number that a header's length bytes hold, at most 8. (4, 1 if there are none, 3) */
loughcable_answer loughcable_decode_usize(const uint8_t *bytes, size_t len);
/* What the header says; whether the value is there is not looked at. (1, 2, 3) */
loughcable_info loughcable_payload_info_from(const uint8_t *bytes, size_t len);
/* The same, and 1 too if the item passes the bytes. (1, 2, 3) */
loughcable_info loughcable_payload_info(const uint8_t *bytes, size_t len);
/* The sum of the two. (1 if it overflows) */
loughcable_answer loughcable_payload_info_total(size_t header_len, size_t value_len);
/* Where a string's bytes lie. (1 if there are no bytes, 5, 3, 6, 7) */
loughcable_place loughcable_value(const uint8_t *bytes, size_t len);
/* Where a string's bytes or a list's items lie. (as loughcable_payload_info) */
loughcable_place loughcable_data(const uint8_t *bytes, size_t len);
/* A number, from its shortest big-endian bytes alone. (as loughcable_value; then 4 if it has more bytes than the type, 3 if it begins with 0) */
loughcable_answer loughcable_u8(const uint8_t *bytes, size_t len);
loughcable_answer loughcable_u16(const uint8_t *bytes, size_t len);
loughcable_answer loughcable_u32(const uint8_t *bytes, size_t len);
loughcable_answer loughcable_u64(const uint8_t *bytes, size_t len);
/* A truth, 1 or 0. (as loughcable_u8; then 9) */
loughcable_answer loughcable_bool(const uint8_t *bytes, size_t len);
/* By the first bytes, 1 for yes and 0 for no. null: there are no bytes. empty: 80 or c0. list, data: by the first byte.
 * int: data whose first byte of value is there and not 0; yes too for 80 and 00. */
uint32_t loughcable_is_null(const uint8_t *bytes, size_t len);
uint32_t loughcable_is_empty(const uint8_t *bytes, size_t len);
uint32_t loughcable_is_list(const uint8_t *bytes, size_t len);
uint32_t loughcable_is_data(const uint8_t *bytes, size_t len);
uint32_t loughcable_is_int(const uint8_t *bytes, size_t len);
/* How many bytes data has; 0 for a list, for damaged data and for no bytes. */
size_t loughcable_size(const uint8_t *bytes, size_t len);
/* What the item is. Damaged data is data of 0 bytes. (for a list, as loughcable_item_count) */
loughcable_prototype loughcable_prototype_of(const uint8_t *bytes, size_t len);
/* How many items a list has, each of them whole. (8, then the list's refusal by loughcable_payload_info, then the first damaged item's) */
loughcable_answer loughcable_item_count(const uint8_t *bytes, size_t len);
/* Where item `index` of a list lies, header and value. (as loughcable_item_count, of the items up to this one; 1 past the last) */
loughcable_place loughcable_at(const uint8_t *bytes, size_t len, size_t index);
/* The same from a known place on: the item `cached_index` starts at `cached_offset`. Hand in what the last call over the same bytes gave back,
 * the first time what loughcable_at gave: its index and start. A place behind `index` is not used. (as loughcable_at; 1 too for an offset
 * outside the list's payload) */
loughcable_found loughcable_at_with_cache(const uint8_t *bytes, size_t len, size_t cached_index, size_t cached_offset, size_t index);
/* Where the payload of a list lies: its items, one after the other. (8, then the list's refusal by loughcable_payload_info) */
loughcable_place loughcable_payload(const uint8_t *bytes, size_t len);
/* Where the item lies that starts at `from` and is bounded by `end`: the step of a walk. Begin where loughcable_payload starts, go on where
 * each item ends, and stop where the payload ends. (1 for an offset or a bound outside, and where nothing is left; then the item's refusal by
 * loughcable_payload_info) */
loughcable_place loughcable_item_within(const uint8_t *bytes, size_t len, size_t from, size_t end);

/* ---- The strict check. ---- */

/* Whether the bytes are one sheet: the encoding of an item tree, and nothing behind it. Answers all its items, itself included, and its levels.
 * (12; 1, 2, 3, 11 at the first item that has one, depth first; 10) */
loughcable_tally loughcable_check(const uint8_t *bytes, size_t len);
/* Whether they are such items in a row, as in a list's payload. Answers how many are in the row, and the levels of the deepest; no bytes are
 * none. (12; 1, 2, 3, 11) */
loughcable_tally loughcable_check_items(const uint8_t *bytes, size_t len);

/* ---- One encoding at the front of a buffer; the answer is its length, and the bytes behind it are kept. (12, 13) ---- */

loughcable_answer loughcable_encode_bytes(uint8_t *buf, size_t buf_len, const uint8_t *src, size_t src_len);
loughcable_answer loughcable_encode_u8(uint8_t *buf, size_t buf_len, uint8_t n);
loughcable_answer loughcable_encode_u16(uint8_t *buf, size_t buf_len, uint16_t n);
loughcable_answer loughcable_encode_u32(uint8_t *buf, size_t buf_len, uint32_t n);
loughcable_answer loughcable_encode_u64(uint8_t *buf, size_t buf_len, uint64_t n);
/* 0 is false, any other number true. */
loughcable_answer loughcable_encode_bool(uint8_t *buf, size_t buf_len, uint32_t truth);
loughcable_answer loughcable_encode_empty_data(uint8_t *buf, size_t buf_len);
loughcable_answer loughcable_encode_empty_list(uint8_t *buf, size_t buf_len);

/* ---- The stream. Its state is LOUGHCABLE_STATE numbers: start, end, open lists, then 16 positions, 16 currents, 16 maxima.
 * Hand in the same buffer with the state that the last call left. The state is tested on every call: another length, or numbers that do not
 * match the buffer, is 20. Every call but loughcable_stream_new gives 12 first, for the buffer and for `src`, then 20, then its own. An accepted
 * call answers 1 if nothing else is said. 13 is given exactly when the end after the call, with the headers of every list that it closes, passes
 * the buffer. ---- */
#define LOUGHCABLE_STATE 51

/* A stream that writes from the buffer's byte `start` on; the bytes before it are kept. (20 if state_len is not LOUGHCABLE_STATE) */
loughcable_answer loughcable_stream_new(uint32_t *state, size_t state_len, uint32_t start);
/* The same with a list begun, as by loughcable_stream_begin_list. (13) */
loughcable_answer loughcable_stream_new_list(uint32_t *state, size_t state_len, uint8_t *buf, size_t buf_len, uint32_t start, uint32_t most);
/* Appends a string. (13) */
loughcable_answer loughcable_stream_append(uint32_t *state, size_t state_len, uint8_t *buf, size_t buf_len, const uint8_t *src, size_t src_len);
/* Appends the empty string. (13) */
loughcable_answer loughcable_stream_append_empty_data(uint32_t *state, size_t state_len, uint8_t *buf, size_t buf_len);
/* Appends a number as its shortest big-endian string; zero is the empty one. (13) */
loughcable_answer loughcable_stream_append_u8(uint32_t *state, size_t state_len, uint8_t *buf, size_t buf_len, uint8_t n);
loughcable_answer loughcable_stream_append_u16(uint32_t *state, size_t state_len, uint8_t *buf, size_t buf_len, uint16_t n);
loughcable_answer loughcable_stream_append_u32(uint32_t *state, size_t state_len, uint8_t *buf, size_t buf_len, uint32_t n);
loughcable_answer loughcable_stream_append_u64(uint32_t *state, size_t state_len, uint8_t *buf, size_t buf_len, uint64_t n);
/* Appends a truth: 80 for 0, 01 for any other number. (13) */
loughcable_answer loughcable_stream_append_bool(uint32_t *state, size_t state_len, uint8_t *buf, size_t buf_len, uint32_t truth);
/* Appends items that are encoded already, exactly so many. (what loughcable_check_items refuses; 18, 14, 11, 13) */
loughcable_answer loughcable_stream_append_raw(uint32_t *state, size_t state_len, uint8_t *buf, size_t buf_len, const uint8_t *src, size_t src_len, size_t items);
/* The same, unless the size that loughcable_stream_estimate_size gives for src_len passes `most`: then the answer is 0 and nothing changes. */
loughcable_answer loughcable_stream_append_raw_checked(uint32_t *state, size_t state_len, uint8_t *buf, size_t buf_len, const uint8_t *src, size_t src_len, size_t items, size_t most);
/* Begins a list of so many items, which closes by itself with the last; its parent then counts one, and may close too. Of 0 items it is written
 * at once. (11, 13) */
loughcable_answer loughcable_stream_begin_list(uint32_t *state, size_t state_len, uint8_t *buf, size_t buf_len, uint32_t most);
/* Begins a list of any number of items. (11, 13) */
loughcable_answer loughcable_stream_begin_unbounded_list(uint32_t *state, size_t state_len, uint8_t *buf, size_t buf_len);
/* Finishes the innermost list, begun by the call before. (15, 16, 13) */
loughcable_answer loughcable_stream_finalize_unbounded_list(uint32_t *state, size_t state_len, uint8_t *buf, size_t buf_len);
/* Goes back to the start with no open list; no byte changes. */
loughcable_answer loughcable_stream_clear(uint32_t *state, size_t state_len, const uint8_t *buf, size_t buf_len);
/* Whether no list is open: 1 or 0. */
loughcable_answer loughcable_stream_is_finished(const uint32_t *state, size_t state_len, const uint8_t *buf, size_t buf_len);
/* Whether nothing is written: 1 or 0. */
loughcable_answer loughcable_stream_is_empty(const uint32_t *state, size_t state_len, const uint8_t *buf, size_t buf_len);
/* The bytes written since the start and, for each open list with more than 55 bytes in it, those that its length takes. */
loughcable_answer loughcable_stream_len(const uint32_t *state, size_t state_len, const uint8_t *buf, size_t buf_len);
/* The same with n bytes more. (12 for n over LOUGHCABLE_LIMIT too) */
loughcable_answer loughcable_stream_estimate_size(const uint32_t *state, size_t state_len, const uint8_t *buf, size_t buf_len, size_t n);
/* How many bytes of the buffer, from its first on, are written. An open list's reserved byte is 0. */
loughcable_answer loughcable_stream_as_raw(const uint32_t *state, size_t state_len, const uint8_t *buf, size_t buf_len);
/* The same, once no list is open. (17) */
loughcable_answer loughcable_stream_out(const uint32_t *state, size_t state_len, const uint8_t *buf, size_t buf_len);

/* ---- Amending in place. ---- */

/* The item at the path gives way to the replacement, in the sheet that is the buffer's first n bytes. The path is the item's index in each list
 * on the way to it; the empty one names the whole sheet, and needs a pointer that is not NULL too. The answer m is the new length: the first m
 * bytes are the new sheet, bytes m to n are 0 if it became shorter, and the bytes behind are kept. (12 for buffer or replacement, 1 if n passes
 * the buffer, what loughcable_check refuses of the sheet, then of the replacement, 19, 11, 13) */
loughcable_answer loughcable_amend(uint8_t *buf, size_t buf_len, size_t n, const size_t *path, size_t path_len, const uint8_t *replacement, size_t replacement_len);

#ifdef __cplusplus
}
#endif
#endif
