/* The quote box for hosts in C and C++: libhost.a, written by `tests/archive`.
 *
 * The box has no memory of its own. A host lends each call what it works on:
 *
 *   list      the contract list, a file's bytes; the same at every call. It has one to three segments, letters D (currency), F (futures and
 *             options) and T (commodity), ascending.
 *   spreads   the spread list, a file's bytes; the same at every call. It names pairs of listed contracts, 0 to 1,024 a segment, and is
 *             laid out as the contract list, with QUOTEBOX_PAIR bytes for each key: the same segments in the same order, and the
 *             pairs of each strictly ascending. A host without spreads has quotebox_no_spreads write it.
 *   rows      the gap rows, QUOTEBOX_ROW_CELLS numbers for each listed segment, in list order.
 *   records   the records: QUOTEBOX_RECORD_CELLS numbers for each listed contract, in list order, and behind all of these
 *             QUOTEBOX_SPREAD_CELLS for each listed pair, in list order.
 *
 * quotebox_start fills rows and records; every later call is handed them as the last call left them. Any other contents
 * are refused or read as something, but never make a call read or write outside what is lent.
 *
 * Every function returns 0 where the call is accepted, and otherwise the number of the refusal. `answer`, four numbers that the
 * function always writes, then holds:
 *
 *   accepted   what the function says below, and 0 in the numbers that it doesn't name.
 *   refused    answer[0] the message, counted from 0 (0 where the refusal has none)
 *              answer[1] the row of the message's data, counted from 0 (QUOTEBOX_FIELD, QUOTEBOX_RANGE)
 *              answer[2] the cells wanted (QUOTEBOX_MEMORY)
 *              answer[3] the keys compared (quotebox_judge, quotebox_take; 0 of every other function)
 *
 * A refused call leaves everything lent as it was, `answer` apart. No call writes past its answer.
 *
 * A length counts elements, not bytes. Where it is 0 the pointer may be NULL; every other pointer points to as many
 * elements as are said, aligned for their type. What a call writes overlaps nothing else that it is handed. Calls
 * that share no memory which one of them writes may run at the same time. A call uses some 55 KB of stack at most.
 */
#ifndef QUOTEBOX_H
#define QUOTEBOX_H

#include <stddef.h>
#include <stdint.h>

#ifdef __cplusplus
extern "C" {
#endif

/* The cells of a segment's gap row: start, highest, number of runs, 0, then 64 runs of first and last. */
#define QUOTEBOX_ROW_CELLS 132

/* The cells of a contract's two records. */
#define QUOTEBOX_RECORD_CELLS 52

/* The cells of a pair's two records. */
#define QUOTEBOX_SPREAD_CELLS 38

/* The bytes of a contract's key: instrument 6, symbol 10, expiry 11, strike 10, option type 2. */
#define QUOTEBOX_KEY 39

/* The bytes of a pair: the first contract's key, then the second's. */
#define QUOTEBOX_PAIR 78

/* A segment has at most so many gaps; two cells each. */
#define QUOTEBOX_MOST_RUNS 64

/* What a value or a cell holds for "none", which is not 0. */
#define QUOTEBOX_NONE UINT64_MAX

/* Stands beside the amount in a price of a spread that is below zero; none is no such price. */
#define QUOTEBOX_MINUS (UINT64_C(1) << 63)

/* The refusals. */
enum {
    QUOTEBOX_SIZE = 1,       /* the batch is under 5 bytes, its size is over 32,767, or it is not size + 5 bytes long */
    QUOTEBOX_PACKED = 2,     /* its flag is 0: it is to be unpacked first */
    QUOTEBOX_FLAG = 3,       /* its flag is above 1 */
    QUOTEBOX_COUNT = 4,      /* it has no messages, or bytes after the last */
    QUOTEBOX_FRAME = 5,      /* message: under 8 bytes left, its length under 11 or over what is left */
    QUOTEBOX_CODE = 6,       /* message: of a segment that is not listed or not the first message's, or no letter A to Z stands second; where F
                                is listed the codes PN, PO and PC are F's, and every other code with P is no segment's;
                                of a call without a batch: the letter asked for is not listed, or the code is not one to be written */
    QUOTEBOX_TRAILER = 7,    /* message: its last byte is not 13 */
    QUOTEBOX_LENGTH = 8,     /* message: a known code with none of its lengths */
    QUOTEBOX_CHECKSUM = 9,   /* message: its checksum is not the true one; a heartbeat's is not zero; that of a market status, an end of feed
                                or an FZ is neither */
    QUOTEBOX_NUMBERING = 10, /* message: its sequence number is 0 where it may not be, or a heartbeat's is not 0;
                                at start: a listed segment's start number is 0 or missing */
    QUOTEBOX_FIELD = 11,     /* message, row: a number's text, market type, status or written key is malformed */
    QUOTEBOX_RANGE = 12,     /* message, row: a number is too large or too fine, or no text of the field's width holds it */
    QUOTEBOX_CONTRACT = 13,  /* message: its contract or pair is not listed; or the key or pair asked for is not */
    QUOTEBOX_GAPS = 14,      /* message: more than 64 gaps would stand in its segment */
    QUOTEBOX_MEMORY = 15,    /* cells wanted: too few are lent. First the gap rows, then the records, then the call's own */
    QUOTEBOX_LIST = 16,      /* the contract list is malformed, or the spread list, which is looked at second: also where half a pair is not
                                listed for its segment. After start only contents, counts, offsets and size are looked at */
    QUOTEBOX_NO_GAP = 17,    /* a write-off where the segment has no gap */
    QUOTEBOX_STATE = 18      /* a listed segment's gap row is handed back with start 0, highest under start - 1, over 64 runs, or runs
                                that are not ascending, touch, or lie outside start to highest */
};

/* Writes the spread list without pairs for a contract list: what a host without spreads hands to every other call. With it a batch
 * that has a message of a spread is refused (QUOTEBOX_CONTRACT), as any batch is that has an update of what is not listed.
 * out: written where it is accepted; 10 bytes for one segment, 18 for two, 26 for three.
 * Accepted: its length.
 * Refused: QUOTEBOX_LIST (only contents, counts, offsets and size are looked at), QUOTEBOX_MEMORY (the bytes of out), in this order. */
uint32_t quotebox_no_spreads(const uint8_t *list, size_t list_length, uint8_t *out, size_t out_length, uint64_t answer[4]);

/* Starts the box: each listed segment, in list order, at its start number, 1 or more. Every gap row and record is cleared.
 * starts: one number for each listed segment; those beyond are not looked at.
 * rows, records: written. With too few of either lent the answer says how many are wanted, so a host may ask first.
 * Refused: QUOTEBOX_LIST (first for list, then for spreads), QUOTEBOX_NUMBERING, QUOTEBOX_MEMORY (first for rows, then for
 * records), in this order. */
uint32_t quotebox_start(const uint8_t *list, size_t list_length, const uint8_t *spreads, size_t spreads_length, const uint32_t *starts,
                        size_t starts_length, uint32_t *rows, size_t rows_length, uint64_t *records, size_t records_length,
                        uint64_t answer[4]);

/* Every call below but the writers first refuses QUOTEBOX_LIST (for list, then for spreads), QUOTEBOX_MEMORY (for rows, then for
 * records) and QUOTEBOX_STATE, in this order; what it says under "Refused" comes after these. */

/* What finding a batch's contracts and spreads costs stands in answer[3] of the next two, accepted or refused: the keys compared, over all
 * lookups of the batch. Each update is looked up once, old ones too, when its rows have passed: a contract's among its segment's contracts, a
 * spread's among its segment's pairs. Of n keys left the one with (n - 1) / 2 below it, rounded down, is compared; a match ends the lookup, and
 * else it goes on in the half where the key belongs. So a lookup compares at most as many keys as its segment's number of them has binary
 * digits: 13 among 4,096 contracts, 11 among 1,024 pairs, 0 where there are none. Heartbeats and messages that are passed over have no lookup,
 * and among the latter are updates of F whose market type is another than N.
 * Refused, it is the lookups until then: with the refused message's own for QUOTEBOX_CONTRACT and QUOTEBOX_GAPS, all of them where bytes are
 * left over after the last message (QUOTEBOX_COUNT), and 0 where the batch is refused before its first message. */

/* Judges an unpacked batch and changes nothing: returns and answers what quotebox_take would.
 * Accepted: messages taken, messages old, heartbeats, keys compared.
 * Refused: QUOTEBOX_SIZE to QUOTEBOX_GAPS. */
uint32_t quotebox_judge(const uint8_t *list, size_t list_length, const uint8_t *spreads, size_t spreads_length, const uint32_t *rows,
                        size_t rows_length, const uint64_t *records, size_t records_length, const uint8_t *batch,
                        size_t batch_length, uint64_t answer[4]);

/* Takes an unpacked batch whole, or refuses it and changes nothing.
 * rows, records: written where it is accepted.
 * Accepted: messages taken, messages old, heartbeats, keys compared.
 * Refused: QUOTEBOX_SIZE to QUOTEBOX_GAPS. */
uint32_t quotebox_take(const uint8_t *list, size_t list_length, const uint8_t *spreads, size_t spreads_length, uint32_t *rows,
                       size_t rows_length, uint64_t *records, size_t records_length, const uint8_t *batch, size_t batch_length,
                       uint64_t answer[4]);

/* Lists the gaps of the segment of a letter: puts first and last missing number of each run into cells, ascending.
 * cells: written, two for each run; 2 * QUOTEBOX_MOST_RUNS are always enough.
 * Accepted: the highest number, the number of runs.
 * Refused: QUOTEBOX_CODE (the letter is not listed), QUOTEBOX_MEMORY (cells). */
uint32_t quotebox_list_gaps(const uint8_t *list, size_t list_length, const uint8_t *spreads, size_t spreads_length,
                            const uint32_t *rows, size_t rows_length, const uint64_t *records, size_t records_length,
                            uint8_t letter, uint32_t *cells, size_t cells_length, uint64_t answer[4]);

/* Writes off the lowest run of gaps of the segment of a letter: its numbers are no longer missing, and old if they arrive.
 * rows: written where it is accepted.
 * Accepted: first and last number of the run.
 * Refused: QUOTEBOX_CODE (the letter is not listed), QUOTEBOX_NO_GAP. */
uint32_t quotebox_write_off(const uint8_t *list, size_t list_length, const uint8_t *spreads, size_t spreads_length, uint32_t *rows,
                            size_t rows_length, const uint64_t *records, size_t records_length, uint8_t letter, uint64_t answer[4]);

/* The values of an update of a contract: its sequence number, its session, then one value a row from the market type on, QUOTEBOX_NONE for
 * none. A price counts ten-millionths, a quantity contracts or units, turnover hundredths; market type and status are a character, and a
 * number above 255 in their place is taken as 0. The time stamp counts seconds from the beginning of 1970; D and T send none, so that theirs is
 * always QUOTEBOX_NONE. */
#define QUOTEBOX_VALUES 35

/* The sessions. An update of F is of the one that its code says, FN or PN; D and T know the normal market alone. */
enum {
    QUOTEBOX_NORMAL = 0,
    QUOTEBOX_PRE_OPEN = 1
};

/* Where each value stands: at level 1, the first 17 alone, */
enum {
    QUOTEBOX_NUMBER = 0,
    QUOTEBOX_SESSION = 1,
    QUOTEBOX_MARKET_TYPE = 2,
    QUOTEBOX_TIME_STAMP = 3,
    QUOTEBOX1_BUY_PRICE = 4,
    QUOTEBOX1_BUY_QUANTITY = 5,
    QUOTEBOX1_SELL_PRICE = 6,
    QUOTEBOX1_SELL_QUANTITY = 7,
    QUOTEBOX1_LAST_PRICE = 8,
    QUOTEBOX1_TRADED_QUANTITY = 9,
    QUOTEBOX1_STATUS = 10,
    QUOTEBOX1_OPENING = 11,
    QUOTEBOX1_HIGH = 12,
    QUOTEBOX1_LOW = 13,
    QUOTEBOX1_CLOSE = 14,
    QUOTEBOX1_AVERAGE = 15,
    QUOTEBOX1_TURNOVER = 16
};

/* and at level 2, where the best of a side is level 0 and the fifth level 4. */
enum {
    QUOTEBOX2_BUY = 4,   /* QUOTEBOX2_BUY + 2 * level: its price; one behind: its quantity */
    QUOTEBOX2_SELL = 14, /* the same for the sellers */
    QUOTEBOX2_LAST_PRICE = 24,
    QUOTEBOX2_TRADED_QUANTITY = 25,
    QUOTEBOX2_STATUS = 26,
    QUOTEBOX2_OPENING = 27,
    QUOTEBOX2_HIGH = 28,
    QUOTEBOX2_LOW = 29,
    QUOTEBOX2_CLOSE = 30,
    QUOTEBOX2_AVERAGE = 31,
    QUOTEBOX2_ALL_BUYERS = 32,
    QUOTEBOX2_ALL_SELLERS = 33,
    QUOTEBOX2_TURNOVER = 34
};

/* The values of a spread's update: its sequence number, then one value a row behind the pair's two keys, QUOTEBOX_NONE for none. Every
 * price is a difference of prices and counts ten-millionths: one below zero is its amount with QUOTEBOX_MINUS beside it. Quantities
 * have no minus. At level 1 the first 10 alone, */
enum {
    QUOTEBOX_SPREAD1_BUY_PRICE = 1,
    QUOTEBOX_SPREAD1_BUY_QUANTITY = 2,
    QUOTEBOX_SPREAD1_SELL_PRICE = 3,
    QUOTEBOX_SPREAD1_SELL_QUANTITY = 4,
    QUOTEBOX_SPREAD1_LAST_PRICE = 5,
    QUOTEBOX_SPREAD1_TRADED_QUANTITY = 6,
    QUOTEBOX_SPREAD1_OPENING = 7,
    QUOTEBOX_SPREAD1_HIGH = 8,
    QUOTEBOX_SPREAD1_LOW = 9
};

/* and at level 2 the first 28, where the best of a side is level 0 and the fifth level 4. */
enum {
    QUOTEBOX_SPREAD2_BUY = 1,   /* QUOTEBOX_SPREAD2_BUY + 2 * level: its price; one behind: its quantity */
    QUOTEBOX_SPREAD2_SELL = 11, /* the same for the sellers */
    QUOTEBOX_SPREAD2_LAST_PRICE = 21,
    QUOTEBOX_SPREAD2_TRADED_QUANTITY = 22,
    QUOTEBOX_SPREAD2_OPENING = 23,
    QUOTEBOX_SPREAD2_HIGH = 24,
    QUOTEBOX_SPREAD2_LOW = 25,
    QUOTEBOX_SPREAD2_ALL_BUYERS = 26,
    QUOTEBOX_SPREAD2_ALL_SELLERS = 27
};

/* Reads a contract's record of level 1 or 2: the highest-numbered update taken, in F of both sessions' that of the one which has it.
 * letter: the segment's, D, F or T; P is none.
 * key: QUOTEBOX_KEY bytes.
 * values: written where there is a record, the first 17 at level 1 and all 35 at level 2.
 * Accepted: 1 where there is a record, 0 where no update was taken.
 * Refused: QUOTEBOX_CODE (the letter is not listed), QUOTEBOX_CONTRACT (the key is not). */
uint32_t quotebox_read_level1(const uint8_t *list, size_t list_length, const uint8_t *spreads, size_t spreads_length,
                              const uint32_t *rows, size_t rows_length, const uint64_t *records, size_t records_length,
                              uint8_t letter, const uint8_t key[QUOTEBOX_KEY], uint64_t values[QUOTEBOX_VALUES], uint64_t answer[4]);

uint32_t quotebox_read_level2(const uint8_t *list, size_t list_length, const uint8_t *spreads, size_t spreads_length,
                              const uint32_t *rows, size_t rows_length, const uint64_t *records, size_t records_length,
                              uint8_t letter, const uint8_t key[QUOTEBOX_KEY], uint64_t values[QUOTEBOX_VALUES], uint64_t answer[4]);

/* Reads a pair's record of level 1 or 2: the highest-numbered update of the pair taken. A pair of F never has one, since F's messages of pairs
 * are passed over.
 * pair: QUOTEBOX_PAIR bytes.
 * values: written where there is a record, the first 10 at level 1 and the first 28 at level 2.
 * Accepted: 1 where there is a record, 0 where no update was taken.
 * Refused: QUOTEBOX_CODE (the letter is not listed), QUOTEBOX_CONTRACT (the pair is not). */
uint32_t quotebox_read_spread1(const uint8_t *list, size_t list_length, const uint8_t *spreads, size_t spreads_length,
                               const uint32_t *rows, size_t rows_length, const uint64_t *records, size_t records_length,
                               uint8_t letter, const uint8_t pair[QUOTEBOX_PAIR], uint64_t values[QUOTEBOX_VALUES], uint64_t answer[4]);

uint32_t quotebox_read_spread2(const uint8_t *list, size_t list_length, const uint8_t *spreads, size_t spreads_length,
                               const uint32_t *rows, size_t rows_length, const uint64_t *records, size_t records_length,
                               uint8_t letter, const uint8_t pair[QUOTEBOX_PAIR], uint64_t values[QUOTEBOX_VALUES], uint64_t answer[4]);

/* Writes a message for a test bench, an update of level 1 or 2 or a heartbeat, into out, from its first byte on.
 * code: "DN", "TN", "FN" or "PN" for an update, "DH", "TH" or "FH" for a heartbeat.
 * number: the sequence number, 1 or more; of a heartbeat 0.
 * key, values: as quotebox_read_level1 and 2 have them. values[QUOTEBOX_NUMBER] and values[QUOTEBOX_SESSION] change nothing, nor does
 * values[QUOTEBOX_TIME_STAMP] for D and T, and for a heartbeat no byte of key and values does, but both point to their memory all the same.
 * The market type is 'N'; for F it may be 'O', 'S' or 'A' too, and then no box keeps the update.
 * out: written where it is accepted, one byte for each of the message's: 249 at level 1 and 505 at level 2, for F 204 and 404; 505 are always
 * enough.
 * Accepted: the message's length.
 * Refused: QUOTEBOX_CODE, QUOTEBOX_NUMBERING, QUOTEBOX_FIELD and QUOTEBOX_RANGE by row, QUOTEBOX_MEMORY (the bytes of out), in this order.
 * A price of F has 10 characters, so that one from 10,000,000,000 on, or with more digits than fit behind its point, is QUOTEBOX_RANGE; so is a
 * time stamp of 12 digits. Rows count from 0 with the key's five first, so the market type is row 5; behind it values[i] is row i + 3 for F,
 * and row i + 2 for D and T, which have no row for the time stamp. */
uint32_t quotebox_write_level1(const uint8_t code[2], uint32_t number, const uint8_t key[QUOTEBOX_KEY],
                               const uint64_t values[QUOTEBOX_VALUES], uint8_t *out, size_t out_length, uint64_t answer[4]);

uint32_t quotebox_write_level2(const uint8_t code[2], uint32_t number, const uint8_t key[QUOTEBOX_KEY],
                               const uint64_t values[QUOTEBOX_VALUES], uint8_t *out, size_t out_length, uint64_t answer[4]);

/* Writes an update of a spread for a test bench, of level 1 or 2, into out, from its first byte on.
 * code: "DP" or "TP".
 * number: the sequence number, 1 or more.
 * pair, values: as quotebox_read_spread1 and 2 have them. values[QUOTEBOX_NUMBER] changes nothing; QUOTEBOX_MINUS beside 0 is 0.
 * out: written where it is accepted, one byte for each of the message's: 227 at level 1, 483 at level 2.
 * Accepted: the message's length.
 * Refused: QUOTEBOX_CODE, QUOTEBOX_NUMBERING, QUOTEBOX_FIELD (a byte of the pair, at its row 0 to 9) and QUOTEBOX_RANGE by row,
 * QUOTEBOX_MEMORY (the bytes of out), in this order. Rows count from 0 with the keys' ten first, so values[i] is row i + 9. */
uint32_t quotebox_write_spread1(const uint8_t code[2], uint32_t number, const uint8_t pair[QUOTEBOX_PAIR],
                                const uint64_t values[QUOTEBOX_VALUES], uint8_t *out, size_t out_length, uint64_t answer[4]);

uint32_t quotebox_write_spread2(const uint8_t code[2], uint32_t number, const uint8_t pair[QUOTEBOX_PAIR],
                                const uint64_t values[QUOTEBOX_VALUES], uint8_t *out, size_t out_length, uint64_t answer[4]);

#ifdef __cplusplus
}
#endif

#endif
