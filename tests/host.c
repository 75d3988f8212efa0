/* Each function of the library from C: the number returned, the answer, and what is lent. Last line: 'N passed, M failed'. */
#include "quotebox.h"

#include <stdio.h>
#include <string.h>

#define LIST 88
#define SPREADS 88
#define LEVEL1 249
#define SPREAD1 227
#define SPREAD2 483
#define FRONT 5
#define CELLS (2 * QUOTEBOX_RECORD_CELLS + QUOTEBOX_SPREAD_CELLS)

static int passed, failed;

/* Two contracts of T, and the spread from the near one to the far one. */
static uint8_t list[LIST] = {0, 1, 'T', 0, 0, 2, 0, 0, 0, 10};
static uint8_t spreads[SPREADS] = {0, 1, 'T', 0, 0, 1, 0, 0, 0, 10};
static uint8_t key[QUOTEBOX_KEY], far_key[QUOTEBOX_KEY], pair[QUOTEBOX_PAIR];
static uint32_t rows[QUOTEBOX_ROW_CELLS];
static uint64_t records[CELLS];
static uint64_t answer[4];

#define LISTS list, LIST, spreads, SPREADS
#define BOX LISTS, rows, QUOTEBOX_ROW_CELLS, records, CELLS

static void held(const char *what, int holds) {
    if (holds) {
        passed++;
    } else {
        failed++;
        printf("failed: %s\n", what);
    }
}

/* The number that a call with a batch returned, and its answer, the keys compared last. */
static void judged(const char *what, uint32_t number, uint32_t wanted, uint64_t first, uint64_t second, uint64_t third, uint64_t compared) {
    held(what, number == wanted && answer[0] == first && answer[1] == second && answer[2] == third && answer[3] == compared);
    memset(answer, 0xee, sizeof answer);
}

/* The same of a call that compares none, or has no batch: the fourth is 0. */
static void told(const char *what, uint32_t number, uint32_t wanted, uint64_t first, uint64_t second, uint64_t third) {
    judged(what, number, wanted, first, second, third, 0);
}

static void no_spreads(void) {
    const uint8_t none[10] = {0, 1, 'T', 0, 0, 0, 0, 0, 0, 10};
    uint8_t out[11];
    memset(out, 0xee, sizeof out);
    told("no spreads: no list", quotebox_no_spreads(NULL, 0, out, 11, answer), QUOTEBOX_LIST, 0, 0, 0);
    told("no spreads: room", quotebox_no_spreads(list, LIST, out, 9, answer), QUOTEBOX_MEMORY, 0, 0, 10);
    held("no spreads: nothing written by a refusal", out[0] == 0xee);
    told("no spreads", quotebox_no_spreads(list, LIST, out, 11, answer), 0, 10, 0, 0);
    held("no spreads: its bytes", memcmp(out, none, 10) == 0 && out[10] == 0xee);
}

static void start(void) {
    const uint32_t starts[1] = {1};
    told("start: no list", quotebox_start(NULL, 0, NULL, 0, NULL, 0, NULL, 0, NULL, 0, answer), QUOTEBOX_LIST, 0, 0, 0);
    told("start: no spread list", quotebox_start(list, LIST, NULL, 0, NULL, 0, NULL, 0, NULL, 0, answer), QUOTEBOX_LIST, 0, 0, 0);
    spreads[SPREADS - 1] = 'Y';
    told("start: half a pair", quotebox_start(LISTS, NULL, 0, NULL, 0, NULL, 0, answer), QUOTEBOX_LIST, 0, 0, 0);
    spreads[SPREADS - 1] = 'X';
    told("start: no start number", quotebox_start(LISTS, NULL, 0, NULL, 0, NULL, 0, answer), QUOTEBOX_NUMBERING, 0, 0, 0);
    told("start: no rows", quotebox_start(LISTS, starts, 1, NULL, 0, NULL, 0, answer), QUOTEBOX_MEMORY, 0, 0, QUOTEBOX_ROW_CELLS);
    told("start: no records", quotebox_start(LISTS, starts, 1, rows, QUOTEBOX_ROW_CELLS, NULL, 0, answer), QUOTEBOX_MEMORY, 0, 0, CELLS);
    told("start: no spread's records",
         quotebox_start(LISTS, starts, 1, rows, QUOTEBOX_ROW_CELLS, records, 2 * QUOTEBOX_RECORD_CELLS, answer), QUOTEBOX_MEMORY, 0, 0, CELLS);
    told("judge: not started", quotebox_judge(BOX, NULL, 0, answer), QUOTEBOX_STATE, 0, 0, 0);
    told("start", quotebox_start(LISTS, starts, 1, rows, QUOTEBOX_ROW_CELLS, records, CELLS, answer), 0, 0, 0, 0);
    told("judge: no spread list", quotebox_judge(list, LIST, NULL, 0, NULL, 0, NULL, 0, NULL, 0, answer), QUOTEBOX_LIST, 0, 0, 0);
}

/* The most pairs that a segment may have, and one more: those of 33 contracts, in turn. */
static void most_pairs(void) {
    enum { CONTRACTS = 33, MOST = 1024 };
    static uint8_t many[10 + CONTRACTS * QUOTEBOX_KEY], pairs[10 + (MOST + 1) * QUOTEBOX_PAIR];
    const uint32_t starts[1] = {1};
    memcpy(many, list, 10);
    many[5] = CONTRACTS;
    for (int i = 0; i < CONTRACTS; i++) {
        uint8_t *at = many + 10 + i * QUOTEBOX_KEY;
        memcpy(at, key, QUOTEBOX_KEY);
        at[36] = (uint8_t)('0' + i);
    }
    for (size_t count = MOST; count <= MOST + 1; count++) {
        memcpy(pairs, spreads, 10);
        pairs[4] = (uint8_t)(count >> 8);
        pairs[5] = (uint8_t)count;
        for (size_t i = 0; i < count; i++) {
            memcpy(pairs + 10 + i * QUOTEBOX_PAIR, many + 10 + i / CONTRACTS * QUOTEBOX_KEY, QUOTEBOX_KEY);
            memcpy(pairs + 10 + i * QUOTEBOX_PAIR + QUOTEBOX_KEY, many + 10 + i % CONTRACTS * QUOTEBOX_KEY, QUOTEBOX_KEY);
        }
        uint32_t number = quotebox_start(many, sizeof many, pairs, 10 + count * QUOTEBOX_PAIR, starts, 1, rows, QUOTEBOX_ROW_CELLS, NULL, 0, answer);
        if (count == MOST) {
            told("start: 1,024 pairs", number, QUOTEBOX_MEMORY, 0, 0, CONTRACTS * QUOTEBOX_RECORD_CELLS + MOST * QUOTEBOX_SPREAD_CELLS);
        } else {
            told("start: 1,025 pairs", number, QUOTEBOX_LIST, 0, 0, 0);
        }
    }
}

/* A batch of one level 1 update with the number 4. */
static void write_update(uint8_t batch[FRONT + LEVEL1]) {
    const uint8_t *code = (const uint8_t *)"TN";
    const uint8_t front[FRONT] = {1, 0, LEVEL1, 0, 1};
    uint8_t *out = batch + FRONT;
    uint64_t values[QUOTEBOX_VALUES];
    for (int i = 0; i < QUOTEBOX_VALUES; i++) values[i] = QUOTEBOX_NONE;
    values[QUOTEBOX_MARKET_TYPE] = 'N';
    values[QUOTEBOX1_BUY_PRICE] = 1002500000;
    values[QUOTEBOX1_STATUS] = 'S';
    memcpy(batch, front, FRONT);
    out[0] = 0xee;
    told("write: code", quotebox_write_level1((const uint8_t *)"TE", 4, key, values, out, LEVEL1, answer), QUOTEBOX_CODE, 0, 0, 0);
    told("write: number", quotebox_write_level1(code, 0, key, values, out, LEVEL1, answer), QUOTEBOX_NUMBERING, 0, 0, 0);
    told("write: no status at level 2", quotebox_write_level2(code, 4, key, values, out, LEVEL1, answer), QUOTEBOX_FIELD, 0, 28, 0);
    values[QUOTEBOX1_SELL_PRICE] = QUOTEBOX_NONE - 1;
    told("write: price", quotebox_write_level1(code, 4, key, values, out, LEVEL1, answer), QUOTEBOX_RANGE, 0, QUOTEBOX1_SELL_PRICE + 2, 0);
    values[QUOTEBOX1_SELL_PRICE] = QUOTEBOX_NONE;
    told("write: room", quotebox_write_level1(code, 4, key, values, out, LEVEL1 - 1, answer), QUOTEBOX_MEMORY, 0, 0, LEVEL1);
    held("write: nothing written by a refusal", out[0] == 0xee);
    told("write", quotebox_write_level1(code, 4, key, values, out, LEVEL1, answer), 0, LEVEL1, 0, 0);
    held("write: its price", memcmp(out + 8 + QUOTEBOX_KEY + 1, "           100.25", 17) == 0);
}

static void take(uint8_t batch[FRONT + LEVEL1]) {
    const size_t length = FRONT + LEVEL1;
    told("judge: cut", quotebox_judge(BOX, batch, length - 1, answer), QUOTEBOX_SIZE, 0, 0, 0);
    batch[100] ^= 1;
    told("judge: damaged", quotebox_judge(BOX, batch, length, answer), QUOTEBOX_CHECKSUM, 0, 0, 0);
    batch[100] ^= 1;
    judged("judge", quotebox_judge(BOX, batch, length, answer), 0, 1, 0, 0, 1);
    judged("take", quotebox_take(BOX, batch, length, answer), 0, 1, 0, 0, 1);
    judged("take: old", quotebox_take(BOX, batch, length, answer), 0, 0, 1, 0, 1);
}

/* An old update of any contract, its rows blank: the near contract is compared first, and with what sorts behind it the far one too. */
static void look_up(const char *what, const uint8_t of[QUOTEBOX_KEY], uint32_t wanted, uint64_t old, uint64_t compared) {
    uint8_t batch[FRONT + LEVEL1] = {1, 0, LEVEL1, 0, 1};
    uint64_t values[QUOTEBOX_VALUES];
    for (int i = 0; i < QUOTEBOX_VALUES; i++) values[i] = QUOTEBOX_NONE;
    values[QUOTEBOX_MARKET_TYPE] = 'N';
    values[QUOTEBOX1_STATUS] = ' ';
    told("lookup: its message", quotebox_write_level1((const uint8_t *)"TN", 4, of, values, batch + FRONT, LEVEL1, answer), 0, LEVEL1, 0, 0);
    judged(what, quotebox_judge(BOX, batch, sizeof batch, answer), wanted, 0, old, 0, compared);
    judged(what, quotebox_take(BOX, batch, sizeof batch, answer), wanted, 0, old, 0, compared);
}

static void lookups(void) {
    uint8_t unlisted[QUOTEBOX_KEY];
    look_up("lookup: the near contract", key, 0, 1, 1);
    look_up("lookup: the far contract", far_key, 0, 1, 2);
    memcpy(unlisted, key, QUOTEBOX_KEY);
    unlisted[0] = 'A';
    look_up("lookup: before both", unlisted, QUOTEBOX_CONTRACT, 0, 1);
    unlisted[0] = 'X';
    look_up("lookup: behind both", unlisted, QUOTEBOX_CONTRACT, 0, 2);
}

static void read(void) {
    uint64_t values[QUOTEBOX_VALUES];
    for (int i = 0; i < QUOTEBOX_VALUES; i++) values[i] = 7;
    told("read: letter", quotebox_read_level1(BOX, 'D', key, values, answer), QUOTEBOX_CODE, 0, 0, 0);
    key[0] = 'X';
    told("read: key", quotebox_read_level1(BOX, 'T', key, values, answer), QUOTEBOX_CONTRACT, 0, 0, 0);
    key[0] = 'F';
    told("read: no record", quotebox_read_level2(BOX, 'T', key, values, answer), 0, 0, 0, 0);
    held("read: nothing written where there is none", values[QUOTEBOX_NUMBER] == 7);
    told("read: a record", quotebox_read_level1(BOX, 'T', key, values, answer), 0, 1, 0, 0);
    held("read: its number", values[QUOTEBOX_NUMBER] == 4);
    held("read: its session", values[QUOTEBOX_SESSION] == QUOTEBOX_NORMAL);
    held("read: no time stamp", values[QUOTEBOX_TIME_STAMP] == QUOTEBOX_NONE);
    held("read: its price", values[QUOTEBOX1_BUY_PRICE] == 1002500000);
    held("read: none", values[QUOTEBOX1_TURNOVER] == QUOTEBOX_NONE);
    held("read: nothing past level 1's", values[QUOTEBOX1_TURNOVER + 1] == 7);
}

/* A batch of one message of the pair with the number 5. */
static void write_spread(uint8_t batch[FRONT + SPREAD1]) {
    const uint8_t *code = (const uint8_t *)"TP";
    const uint8_t front[FRONT] = {1, 0, SPREAD1, 0, 1};
    uint8_t *out = batch + FRONT, long_out[SPREAD2];
    uint64_t values[QUOTEBOX_VALUES];
    for (int i = 0; i < QUOTEBOX_VALUES; i++) values[i] = QUOTEBOX_NONE;
    values[QUOTEBOX_SPREAD1_BUY_PRICE] = QUOTEBOX_MINUS | 125000000;
    values[QUOTEBOX_SPREAD1_BUY_QUANTITY] = 40;
    values[QUOTEBOX_SPREAD1_LAST_PRICE] = QUOTEBOX_MINUS;
    memcpy(batch, front, FRONT);
    out[0] = 0xee;
    told("spread: code", quotebox_write_spread1((const uint8_t *)"TN", 5, pair, values, out, SPREAD1, answer), QUOTEBOX_CODE, 0, 0, 0);
    told("write: a spread's code", quotebox_write_level1(code, 5, key, values, out, LEVEL1, answer), QUOTEBOX_CODE, 0, 0, 0);
    told("spread: number", quotebox_write_spread1(code, 0, pair, values, out, SPREAD1, answer), QUOTEBOX_NUMBERING, 0, 0, 0);
    pair[QUOTEBOX_PAIR - 1] = 127;
    told("spread: key", quotebox_write_spread2(code, 5, pair, values, out, SPREAD1, answer), QUOTEBOX_FIELD, 0, 9, 0);
    pair[QUOTEBOX_PAIR - 1] = 'X';
    values[QUOTEBOX_SPREAD1_SELL_QUANTITY] = QUOTEBOX_MINUS | 1;
    told("spread: quantity", quotebox_write_spread1(code, 5, pair, values, out, SPREAD1, answer), QUOTEBOX_RANGE, 0,
         QUOTEBOX_SPREAD1_SELL_QUANTITY + 9, 0);
    values[QUOTEBOX_SPREAD1_SELL_QUANTITY] = QUOTEBOX_NONE;
    told("spread: room", quotebox_write_spread1(code, 5, pair, values, out, SPREAD1 - 1, answer), QUOTEBOX_MEMORY, 0, 0, SPREAD1);
    held("spread: nothing written by a refusal", out[0] == 0xee);
    told("spread", quotebox_write_spread1(code, 5, pair, values, out, SPREAD1, answer), 0, SPREAD1, 0, 0);
    held("spread: its price", memcmp(out + 8 + QUOTEBOX_PAIR, "            -12.5", 17) == 0);
    held("spread: minus zero", memcmp(out + 8 + QUOTEBOX_PAIR + 58, "                0", 17) == 0);
    told("spread: level 2", quotebox_write_spread2(code, 5, pair, values, long_out, SPREAD2, answer), 0, SPREAD2, 0, 0);
}

static void spread(void) {
    uint8_t batch[FRONT + SPREAD1];
    uint64_t values[QUOTEBOX_VALUES];
    for (int i = 0; i < QUOTEBOX_VALUES; i++) values[i] = 7;
    write_spread(batch);
    told("spread: no record", quotebox_read_spread1(BOX, 'T', pair, values, answer), 0, 0, 0, 0);
    held("spread: nothing written where there is none", values[QUOTEBOX_NUMBER] == 7);
    judged("spread: taken", quotebox_take(BOX, batch, sizeof batch, answer), 0, 1, 0, 0, 1);
    told("spread: letter", quotebox_read_spread1(BOX, 'D', pair, values, answer), QUOTEBOX_CODE, 0, 0, 0);
    pair[0] = 'X';
    told("spread: pair", quotebox_read_spread2(BOX, 'T', pair, values, answer), QUOTEBOX_CONTRACT, 0, 0, 0);
    pair[0] = 'F';
    told("spread: none at level 2", quotebox_read_spread2(BOX, 'T', pair, values, answer), 0, 0, 0, 0);
    told("spread: a record", quotebox_read_spread1(BOX, 'T', pair, values, answer), 0, 1, 0, 0);
    held("spread: its number", values[QUOTEBOX_NUMBER] == 5);
    held("spread: below zero", values[QUOTEBOX_SPREAD1_BUY_PRICE] == (QUOTEBOX_MINUS | 125000000));
    held("spread: its quantity", values[QUOTEBOX_SPREAD1_BUY_QUANTITY] == 40);
    held("spread: zero", values[QUOTEBOX_SPREAD1_LAST_PRICE] == 0);
    held("spread: none", values[QUOTEBOX_SPREAD1_LOW] == QUOTEBOX_NONE);
    held("spread: nothing past level 1's", values[QUOTEBOX_SPREAD1_LOW + 1] == 7);
    told("spread: its halves are as they were", quotebox_read_level1(BOX, 'T', far_key, values, answer), 0, 0, 0, 0);
    batch[FRONT + 8] ^= 1;
    told("spread: damaged", quotebox_take(BOX, batch, sizeof batch, answer), QUOTEBOX_CHECKSUM, 0, 0, 0);
}

static void gaps(void) {
    uint32_t cells[3] = {7, 7, 7};
    told("list: room", quotebox_list_gaps(BOX, 'T', cells, 1, answer), QUOTEBOX_MEMORY, 0, 0, 2);
    told("list", quotebox_list_gaps(BOX, 'T', cells, 3, answer), 0, 5, 1, 0);
    held("list: its run", cells[0] == 1 && cells[1] == 3 && cells[2] == 7);
    told("write off", quotebox_write_off(BOX, 'T', answer), 0, 1, 3, 0);
    told("write off: none", quotebox_write_off(BOX, 'T', answer), QUOTEBOX_NO_GAP, 0, 0, 0);
}

#define THREE 143
#define FUTURES1 204
#define FUTURES2 404

/* A box with one contract in each of three segments, and no spreads. */
static uint8_t three[THREE] = {0, 3, 'D', 0, 0, 1, 0, 0, 0, 26, 'F', 0, 0, 1, 0, 0, 0, 65, 'T', 0, 0, 1, 0, 0, 0, 104};
static uint8_t three_spreads[26];
static uint32_t three_rows[3 * QUOTEBOX_ROW_CELLS];
static uint64_t three_records[3 * QUOTEBOX_RECORD_CELLS];

#define THREE_LISTS three, THREE, three_spreads, 26
#define THREE_BOX THREE_LISTS, three_rows, 3 * QUOTEBOX_ROW_CELLS, three_records, 3 * QUOTEBOX_RECORD_CELLS

static void start_three(void) {
    const uint32_t starts[3] = {1, 1, 1};
    const uint8_t none[26] = {0, 3, 'D', 0, 0, 0, 0, 0, 0, 26, 'F', 0, 0, 0, 0, 0, 0, 26, 'T', 0, 0, 0, 0, 0, 0, 26};
    for (int i = 0; i < 3; i++) memcpy(three + 26 + i * QUOTEBOX_KEY, key, QUOTEBOX_KEY);
    told("three: room", quotebox_no_spreads(three, THREE, three_spreads, 25, answer), QUOTEBOX_MEMORY, 0, 0, 26);
    told("three: no spreads", quotebox_no_spreads(three, THREE, three_spreads, 26, answer), 0, 26, 0, 0);
    held("three: its bytes", memcmp(three_spreads, none, 26) == 0);
    told("three: rows", quotebox_start(THREE_LISTS, starts, 3, three_rows, 3 * QUOTEBOX_ROW_CELLS - 1, NULL, 0, answer), QUOTEBOX_MEMORY, 0, 0,
         3 * QUOTEBOX_ROW_CELLS);
    told("three: starts", quotebox_start(THREE_LISTS, starts, 2, NULL, 0, NULL, 0, answer), QUOTEBOX_NUMBERING, 0, 0, 0);
    told("three: start",
         quotebox_start(THREE_LISTS, starts, 3, three_rows, 3 * QUOTEBOX_ROW_CELLS, three_records, 3 * QUOTEBOX_RECORD_CELLS, answer), 0, 0, 0, 0);
}

/* A batch of one update of F at level 1: its code, number and market type, and its number for the price too. */
static void write_future(uint8_t batch[FRONT + FUTURES1], const char *code, uint32_t number, char market_type) {
    const uint8_t front[FRONT] = {1, 0, FUTURES1, 0, 1};
    uint64_t values[QUOTEBOX_VALUES];
    for (int i = 0; i < QUOTEBOX_VALUES; i++) values[i] = QUOTEBOX_NONE;
    values[QUOTEBOX_MARKET_TYPE] = (uint64_t)market_type;
    values[QUOTEBOX_TIME_STAMP] = 1766979900 + number;
    values[QUOTEBOX1_BUY_PRICE] = number * UINT64_C(10000000);
    values[QUOTEBOX1_STATUS] = ' ';
    memcpy(batch, front, FRONT);
    told("future: written", quotebox_write_level1((const uint8_t *)code, number, key, values, batch + FRONT, FUTURES1, answer), 0, FUTURES1, 0, 0);
}

static void write_futures(void) {
    const uint8_t *code = (const uint8_t *)"PN";
    uint8_t out[FUTURES2];
    uint64_t values[QUOTEBOX_VALUES];
    for (int i = 0; i < QUOTEBOX_VALUES; i++) values[i] = QUOTEBOX_NONE;
    values[QUOTEBOX_MARKET_TYPE] = 'X';
    values[QUOTEBOX2_STATUS] = 'S';
    told("future: no such code", quotebox_write_level2((const uint8_t *)"PO", 1, key, values, out, FUTURES2, answer), QUOTEBOX_CODE, 0, 0, 0);
    told("future: market type", quotebox_write_level2(code, 1, key, values, out, FUTURES2, answer), QUOTEBOX_FIELD, 0, 5, 0);
    values[QUOTEBOX_MARKET_TYPE] = 'A';
    values[QUOTEBOX_TIME_STAMP] = UINT64_C(100000000000);
    told("future: time stamp", quotebox_write_level2(code, 1, key, values, out, FUTURES2, answer), QUOTEBOX_RANGE, 0, QUOTEBOX_TIME_STAMP + 3, 0);
    values[QUOTEBOX_TIME_STAMP] = 0;
    values[QUOTEBOX2_TURNOVER] = QUOTEBOX_NONE - 1;
    told("future: turnover", quotebox_write_level2(code, 1, key, values, out, FUTURES2, answer), QUOTEBOX_RANGE, 0, QUOTEBOX2_TURNOVER + 3, 0);
    values[QUOTEBOX2_TURNOVER] = QUOTEBOX_NONE;
    values[QUOTEBOX2_SELL] = UINT64_C(100000000000000000);
    told("future: price", quotebox_write_level2(code, 1, key, values, out, FUTURES2, answer), QUOTEBOX_RANGE, 0, QUOTEBOX2_SELL + 3, 0);
    values[QUOTEBOX2_SELL] = UINT64_C(99999999990000000);
    told("future: level 2", quotebox_write_level2(code, 1, key, values, out, FUTURES2, answer), 0, FUTURES2, 0, 0);
    held("future: its price", memcmp(out + 8 + 161, "9999999999", 10) == 0);
    told("future: heartbeat", quotebox_write_level2((const uint8_t *)"FH", 0, key, values, out, FUTURES2, answer), 0, 11, 0, 0);
}

/* What the last level 1 update of F left: its number and session. */
static void shows(const char *what, uint64_t number, uint64_t session) {
    uint64_t values[QUOTEBOX_VALUES];
    for (int i = 0; i < QUOTEBOX_VALUES; i++) values[i] = 7;
    told(what, quotebox_read_level1(THREE_BOX, 'F', key, values, answer), 0, 1, 0, 0);
    held(what, values[QUOTEBOX_NUMBER] == number && values[QUOTEBOX_SESSION] == session && values[QUOTEBOX_MARKET_TYPE] == 'N');
    held(what, values[QUOTEBOX_TIME_STAMP] == 1766979900 + number && values[QUOTEBOX1_BUY_PRICE] == number * 10000000);
    held(what, values[QUOTEBOX1_TURNOVER] == QUOTEBOX_NONE && values[QUOTEBOX1_TURNOVER + 1] == 7);
}

/* The pre-open session and the normal market share F's numbers and records; another market type is counted and not kept. */
static void futures(void) {
    uint8_t batch[FRONT + FUTURES1];
    uint64_t values[QUOTEBOX_VALUES];
    start_three();
    write_futures();
    write_future(batch, "PN", 2, 'N');
    judged("future: PN", quotebox_take(THREE_BOX, batch, sizeof batch, answer), 0, 1, 0, 0, 1);
    shows("future: pre-open", 2, QUOTEBOX_PRE_OPEN);
    write_future(batch, "FN", 3, 'O');
    judged("future: another market type", quotebox_take(THREE_BOX, batch, sizeof batch, answer), 0, 1, 0, 0, 0);
    shows("future: still pre-open", 2, QUOTEBOX_PRE_OPEN);
    write_future(batch, "FN", 4, 'N');
    judged("future: FN", quotebox_take(THREE_BOX, batch, sizeof batch, answer), 0, 1, 0, 0, 1);
    write_future(batch, "PN", 1, 'N');
    judged("future: a late PN", quotebox_take(THREE_BOX, batch, sizeof batch, answer), 0, 1, 0, 0, 1);
    shows("future: normal", 4, QUOTEBOX_NORMAL);
    told("future: P is no letter", quotebox_read_level1(THREE_BOX, 'P', key, values, answer), QUOTEBOX_CODE, 0, 0, 0);
    told("future: none at level 2", quotebox_read_level2(THREE_BOX, 'F', key, values, answer), 0, 0, 0, 0);
    told("future: none of T", quotebox_read_level1(THREE_BOX, 'T', key, values, answer), 0, 0, 0, 0);
    told("future: where F is not listed", quotebox_take(BOX, batch, sizeof batch, answer), QUOTEBOX_CODE, 0, 0, 0);
}

int main(void) {
    uint8_t batch[FRONT + LEVEL1];
    memcpy(key, "FUTCOMGOLD      05APR2026            XX", QUOTEBOX_KEY);
    memcpy(far_key, "FUTCOMGOLD      05JUN2026            XX", QUOTEBOX_KEY);
    memcpy(pair, key, QUOTEBOX_KEY);
    memcpy(pair + QUOTEBOX_KEY, far_key, QUOTEBOX_KEY);
    memcpy(list + LIST - QUOTEBOX_PAIR, pair, QUOTEBOX_PAIR);
    memcpy(spreads + SPREADS - QUOTEBOX_PAIR, pair, QUOTEBOX_PAIR);
    no_spreads();
    most_pairs();
    start();
    write_update(batch);
    take(batch);
    lookups();
    read();
    spread();
    gaps();
    futures();
    printf("%d passed, %d failed\n", passed, failed);
    return failed != 0;
}
