/* Writes a small feed with the library's own writers, three segments, seven contracts and two spreads, as a bad line would bring it: a number
 * missing, one late, a damaged batch and a batch cut short. Of F's two contracts the pre-open session has updates, of one the normal market
 * too.
 *   feed CONTRACTS BATCHES SPREADS */
#include "quotebox.h"

#include <stdio.h>
#include <stdlib.h>
#include <string.h>

#define FRONT 5
#define MOST_DATA 32767

/* Instrument, symbol, expiry, strike, option type. */
static const char EURO[] = "FUTCUREURINR    27MAR2026            XX";
static const char DOLLAR[] = "FUTCURUSDINR    27MAR2026            XX";
static const char FAR_DOLLAR[] = "FUTCURUSDINR    28APR2026            XX";
static const char FAR_NIFTY[] = "FUTIDXNIFTY     27JAN2026            XX";
static const char NIFTY[] = "FUTIDXNIFTY     30DEC2025            XX";
static const char GOLD[] = "FUTCOMGOLD      05APR2026            XX";
static const char FAR_GOLD[] = "FUTCOMGOLD      05JUN2026            XX";

/* Ten-millionths. */
#define PRICE(whole, part) ((uint64_t)(whole) * 10000000 + (part))

static FILE *file;

static void fail(const char *what) {
    fprintf(stderr, "feed: %s\n", what);
    exit(1);
}

static void begin_file(const char *path) {
    file = fopen(path, "wb");
    if (file == NULL) fail(path);
}

static void put(const void *bytes, size_t length) {
    if (fwrite(bytes, 1, length, file) != length) fail("can't write");
}

static void end_file(void) {
    if (fclose(file) != 0) fail("can't write");
}

static void put_number(size_t number, int width) {
    while (0 < width--) {
        uint8_t byte = (uint8_t)(number >> 8 * width);
        put(&byte, 1);
    }
}

#define SEGMENTS 3

/* The contents first: for each segment its letter, a zero byte, its count and where its keys begin. */
static void write_contents(const size_t counts[SEGMENTS], size_t key) {
    static const char letters[SEGMENTS] = {'D', 'F', 'T'};
    size_t offset = 2 + 8 * SEGMENTS;
    put_number(SEGMENTS, 2);
    for (int i = 0; i < SEGMENTS; i++) {
        put(&letters[i], 1);
        put_number(0, 1);
        put_number(counts[i], 2);
        put_number(offset, 4);
        offset += counts[i] * key;
    }
}

static void write_contracts(void) {
    static const size_t counts[SEGMENTS] = {3, 2, 2};
    write_contents(counts, QUOTEBOX_KEY);
    put(EURO, QUOTEBOX_KEY);
    put(DOLLAR, QUOTEBOX_KEY);
    put(FAR_DOLLAR, QUOTEBOX_KEY);
    put(FAR_NIFTY, QUOTEBOX_KEY);
    put(NIFTY, QUOTEBOX_KEY);
    put(GOLD, QUOTEBOX_KEY);
    put(FAR_GOLD, QUOTEBOX_KEY);
}

/* The same habit: the same segments, and pairs of their contracts. */
static void write_spreads(void) {
    static const size_t counts[SEGMENTS] = {1, 0, 1};
    write_contents(counts, QUOTEBOX_PAIR);
    put(DOLLAR, QUOTEBOX_KEY);
    put(FAR_DOLLAR, QUOTEBOX_KEY);
    put(GOLD, QUOTEBOX_KEY);
    put(FAR_GOLD, QUOTEBOX_KEY);
}

/* A batch that is being written, its messages one behind the other. */
struct batch {
    uint8_t data[MOST_DATA];
    size_t length;
    size_t count;
};

static void written(struct batch *batch, uint32_t refused, const uint64_t answer[4]) {
    if (refused != 0) fail("the writer refused");
    batch->length += answer[0];
    batch->count++;
}

static void add_heartbeat(struct batch *batch, const char *code) {
    static const uint8_t no_key[QUOTEBOX_KEY];
    static const uint64_t no_values[QUOTEBOX_VALUES];
    uint64_t answer[4];
    written(batch,
            quotebox_write_level1((const uint8_t *)code, 0, no_key, no_values, batch->data + batch->length,
                                  MOST_DATA - batch->length, answer),
            answer);
}

/* An update with the best order of a side and `depth` more behind it, a step apart; for F with the seconds since 1970, for which D and T have
 * no place. */
static void add_stamped(struct batch *batch, const char *code, uint32_t number, const char *key, uint64_t stamp, uint64_t buy, uint64_t sell,
                        uint64_t step, int depth) {
    uint64_t values[QUOTEBOX_VALUES], answer[4];
    for (int i = 0; i < QUOTEBOX_VALUES; i++) values[i] = QUOTEBOX_NONE;
    values[QUOTEBOX_MARKET_TYPE] = 'N';
    values[QUOTEBOX_TIME_STAMP] = stamp;
    for (int level = 0; level <= depth; level++) {
        values[QUOTEBOX2_BUY + 2 * level] = buy - step * (uint64_t)level;
        values[QUOTEBOX2_BUY + 2 * level + 1] = 100 + 7 * (uint64_t)level;
        values[QUOTEBOX2_SELL + 2 * level] = sell + step * (uint64_t)level;
        values[QUOTEBOX2_SELL + 2 * level + 1] = 5 + 40 * (uint64_t)level;
    }
    values[QUOTEBOX2_LAST_PRICE] = buy;
    values[QUOTEBOX2_STATUS] = ' ';
    values[QUOTEBOX2_CLOSE] = sell;
    written(batch,
            quotebox_write_level2((const uint8_t *)code, number, (const uint8_t *)key, values, batch->data + batch->length,
                                  MOST_DATA - batch->length, answer),
            answer);
}

static void add_update(struct batch *batch, const char *code, uint32_t number, const char *key, uint64_t buy, uint64_t sell,
                       uint64_t step, int depth) {
    add_stamped(batch, code, number, key, QUOTEBOX_NONE, buy, sell, step, depth);
}

/* A difference of prices as a value: below zero the amount with the minus beside it. */
static uint64_t difference(int64_t units) { return units < 0 ? QUOTEBOX_MINUS | (uint64_t)-units : (uint64_t)units; }

/* An update of a spread with the best order of a side and `depth` more behind it, a step apart. */
static void add_spread(struct batch *batch, const char *code, uint32_t number, const char *first, const char *second, int64_t buy,
                       int64_t sell, int64_t step, int depth) {
    uint8_t pair[QUOTEBOX_PAIR];
    uint64_t values[QUOTEBOX_VALUES], answer[4];
    memcpy(pair, first, QUOTEBOX_KEY);
    memcpy(pair + QUOTEBOX_KEY, second, QUOTEBOX_KEY);
    for (int i = 0; i < QUOTEBOX_VALUES; i++) values[i] = QUOTEBOX_NONE;
    for (int level = 0; level <= depth; level++) {
        values[QUOTEBOX_SPREAD2_BUY + 2 * level] = difference(buy - step * level);
        values[QUOTEBOX_SPREAD2_BUY + 2 * level + 1] = 10 + 2 * (uint64_t)level;
        values[QUOTEBOX_SPREAD2_SELL + 2 * level] = difference(sell + step * level);
        values[QUOTEBOX_SPREAD2_SELL + 2 * level + 1] = 3 + 5 * (uint64_t)level;
    }
    values[QUOTEBOX_SPREAD2_LAST_PRICE] = difference(buy);
    written(batch,
            quotebox_write_spread2((const uint8_t *)code, number, pair, values, batch->data + batch->length,
                                   MOST_DATA - batch->length, answer),
            answer);
}

/* Flag, size, number of messages, data; the batch begins anew. */
static void end_batch(struct batch *batch) {
    put_number(1, 1);
    put_number(batch->length, 2);
    put_number(batch->count, 2);
    put(batch->data, batch->length);
    batch->length = 0;
    batch->count = 0;
}

/* 29 December 2025, 3:30:00 UTC: the pre-open session of F. */
#define MORNING UINT64_C(1766979000)

static void write_batches(void) {
    static struct batch batch;
    add_heartbeat(&batch, "DH");
    add_update(&batch, "DN", 1, EURO, PRICE(90, 2525000), PRICE(90, 2550000), 25000, 4);
    add_update(&batch, "DN", 2, DOLLAR, PRICE(83, 5000000), PRICE(83, 5100000), 100000, 1);
    end_batch(&batch);
    add_update(&batch, "DN", 5, DOLLAR, PRICE(83, 4999999), PRICE(84, 0), 1, 2);
    add_update(&batch, "DN", 4, DOLLAR, PRICE(1, 0), PRICE(2, 0), 0, 0);
    end_batch(&batch);
    add_update(&batch, "TN", 1, GOLD, PRICE(61234, 0), PRICE(61235, 0), 0, 0);
    batch.data[100] ^= 1;
    end_batch(&batch);
    add_update(&batch, "TN", 3, GOLD, PRICE(61234, 5000000), PRICE(61236, 0), 5000000, 3);
    add_spread(&batch, "TP", 4, GOLD, FAR_GOLD, -125000000, -120000000, 5000000, 4);
    end_batch(&batch);
    add_spread(&batch, "DP", 6, DOLLAR, FAR_DOLLAR, -25000, 50000, 25000, 2);
    end_batch(&batch);
    add_heartbeat(&batch, "FH");
    add_stamped(&batch, "PN", 1, NIFTY, MORNING + 61, PRICE(26150, 500000), PRICE(26151, 0), 500000, 3);
    add_stamped(&batch, "PN", 2, FAR_NIFTY, MORNING + 75, PRICE(26310, 0), PRICE(26312, 0), 1000000, 2);
    end_batch(&batch);
    add_stamped(&batch, "FN", 3, NIFTY, MORNING + 900, PRICE(26148, 0), PRICE(26148, 500000), 500000, 4);
    end_batch(&batch);
    put_number(1, 1);
    put_number(505, 2);
}

int main(int count, char **words) {
    if (count != 4) fail("feed CONTRACTS BATCHES SPREADS");
    begin_file(words[1]);
    write_contracts();
    end_file();
    begin_file(words[2]);
    write_batches();
    end_file();
    begin_file(words[3]);
    write_spreads();
    end_file();
    return 0;
}
