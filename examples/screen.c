/* A small host: starts a box, takes a file of batches, one behind the other, and prints how many keys their lookups compared, what is
 * missing, and five prices a side of each listed contract and of each listed spread; of a contract also the time of day that its update has, and
 * whether it is of the pre-open session. Without a file of spreads there are none.
 *   screen CONTRACTS BATCHES [SPREADS] */
#include "quotebox.h"

#include <inttypes.h>
#include <stdio.h>
#include <stdlib.h>

/* The bytes of a batch in front of its data. */
#define FRONT 5

struct bytes {
    uint8_t *at;
    size_t length;
};

struct box {
    struct bytes list;
    struct bytes spreads;
    uint32_t *rows;
    size_t rows_length;
    uint64_t *records;
    size_t records_length;
};

static void fail(const char *what) {
    fprintf(stderr, "screen: %s\n", what);
    exit(1);
}

static void *lend(size_t cells, size_t each) {
    void *memory = calloc(cells, each);
    if (memory == NULL) fail("no memory");
    return memory;
}

static struct bytes read_file(const char *path) {
    FILE *file = fopen(path, "rb");
    if (file == NULL || fseek(file, 0, SEEK_END) != 0) fail(path);
    long length = ftell(file);
    if (length < 0 || fseek(file, 0, SEEK_SET) != 0) fail(path);
    struct bytes all = {lend((size_t)length + 1, 1), (size_t)length};
    if (fread(all.at, 1, all.length, file) != all.length) fail(path);
    fclose(file);
    return all;
}

static size_t u16_at(const uint8_t *bytes) { return (size_t)bytes[0] << 8 | bytes[1]; }

static size_t u32_at(const uint8_t *bytes) { return u16_at(bytes) << 16 | u16_at(bytes + 2); }

/* The spread list without pairs, for the contract list's segments: 26 bytes are enough for three. Where the contract list is no list, start
 * will say so. */
static struct bytes no_spreads(struct bytes list) {
    struct bytes none = {lend(26, 1), 0};
    uint64_t answer[4];
    if (quotebox_no_spreads(list.at, list.length, none.at, 26, answer) == 0) none.length = answer[0];
    return none;
}

static uint32_t start_with(struct box *box, uint64_t answer[4]) {
    const uint32_t starts[3] = {1, 1, 1};
    return quotebox_start(box->list.at, box->list.length, box->spreads.at, box->spreads.length, starts, 3, box->rows,
                          box->rows_length, box->records, box->records_length, answer);
}

/* A start that is lent too little says what it wants: the gap rows first, then the records. */
static uint32_t start(struct box *box) {
    uint64_t answer[4];
    uint32_t refused = start_with(box, answer);
    if (refused == QUOTEBOX_MEMORY) {
        box->rows_length = answer[2];
        box->rows = lend(box->rows_length, sizeof *box->rows);
        refused = start_with(box, answer);
    }
    if (refused == QUOTEBOX_MEMORY) {
        box->records_length = answer[2];
        box->records = lend(box->records_length, sizeof *box->records);
        refused = start_with(box, answer);
    }
    return refused;
}

/* Each batch says how long it is; what is left at the end is handed over as it is, and refused. A refused batch's lookups count too. */
static void take_all(struct box *box, struct bytes batches) {
    uint64_t compared = 0, most = 0;
    size_t at = 0;
    for (size_t batch = 0; at < batches.length; batch++) {
        size_t left = batches.length - at;
        size_t length = left < FRONT ? left : FRONT + u16_at(batches.at + at + 1);
        if (left < length) length = left;
        uint64_t answer[4];
        uint32_t refused = quotebox_take(box->list.at, box->list.length, box->spreads.at, box->spreads.length, box->rows,
                                         box->rows_length, box->records, box->records_length, batches.at + at, length, answer);
        if (refused != 0) printf("batch %zu refused %" PRIu32 " message %" PRIu64 "\n", batch, refused, answer[0]);
        compared += answer[3];
        if (most < answer[3]) most = answer[3];
        at += length;
    }
    printf("%" PRIu64 " keys compared, at most %" PRIu64 " in a batch\n", compared, most);
}

/* A decimal without needless zeros. */
static const char *decimal(const char *sign, uint64_t units, char text[32]) {
    int length = sprintf(text, "%s%" PRIu64 ".%07" PRIu64, sign, units / 10000000, units % 10000000);
    while (text[length - 1] == '0') length--;
    if (text[length - 1] == '.') length--;
    text[length] = 0;
    return text;
}

/* Blank for none. */
static const char *price(uint64_t units, char text[32]) { return units == QUOTEBOX_NONE ? "" : decimal("", units, text); }

/* A spread's price may be below zero. */
static const char *difference(uint64_t units, char text[32]) {
    if (units == QUOTEBOX_NONE || (units & QUOTEBOX_MINUS) == 0) return price(units, text);
    return decimal("-", units & ~QUOTEBOX_MINUS, text);
}

static const char *quantity(uint64_t units, char text[32]) {
    text[0] = 0;
    if (units != QUOTEBOX_NONE) sprintf(text, "%" PRIu64, units);
    return text;
}

/* The five parts of a key, those that are blank left out. */
static void show_key(const uint8_t *key) {
    static const int widths[5] = {6, 10, 11, 10, 2};
    for (int part = 0; part < 5; part++) {
        int length = widths[part];
        while (0 < length && key[length - 1] == ' ') length--;
        if (0 < length) printf(" %.*s", length, (const char *)key);
        key += widths[part];
    }
}

static void show_line(const char *bought, const char *buy, const char *sell, const char *sold) {
    printf("| %12s %17s | %17s %12s |\n", bought, buy, sell, sold);
}

/* Five orders a side, each a price and a quantity. */
static void show_orders(const uint64_t *buy, const uint64_t *sell, const char *(*shown)(uint64_t units, char text[32])) {
    show_line("quantity", "buy", "sell", "quantity");
    for (int level = 0; level < 5; level++, buy += 2, sell += 2) {
        char texts[4][32];
        show_line(quantity(buy[1], texts[0]), shown(buy[0], texts[1]), shown(sell[0], texts[2]), quantity(sell[1], texts[3]));
    }
}

/* When the update was sent, as the time of day in UTC, and the session where it is not the normal market's. */
static void show_moment(const uint64_t values[QUOTEBOX_VALUES]) {
    uint64_t stamp = values[QUOTEBOX_TIME_STAMP], of_day = stamp % 86400;
    if (stamp != QUOTEBOX_NONE) printf(" %02d:%02d:%02d", (int)(of_day / 3600), (int)(of_day / 60 % 60), (int)(of_day % 60));
    if (values[QUOTEBOX_SESSION] == QUOTEBOX_PRE_OPEN) printf(" pre-open");
}

static void show_contract(const struct box *box, uint8_t letter, const uint8_t *key) {
    uint64_t values[QUOTEBOX_VALUES], answer[4];
    printf("%c", letter);
    show_key(key);
    if (quotebox_read_level2(box->list.at, box->list.length, box->spreads.at, box->spreads.length, box->rows, box->rows_length,
                             box->records, box->records_length, letter, key, values, answer) != 0)
        fail("a listed contract is refused");
    if (answer[0] != 0) show_moment(values);
    printf("\n");
    if (answer[0] == 0) {
        printf("| no record\n");
    } else {
        show_orders(values + QUOTEBOX2_BUY, values + QUOTEBOX2_SELL, price);
    }
}

static void show_spread(const struct box *box, uint8_t letter, const uint8_t *pair) {
    uint64_t values[QUOTEBOX_VALUES], answer[4];
    printf("%c", letter);
    show_key(pair);
    printf(" /");
    show_key(pair + QUOTEBOX_KEY);
    printf("\n");
    if (quotebox_read_spread2(box->list.at, box->list.length, box->spreads.at, box->spreads.length, box->rows, box->rows_length,
                              box->records, box->records_length, letter, pair, values, answer) != 0)
        fail("a listed spread is refused");
    if (answer[0] == 0) {
        printf("| no record\n");
    } else {
        show_orders(values + QUOTEBOX_SPREAD2_BUY, values + QUOTEBOX_SPREAD2_SELL, difference);
    }
}

/* How far the segment has come, and what is missing. */
static void show_gaps(const struct box *box, uint8_t letter) {
    uint32_t cells[2 * QUOTEBOX_MOST_RUNS];
    uint64_t answer[4];
    if (quotebox_list_gaps(box->list.at, box->list.length, box->spreads.at, box->spreads.length, box->rows, box->rows_length,
                           box->records, box->records_length, letter, cells, 2 * QUOTEBOX_MOST_RUNS, answer) != 0)
        fail("a listed segment is refused");
    printf("%c highest %" PRIu64 " missing", letter, answer[0]);
    for (uint64_t run = 0; run < answer[1]; run++) printf(" %" PRIu32 "-%" PRIu32, cells[2 * run], cells[2 * run + 1]);
    printf("\n");
}

/* A list's keys of the segment at a place, contracts or pairs, each shown. */
static void show_keys(const struct box *box, struct bytes list, size_t segment, size_t key,
                      void (*show)(const struct box *box, uint8_t letter, const uint8_t *key)) {
    const uint8_t *entry = list.at + 2 + 8 * segment;
    const uint8_t *keys = list.at + u32_at(entry + 4);
    for (size_t i = 0; i < u16_at(entry + 2); i++) show(box, entry[0], keys + key * i);
}

int main(int count, char **words) {
    if (count != 3 && count != 4) fail("screen CONTRACTS BATCHES [SPREADS]");
    struct box box = {.list = read_file(words[1])};
    struct bytes batches = read_file(words[2]);
    box.spreads = count == 4 ? read_file(words[3]) : no_spreads(box.list);
    uint32_t refused = start(&box);
    if (refused != 0) {
        printf("start refused %" PRIu32 "\n", refused);
        return 1;
    }
    take_all(&box, batches);
    for (size_t segment = 0; segment < u16_at(box.list.at); segment++) {
        show_gaps(&box, box.list.at[2 + 8 * segment]);
        show_keys(&box, box.list, segment, QUOTEBOX_KEY, show_contract);
        show_keys(&box, box.spreads, segment, QUOTEBOX_PAIR, show_spread);
    }
    free(box.rows);
    free(box.records);
    free(box.list.at);
    free(box.spreads.at);
    free(batches.at);
    return 0;
}
