/* Builds a small book from messages and prints its best bid and offer. */
#include <inttypes.h>
#include <stdio.h>
#include <string.h>

#include "ladlemoss.h"

static uint64_t directory[16];
static uint64_t book[LADLEMOSS_BOOK_LENGTH(1)];

/* Stores the low bytes of a number, big-endian. */
static void put(uint8_t *at, int width, uint64_t number) {
    while (width-- > 0) {
        at[width] = (uint8_t)number;
        number >>= 8;
    }
}

/* Applies a message of locate 1 at time 0 whose own bytes begin at 11. */
static int apply(uint8_t type, uint8_t *message, size_t length) {
    uint64_t out[LADLEMOSS_MESSAGE_LENGTH], figures[LADLEMOSS_FIGURES_LENGTH];
    memset(message, 0, 11);
    message[0] = type;
    message[2] = 1;
    return ladlemoss_apply(directory, 16, book, LADLEMOSS_BOOK_LENGTH(1), message, length, out, figures);
}

static int add(uint64_t reference, uint8_t side, uint64_t shares, uint64_t price) {
    uint8_t message[36];
    put(message + 11, 8, reference);
    message[19] = side;
    put(message + 20, 4, shares);
    memcpy(message + 24, "ZVZZT   ", 8);
    put(message + 32, 4, price);
    return apply('A', message, sizeof message);
}

static int build(void) {
    uint8_t stock[39] = {0}, executed[31] = {0}, deleted[19];
    int refused = ladlemoss_fresh(directory, 16, book, LADLEMOSS_BOOK_LENGTH(1));
    memcpy(stock + 11, "ZVZZT   ", 8);
    put(executed + 11, 8, 2);
    put(executed + 19, 4, 50);
    put(deleted + 11, 8, 3);
    refused |= apply('R', stock, sizeof stock);
    refused |= add(1, LADLEMOSS_BUY, 300, 100000) | add(2, LADLEMOSS_BUY, 200, 100100);
    refused |= add(3, LADLEMOSS_SELL, 500, 100200) | add(4, LADLEMOSS_SELL, 400, 100300);
    refused |= apply('E', executed, sizeof executed);
    return refused | apply('D', deleted, sizeof deleted);
}

static int show(const char *name, uint8_t side) {
    uint64_t level[LADLEMOSS_QUOTE_LENGTH];
    int refused = ladlemoss_best(book, LADLEMOSS_BOOK_LENGTH(1), 1, side, level);
    uint64_t price = level[LADLEMOSS_QUOTE_PRICE];
    if (level[LADLEMOSS_QUOTE_STANDS] == 0) {
        printf("%s none\n", name);
        return refused;
    }
    printf("%s %" PRIu64 ".%04" PRIu64 " total %" PRIu64 " orders %" PRIu64 "\n", name, price / 10000, price % 10000,
           level[LADLEMOSS_QUOTE_TOTAL], level[LADLEMOSS_QUOTE_COUNT]);
    return refused;
}

int main(void) {
    int refused = build();
    refused |= show("bid", LADLEMOSS_BUY) | show("offer", LADLEMOSS_SELL);
    return refused != LADLEMOSS_DONE;
}
