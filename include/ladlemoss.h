/*
 * Ladlemoss: an order book built from Nasdaq TotalView-ITCH 5.0. Link libladlemoss.a.
 *
 * PROMISED, for any bytes and any contents and lengths of the tables:
 *   - every call ends, reads and writes only what it is lent, and keeps nothing of it;
 *   - the numbers of an answer, and both tables after it, are exactly those that the paper fixes;
 *   - every number of an array that is lent for an answer is written, 0 in all of them for a refusal;
 *   - a refused call changes nothing in the tables;
 *   - over any run of messages from fresh tables shares are conserved: for each order added = executed +
 *     cancelled + closed + remaining, for each level the total = what was put there less what was taken;
 *     and two tasks that are given the same messages over tables of the same lengths end with the same tables.
 *
 * OWED by the caller:
 *   - a pointer points to as many bytes or numbers as its length or its array says;
 *   - every pointer to uint64_t is aligned for it; bytes need no alignment;
 *   - what a call writes (tables that are not const, and arrays for answers) overlaps nothing else it is lent;
 *   - while a call runs, nobody else writes what it is lent, or reads what it writes.
 *
 * The calls hold no state and no lock, allocate nothing, and may run at the same time over different tables.
 */
#ifndef LADLEMOSS_H
#define LADLEMOSS_H

#include <stddef.h>
#include <stdint.h>

#ifdef __cplusplus
extern "C" {
#endif

/*
 * The tables, lent as arrays of uint64_t.
 *
 * Directory: number i holds the symbol of locate i as 8 big-endian bytes, 0 where none is registered. Number 0
 * is never used. Its length is from LADLEMOSS_DIRECTORY_MIN to LADLEMOSS_DIRECTORY_MAX.
 *
 * Book: k numbers of map, one bit a slot, then four numbers for each of its 64 * k slots, where k is from 1 to
 * LADLEMOSS_BOOK_MAX_WORDS. Its length is LADLEMOSS_BOOK_LENGTH(k).
 */
#define LADLEMOSS_DIRECTORY_MIN 2
#define LADLEMOSS_DIRECTORY_MAX 8192
#define LADLEMOSS_BOOK_MAX_WORDS 64
#define LADLEMOSS_BOOK_LENGTH(k) (257 * (size_t)(k))
#define LADLEMOSS_BOOK_SLOTS(k) (64 * (size_t)(k))

/* The lengths of the arrays for answers. */
#define LADLEMOSS_MESSAGE_LENGTH 18
#define LADLEMOSS_FIGURES_LENGTH 10
#define LADLEMOSS_ACCOUNT_LENGTH 8
#define LADLEMOSS_LEVEL_LENGTH 2
#define LADLEMOSS_QUOTE_LENGTH 4
#define LADLEMOSS_LIVE_LENGTH 1
#define LADLEMOSS_SYMBOL_LENGTH 2

/* The sides, as bytes. */
#define LADLEMOSS_BUY 0x42
#define LADLEMOSS_SELL 0x53

/* A Price (4) is in ten-thousandths, and at most this. */
#define LADLEMOSS_PRICE_MAX 2000000000

/*
 * The result of a call. The checks come in this order: SHAPE; no bytes (LENGTH); TYPE; LENGTH; TIME; FIELD; PRICE;
 * SHARES; then R: STOCK, CONFLICT; A, F: STOCK, CONFLICT, DUPLICATE, FULL; E, C, X: NO_ORDER, BOOK, CONFLICT,
 * OVER; D: NO_ORDER, BOOK, CONFLICT; U: NO_ORDER, BOOK, CONFLICT, DUPLICATE.
 */
enum ladlemoss_result {
    LADLEMOSS_DONE = 0,      /* accepted */
    LADLEMOSS_LENGTH = 1,    /* no bytes, or not the type's length */
    LADLEMOSS_TYPE = 2,      /* the first byte is none of the 23 */
    LADLEMOSS_TIME = 3,      /* the timestamp is not below 86,400,000,000,000 */
    LADLEMOSS_FIELD = 4,     /* a side, printable or text is not as it must be; a side that is asked for too */
    LADLEMOSS_PRICE = 5,     /* a Price (4) above LADLEMOSS_PRICE_MAX */
    LADLEMOSS_SHARES = 6,    /* zero shares in A, F, E, C, X or U */
    LADLEMOSS_STOCK = 7,     /* R: locate 0 or beyond the directory; A, F: that, or unregistered */
    LADLEMOSS_CONFLICT = 8,  /* R, A, F: another symbol is registered; E, C, X, D, U: the order's locate differs */
    LADLEMOSS_DUPLICATE = 9, /* A, F: the reference is live; U: the new one is, or equals the original */
    LADLEMOSS_NO_ORDER = 10, /* the reference (for U the original) is not live */
    LADLEMOSS_OVER = 11,     /* E, C, X: shares above those that remain */
    LADLEMOSS_FULL = 12,     /* A, F: no free slot; never for U */
    LADLEMOSS_BOOK = 13,     /* the slot concerned is live and unsound */
    LADLEMOSS_SHAPE = 14     /* a directory or a book of a length not named above */
};

/*
 * The numbers of a message, out[18]: its type byte, its fields in the order of Nasdaq's document, and 0 behind the
 * last. Every message begins with the first four below; the others are named by message and field. Integers
 * stand as they are; stocks, MPIDs, attributions and other texts as one big-endian number of their bytes; one-letter
 * codes and sides as their byte; prices in ten-thousandths, but those of the MWCB Decline Level in
 * hundred-millionths; the timestamp in nanoseconds since midnight.
 */
enum ladlemoss_message {
    LADLEMOSS_MESSAGE_TYPE = 0,
    LADLEMOSS_STOCK_LOCATE = 1,
    LADLEMOSS_TRACKING_NUMBER = 2,
    LADLEMOSS_TIMESTAMP = 3,
    /* S: System Event */
    LADLEMOSS_SYSTEM_EVENT_EVENT_CODE = 4,
    /* R: Stock Directory */
    LADLEMOSS_STOCK_DIRECTORY_STOCK = 4,
    LADLEMOSS_STOCK_DIRECTORY_MARKET_CATEGORY = 5,
    LADLEMOSS_STOCK_DIRECTORY_FINANCIAL_STATUS_INDICATOR = 6,
    LADLEMOSS_STOCK_DIRECTORY_ROUND_LOT_SIZE = 7,
    LADLEMOSS_STOCK_DIRECTORY_ROUND_LOTS_ONLY = 8,
    LADLEMOSS_STOCK_DIRECTORY_ISSUE_CLASSIFICATION = 9,
    LADLEMOSS_STOCK_DIRECTORY_ISSUE_SUB_TYPE = 10,
    LADLEMOSS_STOCK_DIRECTORY_AUTHENTICITY = 11,
    LADLEMOSS_STOCK_DIRECTORY_SHORT_SALE_THRESHOLD_INDICATOR = 12,
    LADLEMOSS_STOCK_DIRECTORY_IPO_FLAG = 13,
    LADLEMOSS_STOCK_DIRECTORY_LULD_REFERENCE_PRICE_TIER = 14,
    LADLEMOSS_STOCK_DIRECTORY_ETP_FLAG = 15,
    LADLEMOSS_STOCK_DIRECTORY_ETP_LEVERAGE_FACTOR = 16,
    LADLEMOSS_STOCK_DIRECTORY_INVERSE_INDICATOR = 17,
    /* H: Stock Trading Action */
    LADLEMOSS_STOCK_TRADING_ACTION_STOCK = 4,
    LADLEMOSS_STOCK_TRADING_ACTION_TRADING_STATE = 5,
    LADLEMOSS_STOCK_TRADING_ACTION_RESERVED = 6,
    LADLEMOSS_STOCK_TRADING_ACTION_REASON = 7,
    /* Y: Reg SHO Restriction */
    LADLEMOSS_REG_SHO_RESTRICTION_STOCK = 4,
    LADLEMOSS_REG_SHO_RESTRICTION_REG_SHO_ACTION = 5,
    /* L: Market Participant Position */
    LADLEMOSS_MARKET_PARTICIPANT_POSITION_MPID = 4,
    LADLEMOSS_MARKET_PARTICIPANT_POSITION_STOCK = 5,
    LADLEMOSS_MARKET_PARTICIPANT_POSITION_PRIMARY_MARKET_MAKER = 6,
    LADLEMOSS_MARKET_PARTICIPANT_POSITION_MARKET_MAKER_MODE = 7,
    LADLEMOSS_MARKET_PARTICIPANT_POSITION_MARKET_PARTICIPANT_STATE = 8,
    /* V: MWCB Decline Level */
    LADLEMOSS_MWCB_DECLINE_LEVEL_LEVEL_1 = 4,
    LADLEMOSS_MWCB_DECLINE_LEVEL_LEVEL_2 = 5,
    LADLEMOSS_MWCB_DECLINE_LEVEL_LEVEL_3 = 6,
    /* W: MWCB Status */
    LADLEMOSS_MWCB_STATUS_BREACHED_LEVEL = 4,
    /* K: Quoting Period Update */
    LADLEMOSS_QUOTING_PERIOD_UPDATE_STOCK = 4,
    LADLEMOSS_QUOTING_PERIOD_UPDATE_IPO_QUOTATION_RELEASE_TIME = 5,
    LADLEMOSS_QUOTING_PERIOD_UPDATE_IPO_QUOTATION_RELEASE_QUALIFIER = 6,
    LADLEMOSS_QUOTING_PERIOD_UPDATE_IPO_PRICE = 7,
    /* J: LULD Auction Collar */
    LADLEMOSS_LULD_AUCTION_COLLAR_STOCK = 4,
    LADLEMOSS_LULD_AUCTION_COLLAR_AUCTION_COLLAR_REFERENCE_PRICE = 5,
    LADLEMOSS_LULD_AUCTION_COLLAR_UPPER_AUCTION_COLLAR_PRICE = 6,
    LADLEMOSS_LULD_AUCTION_COLLAR_LOWER_AUCTION_COLLAR_PRICE = 7,
    LADLEMOSS_LULD_AUCTION_COLLAR_AUCTION_COLLAR_EXTENSION = 8,
    /* h: Operational Halt */
    LADLEMOSS_OPERATIONAL_HALT_STOCK = 4,
    LADLEMOSS_OPERATIONAL_HALT_MARKET_CODE = 5,
    LADLEMOSS_OPERATIONAL_HALT_OPERATIONAL_HALT_ACTION = 6,
    /* A: Add Order, no MPID attribution */
    LADLEMOSS_ADD_ORDER_ORDER_REFERENCE_NUMBER = 4,
    LADLEMOSS_ADD_ORDER_BUY_SELL_INDICATOR = 5,
    LADLEMOSS_ADD_ORDER_SHARES = 6,
    LADLEMOSS_ADD_ORDER_STOCK = 7,
    LADLEMOSS_ADD_ORDER_PRICE = 8,
    /* F: Add Order with MPID attribution */
    LADLEMOSS_ADD_ORDER_MPID_ORDER_REFERENCE_NUMBER = 4,
    LADLEMOSS_ADD_ORDER_MPID_BUY_SELL_INDICATOR = 5,
    LADLEMOSS_ADD_ORDER_MPID_SHARES = 6,
    LADLEMOSS_ADD_ORDER_MPID_STOCK = 7,
    LADLEMOSS_ADD_ORDER_MPID_PRICE = 8,
    LADLEMOSS_ADD_ORDER_MPID_ATTRIBUTION = 9,
    /* E: Order Executed */
    LADLEMOSS_ORDER_EXECUTED_ORDER_REFERENCE_NUMBER = 4,
    LADLEMOSS_ORDER_EXECUTED_EXECUTED_SHARES = 5,
    LADLEMOSS_ORDER_EXECUTED_MATCH_NUMBER = 6,
    /* C: Order Executed With Price */
    LADLEMOSS_ORDER_EXECUTED_WITH_PRICE_ORDER_REFERENCE_NUMBER = 4,
    LADLEMOSS_ORDER_EXECUTED_WITH_PRICE_EXECUTED_SHARES = 5,
    LADLEMOSS_ORDER_EXECUTED_WITH_PRICE_MATCH_NUMBER = 6,
    LADLEMOSS_ORDER_EXECUTED_WITH_PRICE_PRINTABLE = 7,
    LADLEMOSS_ORDER_EXECUTED_WITH_PRICE_EXECUTION_PRICE = 8,
    /* X: Order Cancel */
    LADLEMOSS_ORDER_CANCEL_ORDER_REFERENCE_NUMBER = 4,
    LADLEMOSS_ORDER_CANCEL_CANCELLED_SHARES = 5,
    /* D: Order Delete */
    LADLEMOSS_ORDER_DELETE_ORDER_REFERENCE_NUMBER = 4,
    /* U: Order Replace */
    LADLEMOSS_ORDER_REPLACE_ORIGINAL_ORDER_REFERENCE_NUMBER = 4,
    LADLEMOSS_ORDER_REPLACE_NEW_ORDER_REFERENCE_NUMBER = 5,
    LADLEMOSS_ORDER_REPLACE_SHARES = 6,
    LADLEMOSS_ORDER_REPLACE_PRICE = 7,
    /* P: Trade (Non-Cross) */
    LADLEMOSS_TRADE_ORDER_REFERENCE_NUMBER = 4,
    LADLEMOSS_TRADE_BUY_SELL_INDICATOR = 5,
    LADLEMOSS_TRADE_SHARES = 6,
    LADLEMOSS_TRADE_STOCK = 7,
    LADLEMOSS_TRADE_PRICE = 8,
    LADLEMOSS_TRADE_MATCH_NUMBER = 9,
    /* Q: Cross Trade */
    LADLEMOSS_CROSS_TRADE_SHARES = 4,
    LADLEMOSS_CROSS_TRADE_STOCK = 5,
    LADLEMOSS_CROSS_TRADE_CROSS_PRICE = 6,
    LADLEMOSS_CROSS_TRADE_MATCH_NUMBER = 7,
    LADLEMOSS_CROSS_TRADE_CROSS_TYPE = 8,
    /* B: Broken Trade */
    LADLEMOSS_BROKEN_TRADE_MATCH_NUMBER = 4,
    /* I: Net Order Imbalance Indicator */
    LADLEMOSS_NET_ORDER_IMBALANCE_PAIRED_SHARES = 4,
    LADLEMOSS_NET_ORDER_IMBALANCE_IMBALANCE_SHARES = 5,
    LADLEMOSS_NET_ORDER_IMBALANCE_IMBALANCE_DIRECTION = 6,
    LADLEMOSS_NET_ORDER_IMBALANCE_STOCK = 7,
    LADLEMOSS_NET_ORDER_IMBALANCE_FAR_PRICE = 8,
    LADLEMOSS_NET_ORDER_IMBALANCE_NEAR_PRICE = 9,
    LADLEMOSS_NET_ORDER_IMBALANCE_CURRENT_REFERENCE_PRICE = 10,
    LADLEMOSS_NET_ORDER_IMBALANCE_CROSS_TYPE = 11,
    LADLEMOSS_NET_ORDER_IMBALANCE_PRICE_VARIATION_INDICATOR = 12,
    /* N: Retail Interest */
    LADLEMOSS_RETAIL_INTEREST_STOCK = 4,
    LADLEMOSS_RETAIL_INTEREST_INTEREST_FLAG = 5,
    /* O: Direct Listing with Capital Raise */
    LADLEMOSS_DIRECT_LISTING_STOCK = 4,
    LADLEMOSS_DIRECT_LISTING_OPEN_ELIGIBILITY_STATUS = 5,
    LADLEMOSS_DIRECT_LISTING_MINIMUM_ALLOWABLE_PRICE = 6,
    LADLEMOSS_DIRECT_LISTING_MAXIMUM_ALLOWABLE_PRICE = 7,
    LADLEMOSS_DIRECT_LISTING_NEAR_EXECUTION_PRICE = 8,
    LADLEMOSS_DIRECT_LISTING_NEAR_EXECUTION_TIME = 9,
    LADLEMOSS_DIRECT_LISTING_LOWER_PRICE_RANGE_COLLAR = 10,
    LADLEMOSS_DIRECT_LISTING_UPPER_PRICE_RANGE_COLLAR = 11
};

/*
 * The figures of ladlemoss_apply, figures[10]: of the order that A, F, E, C, X, D or U concerns, for U the one that
 * is closed, and in the last five of the order that U starts. All 0 where no order is concerned.
 */
enum ladlemoss_figures {
    LADLEMOSS_FIGURES_LOCATE = 0,
    LADLEMOSS_FIGURES_SIDE = 1,
    LADLEMOSS_FIGURES_PRICE = 2,
    LADLEMOSS_FIGURES_SHARES = 3,  /* taken from the order, or put with it */
    LADLEMOSS_FIGURES_REMAINS = 4, /* what then remains: 0 for an order closed or used up */
    LADLEMOSS_FIGURES_NEW_LOCATE = 5,
    LADLEMOSS_FIGURES_NEW_SIDE = 6,
    LADLEMOSS_FIGURES_NEW_PRICE = 7,
    LADLEMOSS_FIGURES_NEW_SHARES = 8,
    LADLEMOSS_FIGURES_NEW_REMAINS = 9
};

/* The account of an order, out[8]. */
enum ladlemoss_account {
    LADLEMOSS_ACCOUNT_ADDED = 0,
    LADLEMOSS_ACCOUNT_EXECUTED = 1,
    LADLEMOSS_ACCOUNT_CANCELLED = 2,
    LADLEMOSS_ACCOUNT_REMAINING = 3, /* added - executed - cancelled, at least 1 */
    LADLEMOSS_ACCOUNT_LOCATE = 4,
    LADLEMOSS_ACCOUNT_SIDE = 5,
    LADLEMOSS_ACCOUNT_PRICE = 6,
    LADLEMOSS_ACCOUNT_ATTRIBUTION = 7 /* NSDQ where the order came without its own */
};

/* A level, out[2]: the remaining shares of its orders, and how many they are. */
enum ladlemoss_level_numbers { LADLEMOSS_LEVEL_TOTAL = 0, LADLEMOSS_LEVEL_COUNT = 1 };

/* The best and the next level, out[4]: 1 and the level's numbers, or four zeros where there is none. */
enum ladlemoss_quote {
    LADLEMOSS_QUOTE_STANDS = 0,
    LADLEMOSS_QUOTE_PRICE = 1,
    LADLEMOSS_QUOTE_TOTAL = 2,
    LADLEMOSS_QUOTE_COUNT = 3
};

/* A symbol, out[2]: where in the message it starts, and how many bytes it has without its padding. */
enum ladlemoss_symbol_part { LADLEMOSS_SYMBOL_START = 0, LADLEMOSS_SYMBOL_BYTES = 1 };

/* Reads one message, without tables. Gives DONE or LENGTH to SHARES. */
uint8_t ladlemoss_read(const uint8_t *bytes, size_t length, uint64_t out[18]);

/* Makes both tables fresh, all zero. Gives DONE, or SHAPE and leaves them. */
uint8_t ladlemoss_fresh(uint64_t *directory, size_t directory_length, uint64_t *book, size_t book_length);

/* Applies one message to both tables: its numbers in out, those of the orders it concerns in figures. */
uint8_t ladlemoss_apply(uint64_t *directory, size_t directory_length, uint64_t *book, size_t book_length,
                        const uint8_t *bytes, size_t length, uint64_t out[18], uint64_t figures[10]);

/* The account of the live order with a reference. Gives DONE, SHAPE, NO_ORDER or BOOK. */
uint8_t ladlemoss_order(const uint64_t *book, size_t book_length, uint64_t reference, uint64_t out[8]);

/*
 * The level of a stock's side at a price: any locate and price may be asked, and none there is 0 and 0. This and
 * the two below give DONE, SHAPE, FIELD for a side byte other than B and S, or BOOK if any live slot is unsound.
 */
uint8_t ladlemoss_level(const uint64_t *book, size_t book_length, uint16_t locate, uint8_t side, uint32_t price,
                        uint64_t out[2]);

/* The best level of a stock's side: the highest price to buy, the lowest to sell. */
uint8_t ladlemoss_best(const uint64_t *book, size_t book_length, uint16_t locate, uint8_t side, uint64_t out[4]);

/* The next level of a stock's side that is worse than a price. */
uint8_t ladlemoss_next(const uint64_t *book, size_t book_length, uint16_t locate, uint8_t side, uint32_t price,
                       uint64_t out[4]);

/* How many slots are live. Gives DONE or SHAPE. */
uint8_t ladlemoss_live(const uint64_t *book, size_t book_length, uint64_t out[1]);

/*
 * The message's symbol as a part of its bytes; 0 and 0 unless the directory's length is right and the message is
 * well formed, has a stock, and its locate is registered with that stock.
 */
void ladlemoss_symbol(const uint64_t *directory, size_t directory_length, const uint8_t *bytes, size_t length,
                      uint64_t out[2]);

#ifdef __cplusplus
}
#endif

#endif
