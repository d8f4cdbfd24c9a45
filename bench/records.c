// The session files of make bench, by a word: records mixed | start | full | opening | quotes | overwriting | empty writes
// one to standard output. What `full` has more than `start` is orders only; `quotes` and `overwriting` have quotes only.
#include <stdint.h>
#include <stdio.h>
#include <string.h>

enum { BUY = 1, SELL = 2, AT_THE_OPENING = 1, AT_THE_CLOSE = 2, OPENING = 1, CLOSING = 2 };
enum { STEP = 100, REFERENCE = 100000, LIMITS = 512, PLACES = 512, RECORDS = 5000, MOST_RESTING = 400, MAKERS = 8 };

static void number(uint64_t x, int bytes)
{
    for (; bytes > 0; bytes--, x /= 256) {
        uint8_t byte = x % 256;
        fwrite(&byte, 1, 1, stdout);
    }
}

static void header(int length, int kind)
{
    number(length, 2);
    number(kind, 2);
}

// Factor 9; the highest threshold, so that no opening is delayed.
static void start(void)
{
    header(24, 1);
    number(STEP, 4);
    number(REFERENCE, 4);
    number(9, 2);
    number(9999, 2);
    number(1000000000, 8);
}

static void order(int member, int side, int validity, uint32_t quantity, uint32_t limit)
{
    header(16, 2);
    number(member, 2);
    number(side, 1);
    number(validity, 1);
    number(quantity, 4);
    number(limit, 4);
}

static void delete(uint32_t number_given, int member)
{
    header(10, 3);
    number(number_given, 4);
    number(member, 2);
}

static void auction(int which)
{
    header(5, 4);
    number(which, 1);
}

static void quote(int member, uint32_t bid_quantity, uint32_t bid, uint32_t ask_quantity, uint32_t ask)
{
    header(22, 5);
    number(member, 2);
    number(bid_quantity, 4);
    number(bid, 4);
    number(ask_quantity, 4);
    number(ask, 4);
}

// A fixed generator: below(n) is 0 to n - 1.
static uint32_t state = 2463534242;

static uint32_t below(uint32_t n)
{
    state ^= state << 13;
    state ^= state >> 17;
    state ^= state << 5;
    return state % n;
}

// One of 512 steps; those of the two sides overlap around the reference price, and one order in 50 is unlimited.
static uint32_t limit_of(int side)
{
    uint32_t lowest = side == BUY ? REFERENCE - 200 * STEP : REFERENCE - 311 * STEP;
    return below(50) == 0 ? 0 : lowest + STEP * below(LIMITS);
}

static void full(void)
{
    start();
    for (int i = 0; i < PLACES; i++) {
        int side = i % 2 == 0 ? BUY : SELL;
        order(1 + below(65535), side, 3 + below(2), 1 + below(97), limit_of(side));
    }
}

// K2: limits up to 99 steps from the reference price, the bid below it and the ask above.
static void quote_of(int member)
{
    uint32_t bid = REFERENCE - STEP * (1 + below(99)), ask = REFERENCE + STEP * (1 + below(99));
    uint32_t bid_quantity = 1 + below(97);
    quote(member, bid_quantity, bid, 1 + below(97), ask);
}

// Each by a member of its own, so that the book is full at the end.
static void quotes(void)
{
    start();
    for (int i = 0; i < PLACES / 2; i++) quote_of(1 + 255 * i);
}

// All but the first few overwrite one.
static void overwriting(void)
{
    start();
    for (int i = 0; i < RECORDS; i++) quote_of(1 + below(MAKERS));
}

// An order that is refused: by 1, 5, 6 or 8.
static void refused(int member, int side)
{
    switch (below(4)) {
    case 0: return order(member, side, 3, 0, REFERENCE);
    case 1: return order(member, side, 3, 1, REFERENCE + 1);
    case 2: return order(member, side, 3, 1, 9 * REFERENCE);
    default: return order(member, side, 3, 10000000, 0);
    }
}

// The orders that may be deleted: after the opening only those that took no part are known to rest.
static struct { uint32_t number; int member, validity; } resting[MOST_RESTING];
static int count;

static void forget(int i) { resting[i] = resting[--count]; }

static void mixed(void)
{
    uint32_t given = 0;
    int earliest = AT_THE_OPENING;
    start();
    for (int place = 2; place < RECORDS; place++) {
        int member = 1 + below(65535), side = 1 + below(2);
        if (place == RECORDS / 2) {
            auction(OPENING);
            earliest = AT_THE_CLOSE;
            for (int i = count; i-- > 0;)
                if (resting[i].validity != AT_THE_CLOSE) forget(i);
        } else if (below(25) == 0) {
            if (below(2) == 0) refused(member, side);
            else delete(1000000 - below(1000), member);
        } else if (count == MOST_RESTING || (count > 0 && below(5) < 2)) {
            int i = below(count);
            delete(resting[i].number, resting[i].member);
            forget(i);
        } else {
            int validity = below(10) == 0 ? earliest : AT_THE_CLOSE + (int)below(3);
            order(member, side, validity, 1 + below(97), limit_of(side));
            resting[count].number = ++given;
            resting[count].member = member;
            resting[count++].validity = validity;
        }
    }
    auction(CLOSING);
}

int main(int words, char **word)
{
    if (words == 2 && strcmp(word[1], "mixed") == 0) mixed();
    else if (words == 2 && strcmp(word[1], "start") == 0) start();
    else if (words == 2 && strcmp(word[1], "full") == 0) full();
    else if (words == 2 && strcmp(word[1], "opening") == 0) full(), auction(OPENING);
    else if (words == 2 && strcmp(word[1], "quotes") == 0) quotes();
    else if (words == 2 && strcmp(word[1], "overwriting") == 0) overwriting();
    else return words != 2 || strcmp(word[1], "empty") != 0;
}
