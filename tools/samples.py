#!/usr/bin/env python3
"""samples.py: writes samples/*.session, samples/clearing/*.session and samples/README.md. samples.py --into FOLDER: writes them there
instead. samples.py NAME: writes that one file to standard output.

A sample is a function: its name is the file's, its docstring the README's sentence, what it returns the file's records. What
is printed for it, the .out beside it, is not made here: the scope document says what is right there, not a program.
"""
import struct
import sys
from pathlib import Path

BUY, SELL = 1, 2
AT_THE_OPENING, AT_THE_CLOSE, DAY, LATER_DAY = 1, 2, 3, 4
UNLIMITED = 0


# The records of the scope document's "Session file", little-endian: length, kind, fields.
def record(kind, fields):
    return struct.pack("<HH", 4 + len(fields), kind) + fields


def start(step=100, reference=100_000, factor=9, threshold=150, maximum=10**12):
    return record(1, struct.pack("<IIHHQ", step, reference, factor, threshold, maximum))


def band_start(rows, reference=100_000, factor=9, threshold=150, maximum=10**12):
    """K6: rows of lowest price and step instead of the one step."""
    table = b"".join(struct.pack("<II", *row) for row in rows)
    return record(6, struct.pack("<H", len(rows)) + table + struct.pack("<IHHQ", reference, factor, threshold, maximum))


def order(side, quantity, limit, validity=DAY, member=7):
    return record(2, struct.pack("<HBBII", member, side, validity, quantity, limit))


def delete(number, member=7):
    return record(3, struct.pack("<IH", number, member))


def auction(which):
    return record(4, struct.pack("<B", which))


def quote(bid, ask, member=7):
    """K2: a quantity and a limit for the bid, and for the ask."""
    return record(5, struct.pack("<HIIII", member, *bid, *ask))


def buy(quantity, limit=UNLIMITED, **other):
    return order(BUY, quantity, limit, **other)


def sell(quantity, limit=UNLIMITED, **other):
    return order(SELL, quantity, limit, **other)


OPENING, CLOSING = auction(1), auction(2)
SAMPLES, UNSTORED, CLEARING = [], [], []


def sample(function):
    SAMPLES.append(function)
    return function


def clearing(function):
    """One for the program that keeps the square (K5)."""
    CLEARING.append(function)
    return function


def unstored(size):
    """One that is too long to be stored."""
    def add(function):
        UNSTORED.append((function, size))
        return function
    return add


# The scope document's own input and sums

@sample
def worked():
    """The worked example: three buys and a sell trade 80 at the opening, the best limit first and then the lower number."""
    return [start(), buy(50, 100_200), buy(50, 100_400), buy(50, 100_200), sell(80, 100_200), OPENING]


@sample
def p1():
    """P1: with the reference price 100,000 and the factor 9 a limit of 899,900 passes and 900,000 is refused by 6."""
    return [start(), buy(1, 899_900), buy(1, 900_000)]


@sample
def p2():
    """P2: a limit of 11,200 passes (times 9 it is 100,800) and 11,100 is refused by 6 (99,900)."""
    return [start(), buy(1, 11_200), buy(1, 11_100)]


@sample
def p3():
    """P3: 5,000,000 at 200,000 reach the maximum order value and are refused by 7; 4,999,999 pass."""
    return [start(), buy(5_000_000, 200_000), buy(4_999_999, 200_000)]


@sample
def p4():
    """P4: an unlimited order of 10,000,000 reaches the maximum order value at the reference price and is refused by 8; 9,999,999 pass."""
    return [start(), buy(10_000_000), buy(9_999_999)]


@sample
def p5():
    """P5: buy 100 at 100,500 and sell 100 at 99,500 trade at neither limit but at the reference price between them."""
    return [start(), buy(100, 100_500), sell(100, 99_500), OPENING]


@sample
def p6_sell_60():
    """P6: where only 60 are sold demand exceeds supply, and the buy's limit is the price."""
    return [start(), buy(100, 100_500), sell(60, 99_500), OPENING]


@sample
def p6_buy_60():
    """P6: where only 60 are bought supply exceeds demand, and the sell's limit is the price."""
    return [start(), buy(60, 100_500), sell(100, 99_500), OPENING]


@sample
def p7():
    """P7: two unlimited orders trade at the reference price, the only candidate."""
    return [start(), buy(50), sell(50), OPENING]


@sample
def p8():
    """P8: an unlimited buy of 50 against a sell of 30 is a Non Opening; with an unlimited buy of 30 instead the opening trades."""
    return [start(), buy(50), sell(30, 100_200), OPENING, delete(1), buy(30), OPENING]


P9 = [buy(100, 100_400), buy(20, 100_200), sell(100, 99_800), sell(20, 100_400), OPENING]


@sample
def p9():
    """P9: four candidates leave 20 over, on one side or the other, and the nearest to the reference price is the reference price."""
    return [start()] + P9


@sample
def p9_reference_101000():
    """P9 with the reference price 101,000, where nothing can be executed: the nearest of the others is 100,400."""
    return [start(reference=101_000)] + P9


@sample
def p10():
    """P10: a price 1.5% from the reference price is a Delayed Opening; asked again, it opens."""
    return [start(), buy(10, 101_500), sell(10, 101_500), OPENING, OPENING]


@sample
def p10_at_once():
    """P10: a price 1.4% from the reference price opens at once."""
    return [start(), buy(10, 101_400), sell(10, 101_400), OPENING]


@sample
def empty_book():
    """Both auctions of an empty book have outcome 2."""
    return [start(), OPENING, CLOSING]


@sample
def at_the_close():
    """An unlimited at-the-close buy is no part of the opening, nor of what could prevent it; the closing trades it and leaves no order."""
    return [start(), buy(50, validity=AT_THE_CLOSE), sell(30, 100_200), OPENING, CLOSING, delete(1), delete(2)]


# Refusals

@sample
def refusal_1_start():
    """Refusal 1: each field of a start below its range and above it, a reference price that is no multiple of the step; then a good start."""
    return [
        start(step=0), start(step=1_000_001, reference=2_000_002),
        start(reference=0), start(reference=100_000_100), start(reference=100_050),
        start(factor=1), start(factor=1_000),
        start(threshold=0), start(threshold=10_000),
        start(maximum=0), start(maximum=10**15 + 1),
        start(),
    ]


@sample
def refusal_1_order():
    """Refusal 1: each field of an order out of its range, below and above where it can be; the highest quantity and the highest limit are good."""
    return [
        # parameters that no control refuses these by
        start(reference=1_000_000, factor=999, maximum=10**15),
        buy(10, 1_000_000, member=0),
        order(0, 10, 1_000_000), order(3, 10, 1_000_000),
        buy(10, 1_000_000, validity=0), buy(10, 1_000_000, validity=5),
        buy(0, 1_000_000), buy(10_000_001, 1_000_000),
        buy(10, 100_000_100),
        buy(10_000_000, 1_000_000), buy(1, 100_000_000),
    ]


@sample
def refusal_1_delete():
    """Refusal 1: a delete's number 0 or 1,000,001 and its member 0; the ends of both ranges are in range, and 11 when no such order rests."""
    return [start(), buy(10, 100_000), delete(0), delete(1_000_001), delete(1, member=0),
            delete(1_000_000), delete(1, member=1), delete(1, member=65_535), delete(1)]


@sample
def refusal_1_auction():
    """Refusal 1: auctions 0, 3 and 255; then an opening."""
    return [start(), auction(0), auction(3), auction(255), OPENING]


@sample
def refusal_1_first():
    """Refusal 1 goes before 2, 3, 4 and 11: fields out of range before the start, on a started session and when closed."""
    return [buy(0), delete(0), auction(0), start(factor=1), start(), start(factor=1), delete(0),
            OPENING, CLOSING, buy(0), auction(3), start(factor=1)]


@sample
def refusal_2():
    """Refusal 2: an order, a delete and both auctions before the start; the order refused took no number."""
    return [buy(10, 100_000), delete(1), OPENING, CLOSING, start(), buy(10, 100_000)]


@sample
def refusal_3():
    """Refusal 3: start on a started session, in each of its phases; the first start's step stays in force."""
    again = start(step=50)
    return [start(), start(), again, buy(10, 100_050), OPENING, again, buy(10, 100_050), CLOSING, again]


@sample
def refusal_4_orders():
    """Refusal 4: every validity may be entered in pre-opening, all but at-the-opening in day, none when closed; deleting is allowed even then."""
    each = [buy(10, 99_000, validity=v) for v in (AT_THE_OPENING, AT_THE_CLOSE, DAY, LATER_DAY)]
    return [start(), *each, OPENING, *each, CLOSING, *each, delete(4), delete(7)]


@sample
def refusal_4_auctions():
    """Refusal 4: no closing in pre-opening, no opening in day, neither when closed."""
    return [start(), CLOSING, OPENING, OPENING, CLOSING, OPENING, CLOSING]


@sample
def refusal_5():
    """Refusal 5: limits that are no multiple of the step 100; an unlimited order is none of them."""
    return [start(), buy(10, 100_001), sell(10, 100_050), sell(10, 100_199), sell(10, 100_200), buy(10)]


@sample
def refusal_6():
    """Refusal 6 at both ends: with the reference price 90,000 and the factor 9 to reach 10,000 or 810,000 is a hit; one step inside passes."""
    return [start(reference=90_000), buy(10, 10_000), buy(10, 10_100), sell(10, 810_000), sell(10, 809_900)]


@sample
def refusal_7():
    """Refusal 7: 2,500,000 at 400,000 reach the maximum order value by the limit alone, on either side; one less passes."""
    return [start(), buy(2_500_000, 400_000), sell(2_500_000, 400_000), buy(2_499_999, 400_000)]


@sample
def refusal_8():
    """Refusal 8: 10,000,000 at the reference price reach the maximum order value, even if the limit is half of it; one less passes."""
    return [start(), sell(10_000_000), buy(10_000_000, 50_000), buy(9_999_999, 50_000)]


@unstored("26 MB")
def refusal_9():
    """Refusal 9: one number is too few for a quote, an order takes it; when 1,000,000 have been given neither gets one, in a full book (9 goes
    before 10) or after a deletion."""
    one, two = buy(1, 99_000), quote((1, 99_000), (1, 101_000))
    entered = [one + delete(n) for n in range(1, 1_000_000 - 511)]
    return [start(), *entered, one * 511, two, one, one, two, delete(1_000_000), one, two]


@unstored("11 MB")
def refusal_9_two_left():
    """Refusal 9: a quote, the 500,000th of its member, takes the last two numbers; the next one is refused, though a side is deleted, and so is an
    order; the sides that rest stay."""
    one, two = buy(1, 99_000), quote((1, 99_000), (1, 101_000))
    return [start(), two * 500_000, two, one, delete(999_999), two, one, OPENING, delete(1_000_000)]


# 512 orders that don't trade
FULL = [buy(10, 99_000)] * 256 + [sell(10, 101_000)] * 256


@sample
def refusal_10():
    """Refusal 10: the 513th order finds all places taken; a deletion frees one for the next, number 513; the one after is refused again."""
    return [start(), *FULL, buy(10, 99_000), delete(200), buy(10, 99_000), buy(10, 99_000)]


@sample
def refusal_11():
    """Refusal 11: a number never given, another member's, one deleted already, two that traded, and one that left after the opening."""
    return [
        start(), buy(10, 99_000), buy(10, 100_000, member=8), sell(10, 100_000), buy(10, 98_000, validity=AT_THE_OPENING),
        delete(5), delete(1, member=8), delete(2), delete(1), delete(1),
        OPENING, delete(2, member=8), delete(3), delete(4),
    ]


@sample
def first_hit():
    """The first hit answers: an order meets refusals 1, 4, 5, 6, 7, 8 and 10 at once, the next one less, and so on to a good one."""
    return [
        start(), *FULL, OPENING,
        buy(10_000_000, 950_050, validity=AT_THE_OPENING, member=0),
        buy(10_000_000, 950_050, validity=AT_THE_OPENING),
        buy(10_000_000, 950_050),
        buy(10_000_000, 950_000),
        buy(10_000_000, 800_000),
        buy(10_000_000, 50_000),
        buy(10, 50_000),
        delete(1),
        buy(10, 50_000),
    ]


# Refusals of quotes (K2)

# A quote that is good, and its sides with the quantity and the limit of each.
BID, ASK = (10, 99_800), (10, 100_200)
GOOD = quote(BID, ASK)


@sample
def refusal_1_quote():
    """Refusal 1: each field of a quote out of its range, below and above where it can be, a limit of 0 too; the ends of quantity and member are good."""
    bid, ask = (10, 1_000_000), (10, 1_000_100)
    return [
        # parameters that no control refuses these by
        start(reference=1_000_000, factor=999, maximum=10**15),
        quote(bid, ask, member=0),
        quote((0, 1_000_000), ask), quote((10_000_001, 1_000_000), ask), quote((10, 0), ask), quote((10, 100_000_100), ask),
        quote(bid, (0, 1_000_100)), quote(bid, (10_000_001, 1_000_100)), quote(bid, (10, 0)), quote(bid, (10, 100_000_100)),
        quote((10_000_000, 1_100), (1, 100_000_000), member=1), quote((1, 1_100), (10_000_000, 10_000_000), member=65_535),
    ]


@sample
def refusal_13():
    """Refusal 13: a bid at its ask or above it, before the start, after it and when closed: 1 goes before it, 2, 4 and 5 behind; one step below passes."""
    return [
        quote((10, 100_200), (0, 100_000)), quote((10, 100_050), (10, 100_050)), GOOD,
        start(),
        quote((10, 100_200), (10, 100_000)), quote((10, 100_000), (10, 100_000)), quote((10, 100_051), (10, 100_050)),
        quote((10, 100_000), (10, 100_100)),
        OPENING, CLOSING, quote((10, 100_000), (10, 100_000)), GOOD,
    ]


@sample
def refusal_2_quote():
    """Refusal 2: a quote before the start; it took no numbers."""
    return [GOOD, quote((10, 99_850), ASK), start(), GOOD]


@sample
def refusal_4_quote():
    """Refusal 4: a quote may be entered in pre-opening and in day as a day order may, and not when closed."""
    return [start(), GOOD, OPENING, GOOD, CLOSING, GOOD, quote((10, 99_850), ASK)]


@sample
def refusal_5_quote():
    """Refusal 5: a bid's limit or an ask's that is no multiple of the step 100; the old quote stays, and its sides can be deleted."""
    return [start(), GOOD, quote((10, 99_850), ASK), quote(BID, (10, 100_150)), quote((10, 99_801), (10, 99_899)), delete(1), delete(2)]


@sample
def refusal_6_quote():
    """Refusal 6: with the reference price 90,000 and the factor 9 a bid at 10,000 or an ask at 810,000 is a hit; one step inside passes."""
    return [start(reference=90_000), quote((10, 10_000), ASK), quote(BID, (10, 810_000)), quote((10, 10_000), (10, 810_000)),
            quote((10, 10_100), (10, 809_900))]


@sample
def refusal_7_quote():
    """Refusal 7: 2,500,000 at 400,000 reach the maximum order value by the limit alone, as a bid or as an ask; one less passes as either."""
    return [start(), quote((2_500_000, 400_000), (10, 400_100)), quote((10, 399_900), (2_500_000, 400_000)),
            quote((2_499_999, 400_000), (10, 400_100)), quote((10, 399_900), (2_499_999, 400_000))]


@sample
def refusal_8_quote():
    """Refusal 8: 10,000,000 at the reference price reach the maximum order value, as a bid or as an ask with limits below it; one less passes on both."""
    return [start(), quote((10_000_000, 50_000), (10, 50_100)), quote((10, 50_000), (10_000_000, 50_100)),
            quote((9_999_999, 50_000), (9_999_999, 50_100))]


# 510 orders of member 8 that don't trade
ALMOST_FULL = [buy(10, 99_000, member=8)] * 255 + [sell(10, 101_000, member=8)] * 255


@sample
def refusal_10_quote():
    """Refusal 10: a quote needs two places. It is refused where none is free and where one is, and passes where two are; then the book is full."""
    return [
        start(), *ALMOST_FULL, buy(10, 99_000), buy(10, 99_000), GOOD,
        delete(511), GOOD, delete(512), GOOD,
        quote(BID, ASK, member=9), buy(10, 99_000),
    ]


@sample
def refusal_10_overwriting():
    """Refusal 10 where only the old quote's places count: with one side left and none free it is refused and the side stays; with one free it passes."""
    return [
        start(), *ALMOST_FULL, GOOD,
        # full; a side is deleted, and a plain order takes its place
        delete(512), buy(10, 99_000), GOOD,
        # the side that is left stays: it is still full
        buy(10, 99_000),
        # one place is free beside the side that is left
        delete(1, member=8), GOOD,
        # one is free, and nothing is left
        delete(514), delete(515), buy(10, 99_000), GOOD,
    ]


@sample
def first_hit_quote():
    """The first hit answers, each check on the bid and then on the ask: where the ask meets one of 5 to 7 and the bid only a later one, it is the ask's."""
    return [
        start(), *FULL, OPENING,
        # 1 and 13; 13 and 5 to 8
        quote((0, 950_050), (10_000_000, 950_050)),
        quote((10_000_000, 950_050), (10_000_000, 950_050)),
        # 5 on the ask, 6 on the bid
        quote((10_000_000, 11_100), (10_000_000, 950_050)),
        # 6 on the ask, 7 on the bid
        quote((10_000_000, 800_000), (10_000_000, 950_000)),
        # 7 on the ask, 8 on the bid
        quote((10_000_000, 50_000), (10_000_000, 800_000)),
        # 8 on both, on the ask, and then 10
        quote((10_000_000, 50_000), (10_000_000, 60_000)),
        quote((10, 50_000), (10_000_000, 60_000)),
        quote((10, 50_000), (10, 60_000)),
        # room for two
        delete(1), delete(512),
        quote((10, 50_000), (10, 60_000)),
    ]


@sample
def start_lowest():
    """A start with every field at the lowest of its range is good; no order then passes the controls: refusals 7, 6 and 8."""
    return [start(step=1, reference=1, factor=2, threshold=1, maximum=1), buy(1, 1), sell(1, 2), sell(1)]


@sample
def start_highest():
    """A start with every field at the highest of its range, and orders of the first and the last member that trade at the highest price."""
    return [
        start(step=1_000_000, reference=100_000_000, factor=999, threshold=9_999, maximum=10**15),
        buy(10_000_000, 100_000_000), buy(10_000_000, 99_000_000), buy(9_999_999, 100_000_000, member=1),
        sell(9_999_999, 100_000_000, member=65_535), OPENING,
    ]


# Outcomes, and what an auction leaves

@sample
def outcome_1():
    """Outcome 1: the opening trades 60; what is left of the buy stays, and the closing trades just that."""
    return [start(), buy(100, 100_200), sell(60, 100_200), OPENING, sell(100, 100_200), CLOSING]


@sample
def outcome_2():
    """Outcome 2: limits that don't meet; the at-the-opening order leaves, the others stay, and the reference price stays for the closing."""
    return [start(), buy(10, 99_900, validity=AT_THE_OPENING), buy(10, 99_800), sell(10, 100_100), OPENING,
            delete(1), delete(2), buy(5), sell(5), CLOSING]


@sample
def outcome_3():
    """Outcome 3, Non Opening: an unlimited sell of 50 finds 30; nothing changes, however often it is asked, until 20 more are bought."""
    return [start(), sell(50), buy(30, 99_800), OPENING, OPENING, CLOSING, buy(20, 99_900, validity=AT_THE_OPENING), OPENING]


@sample
def outcome_3_alone():
    """An unlimited order with nobody opposite is a Non Opening, not outcome 2."""
    return [start(), buy(10), OPENING]


@sample
def outcome_3_before_4():
    """Where both would hold, Non Opening comes before Delayed Opening and doesn't spend the delay."""
    return [start(), buy(50), sell(30, 110_000), OPENING, delete(1), buy(30), OPENING, OPENING]


@sample
def outcome_4():
    """Outcome 4, Delayed Opening: it is still pre-opening, and the delay is spent: asked again, another price as far away opens."""
    return [start(), buy(10, 102_000), sell(10, 102_000), OPENING, CLOSING, delete(1), delete(2),
            buy(10, 103_000, validity=AT_THE_OPENING), sell(10, 103_000), OPENING]


@sample
def outcome_4_below():
    """A price below the reference price by the threshold is a Delayed Opening too; asked again, it opens."""
    return [start(), buy(10, 98_500), sell(10, 98_500), OPENING, OPENING]


@sample
def closing_unlimited():
    """Unlimited orders that stay unfilled don't prevent the closing: it trades 30 of 50."""
    return [start(), OPENING, buy(50), sell(30, 100_200), CLOSING]


@sample
def closing_alone():
    """A closing with an unlimited order alone has outcome 2."""
    return [start(), OPENING, buy(50), CLOSING]


@sample
def closing_far():
    """A closing is never delayed: it trades at once, half above the reference price."""
    return [start(), OPENING, buy(10, 150_000), sell(10, 150_000), CLOSING]


@sample
def two_auctions():
    """The opening moves the reference price to 101,400 and unlimited orders close at it; the controls pass 11,200 and refuse 900,000 as before it."""
    return [
        start(), buy(10, 101_400), sell(10, 101_400), buy(1, 11_200), sell(1, 900_000), OPENING,
        buy(1, 11_200), sell(1, 900_000), buy(50), sell(50), CLOSING,
    ]


@sample
def yesterday_passes():
    """Opened at 400,000, the controls stay the start's (K4): 12,000 passes 6 and 2,500,000 pass 8, as orders and as a quote's sides; by 400,000 neither would."""
    return [
        start(), buy(10, 400_000), sell(10, 400_000), OPENING, OPENING, buy(10, 12_000), buy(2_500_000),
        quote((10, 12_000), (10, 500_000)), quote((10, 12_000), (2_500_000, 300_000)), CLOSING,
    ]


@sample
def yesterday_refuses():
    """Opened at 25,000, the controls stay the start's (K4): 11,100 is refused by 6 and 10,000,000 by 8, which would pass by 25,000; as a quote's sides, too."""
    return [
        start(), buy(10, 25_000), sell(10, 25_000), OPENING, OPENING, buy(10, 11_100), buy(10, 11_200),
        sell(10_000_000), sell(10_000_000, 25_000), sell(9_999_999, 25_000), quote((10, 11_100), (10, 25_100)),
        quote((10, 24_900), (10_000_000, 25_100)), quote((10, 24_900), (9_999_999, 25_100)), CLOSING,
    ]


@sample
def kept_for_the_closing():
    """An at-the-close buy with the best limit is kept out of an opening that trades, and trades in the closing."""
    return [start(), buy(50, 100_400, validity=AT_THE_CLOSE), buy(30, 100_200), sell(30, 100_000), OPENING,
            sell(50, 100_400), CLOSING]


@sample
def what_leaves():
    """Four orders that never trade: at-the-opening leaves with the opening, at-the-close and day with the closing, till a later day stays."""
    each = [buy(10, 99_000, validity=v) for v in (AT_THE_OPENING, AT_THE_CLOSE, DAY, LATER_DAY)]
    return [start(), *each, OPENING, delete(1), CLOSING, delete(2), delete(3), delete(4)]


@sample
def rank():
    """Both sides by rank: unlimited first, then the better price, then the lower number."""
    return [
        start(),
        buy(10, 100_200), buy(10), buy(10, 100_400), buy(10, 100_400),
        sell(10, 100_000), sell(10, 99_800), sell(10), sell(10, 100_000),
        OPENING,
    ]


@sample
def reused_place():
    """An order that takes the place of a deleted one doesn't jump the queue: of two equal limits the lower number trades first."""
    return [start(), buy(10, 100_000), buy(10, 100_000), delete(1), buy(10, 100_000), sell(10, 100_000), OPENING,
            sell(10, 100_000), CLOSING]


@sample
def full_book():
    """A full book of 256 buys and 256 sells, the 513th order refused, and the most trades that an auction can have, 511; none rests then."""
    buys = [buy(2, 100_000)] * 256
    sells = [sell(1, 100_000)] + [sell(2, 100_000)] * 254 + [sell(3, 100_000)]
    return [start(), *buys, *sells, buy(1, 100_000), OPENING, delete(1), delete(512), sell(1, 100_000), CLOSING]


# Quotes (K2)

@sample
def quote_overwritten():
    """A new quote removes the old one's two sides and takes two new numbers; plain orders of the same member and another member's quote stay."""
    return [
        start(), buy(10, 99_000), GOOD, quote(BID, ASK, member=8), sell(10, 101_000),
        quote((20, 99_900), (20, 100_100)),
        # the old sides are gone
        delete(2), delete(3),
        # all others rest
        delete(1), delete(4, member=8), delete(5, member=8), delete(6), delete(7), delete(8),
    ]


@sample
def quote_full_book():
    """A quote overwritten in a full book: the old one's two places are room enough for the new one, again and again; another member finds none."""
    return [
        start(), GOOD, *ALMOST_FULL,
        quote((20, 99_700), (20, 100_300)), quote((30, 99_600), (30, 100_400)), quote(BID, ASK, member=9), buy(10, 99_000),
        delete(1), delete(2), delete(513), delete(514), delete(515), delete(516), quote(BID, ASK, member=9),
    ]


@sample
def quote_half_executed():
    """The opening executes 30 of a bid's 100 at 100,000; the new quote removes the 70 and the whole ask, so the closing finds only its own 50."""
    return [
        start(), quote((100, 100_000), (100, 100_200)), sell(30, 100_000, member=8), OPENING,
        quote((50, 100_000), (100, 100_300)), sell(200, 100_000, member=8), CLOSING,
    ]


@sample
def quote_side_executed():
    """The opening executes a whole bid, so that the ask alone is left of the quote; the new quote removes it and takes two numbers."""
    return [
        start(), quote((30, 100_000), (100, 100_200)), sell(30, 100_000, member=8), OPENING,
        delete(1), quote((50, 99_900), (50, 100_300)), delete(2), buy(100, 100_300, member=8), CLOSING,
    ]


@sample
def quote_side_deleted():
    """A side is deleted by its number, by its own member alone; the other stays, is what is left of the quote, and goes when it is overwritten."""
    return [
        start(), GOOD, delete(1, member=8), delete(1), delete(1),
        # the ask alone is overwritten; then the new ask is deleted
        quote((20, 99_700), (20, 100_300)), delete(2), delete(4), delete(4),
        # the bid alone is overwritten; then both sides are deleted
        quote((30, 99_600), (30, 100_400)), delete(3), delete(5), delete(6), GOOD,
    ]


@sample
def quote_refused():
    """A quote of which one side is refused enters neither and takes no number: the old one stays, trades at the opening, and is overwritten after it."""
    return [
        start(), quote((40, 100_000), (40, 100_200)),
        quote((50, 100_000), (50, 100_050)), quote((50, 11_100), (50, 100_300)), quote((50, 100_000), (10_000_000, 100_300)),
        quote((50, 100_000), (50, 100_000)), quote((50, 100_000), (50, 0)),
        sell(100, 100_000, member=8), OPENING,
        quote((60, 100_000), (60, 100_200)), CLOSING,
    ]


@sample
def quotes_cross():
    """Two members' quotes cross at the opening: the bid of the one trades with the ask of the other; the sides rank among orders by price, then number."""
    return [
        start(), quote((10, 100_100), (10, 100_300)), quote((20, 99_700), (25, 100_100), member=8),
        buy(20, 100_100, member=9), buy(5, 100_200, member=9), OPENING,
    ]


@sample
def quote_own_orders():
    """Overwriting leaves the member's own sell as it is, and the new bid trades with it as with any other's."""
    return [start(), sell(10, 100_000), quote((20, 100_000), (20, 100_200)), quote((30, 100_000), (30, 100_100)), OPENING, delete(1), delete(4)]


@sample
def quote_at_the_close():
    """A quote has validity day: it takes part in the opening, stays after it, and ends at the close, where an order till a later day stays."""
    return [start(), GOOD, buy(10, 99_000, validity=LATER_DAY), OPENING, CLOSING, delete(1), delete(2), delete(3)]


@sample
def quote_rank():
    """Of two bids at one limit the lower number trades first: a quote that is entered anew goes behind the other member's."""
    return [start(), GOOD, quote(BID, ASK, member=8), GOOD, sell(10, 99_800, member=9), OPENING]


# The price

@sample
def tie_1():
    """The price, step 1: 100 can be executed at 100,400 and only 30 at the reference price."""
    return [start(), buy(100, 100_400), buy(50, 100_000), sell(80, 100_400), sell(30, 100_000), OPENING]


@sample
def tie_2():
    """The price, step 2: 60 can be executed at three candidates; at 100,600 none are left over, at the other two 40."""
    return [start(), buy(60, 100_600), buy(40, 100_200), sell(60, 100_000), OPENING]


@sample
def tie_3_highest():
    """The price, step 3: at 100,100 and at 100,700 demand exceeds supply by 40, and the highest is taken."""
    return [start(), buy(120, 100_700), buy(10, 99_900), sell(50, 99_800), sell(30, 100_100), OPENING]


@sample
def tie_3_lowest():
    """The price, step 3: at 99,300 and at 99,900 supply exceeds demand by 40, and the lowest is taken."""
    return [start(), sell(120, 99_300), sell(10, 100_100), buy(50, 100_200), buy(30, 99_900), OPENING]


@sample
def tie_4_above():
    """The price, step 4: nothing is left over at 100,300 or at 100,800, and the nearer to the reference price is taken."""
    return [start(), buy(40, 100_800), sell(40, 100_300), OPENING]


@sample
def tie_4_below():
    """The price, step 4: nothing is left over at 99,200 or at 99,700, and the nearer to the reference price is taken."""
    return [start(), buy(40, 99_700), sell(40, 99_200), OPENING]


@sample
def tie_4_both_sides():
    """The price, step 4: at 99,400 20 are left of the buys, at 99,800 20 of the sells, and the nearer to the reference price is taken."""
    return [start(), buy(100, 99_800), buy(20, 99_400), sell(100, 99_400), sell(20, 99_800), OPENING]


@sample
def tie_4_in_force():
    """The price, step 4, in a closing: of 100,300 and 101,200 the nearer to the opening's 101,400 is taken, not the nearer to the start's 100,000."""
    return [start(), buy(10, 101_400), sell(10, 101_400), OPENING, buy(40, 101_200), sell(40, 100_300), CLOSING]


# Price steps by band (K6): a row is (lowest price, step)

# The steps divide each other at the first two edges only. 200,100 is no multiple of its own row's step, and 300,030 none of the step below it.
BANDS = [(1, 50), (100_000, 100), (200_100, 200), (300_030, 30)]
# The most rows, some of them one price wide; no price of the first row is a multiple of its step.
EIGHT = [(1, 1_000_000), (101, 101), (102, 2), (103, 1), (105, 5), (1_000, 10), (1_000_000, 300_000), (100_000_000, 1_000_000)]


def rising(count):
    """Rows that are good but for their count."""
    return [(low, 1) for low in range(1, count + 1)]


@sample
def bands():
    """Rows (1, 30), (100,000, 70), (110,000, 200): from 99,990 in the first row the opening moves the reference price to 100,030 in the second, off the
    first one's step, and unlimited orders close at it; 100,050 and 110,180, on the step of the row below theirs, are refused by 5."""
    return [
        band_start([(1, 30), (100_000, 70), (110_000, 200)], reference=99_990),
        buy(30, 100_030), sell(30, 100_030), sell(20, 100_050), sell(20, 110_180), sell(20, 110_200), quote((20, 99_960), (20, 100_100)), OPENING,
        buy(40), sell(40), CLOSING,
    ]


@sample
def bands_eight_rows():
    """Eight rows, the last for the highest price alone, with the reference price 100,110 and the factor 999: limits at their edges, inside the collar."""
    limits = [100, 101, 102, 103, 104, 105, 106, 999, 1_000, 1_005, 999_990, 1_000_000, 1_200_000, 99_900_000, 99_999_999, 100_000_000]
    return [band_start(EIGHT, reference=100_110, factor=999), *(buy(1, limit) for limit in limits)]


# For a session with the step 100 throughout
ONE_STEP = [
    buy(50, 100_200), buy(10, 100_050), GOOD, quote(BID, (10, 100_150)), start(step=50), band_start([(1, 50)]), buy(10, 100_050),
    sell(80, 100_200), sell(10, 900_000), OPENING, buy(40), CLOSING,
]


@sample
def bands_one_row():
    """A session by kind 6 with the one row (1, 100); starts of either kind behind it are refused by 3."""
    return [band_start([(1, 100)]), *ONE_STEP]


@sample
def bands_kind_1():
    """The same by kind 1 with the step 100, which means that one row: it prints the same lines."""
    return [start(), *ONE_STEP]


@sample
def refusal_1_bands():
    """Refusal 1: tables that begin at 2 or at 0, with lowest prices that don't rise or are none, with a step out of its range, in the eighth row too; counts
    of 0, 9 and 257 in records of that length; then a good start."""
    seven = EIGHT[:-1]
    return [
        band_start([(2, 100)]), band_start([(0, 100)]),
        # lowest prices: equal, falling, the first one's again, 0, above the highest price
        band_start([(1, 100), (50_000, 50), (50_000, 100)]), band_start([(1, 100), (60_000, 50), (50_000, 100)]),
        band_start([(1, 50), (1, 100)]), band_start([(1, 100), (0, 100)]), band_start([(1, 100), (100_000_001, 100)]),
        band_start(seven + [(1_000_000, 100)]), band_start(seven + [(999_999, 100)]), band_start(seven + [(100_000_001, 100)]),
        # steps: the reference price is in a good row
        band_start([(1, 0), (50_000, 100)]), band_start([(1, 1_000_001), (50_000, 100)]),
        band_start([(1, 100), (200_000, 0)]), band_start([(1, 100), (200_000, 1_000_001)]),
        band_start(seven + [(100_000_000, 0)]), band_start(seven + [(100_000_000, 1_000_001)]),
        # a count has two bytes: the low one of 257 is 1
        band_start([]), band_start(rising(9)), band_start(rising(257)),
        band_start(EIGHT),
    ]


@sample
def refusal_1_bands_fields():
    """Refusal 1, rows (1, 100) and (100,000, 30): a reference price on the other row's step alone, 100,000 too, which belongs to the row that begins there;
    each other field below its range and above it; then a good start with 100,020."""
    rows = [(1, 100), (100_000, 30)]

    def by(reference=100_020, **other):
        return band_start(rows, reference, **other)
    return [
        by(reference=100_100), by(reference=99_990), by(reference=100_000),
        by(reference=0), by(reference=100_000_020),
        by(factor=1), by(factor=1_000),
        by(threshold=0), by(threshold=10_000),
        by(maximum=0), by(maximum=10**15 + 1),
        by(),
    ]


@sample
def refusal_3_bands():
    """Refusal 3: a start of either kind on a session started by kind 6, in each of its phases, and 1 before it; the first table stays in force."""
    again = [start(step=50), band_start([(1, 50)]), band_start([(2, 50)]), buy(10, 100_050), buy(10, 99_950)]
    return [band_start(BANDS), *again, OPENING, *again, CLOSING, *again[:3]]


@sample
def refusal_5_bands():
    """Refusal 5 by the row, rows (1, 50), (100,000, 100), (200,100, 200), (300,030, 30): limits at each edge, below it and above it, and on the step of the
    row on its other side; a row's lowest price belongs to it; an unlimited order to none; 5 goes before 6."""
    return [
        band_start(BANDS),
        *(buy(10, limit) for limit in (99_950, 99_999, 100_000, 100_001, 100_050, 100_100)),
        *(sell(10, limit) for limit in (200_000, 200_099, 200_100, 200_101, 200_200)),
        *(sell(10, limit) for limit in (299_800, 299_970, 300_029, 300_030, 300_031, 300_200)),
        buy(10), sell(10, 899_970), sell(10, 900_010), sell(10, 900_000),
    ]


@sample
def refusal_5_bands_quote():
    """Refusal 5 by the row of each side, with the same rows: bids and asks on both sides of each edge; the last one accepted stays, and can be deleted."""
    each = [
        (99_950, 100_000), (99_950, 100_050), (99_999, 100_000), (100_050, 100_100),
        (100_000, 200_000), (200_000, 200_100), (200_100, 200_200), (200_000, 200_200),
        (299_970, 300_030), (299_800, 300_029), (299_800, 300_031), (299_800, 300_030), (300_030, 300_200),
    ]
    return [band_start(BANDS), *(quote((10, bid), (10, ask)) for bid, ask in each), delete(7), delete(8)]


# Files that are empty, cut or faulty

@sample
def empty():
    """An empty file is good and has no records."""
    return []


@sample
def not_a_session():
    """A text: its first four bytes are no header, and the walk ends at once."""
    return [b"This is not a session file.\n"]


@sample
def cut_first_byte():
    """A record cut after the first byte of its length."""
    return [start(), buy(10)[:1]]


@sample
def cut_header():
    """A record cut inside its header, after three bytes."""
    return [start(), buy(10)[:3]]


@sample
def cut_behind_header():
    """A record cut between its header and its fields."""
    return [start(), OPENING[:4]]


@sample
def cut_fields():
    """A record cut inside its fields."""
    return [start(), buy(10)[:10]]


@sample
def cut_last_byte():
    """A record that lacks its last byte."""
    return [start(), buy(10), delete(1)[:-1]]


@sample
def unknown_kind():
    """A record of kind 9 ends the walk; the good records behind it are not read."""
    return [start(), struct.pack("<HHB", 5, 9, 1), buy(10), OPENING]


@sample
def unknown_kind_0():
    """A record of kind 0 ends the walk."""
    return [start(), struct.pack("<HHB", 5, 0, 1), buy(10)]


@sample
def unknown_kind_258():
    """A kind has two bytes: 258, whose first byte is an order's 2, is unknown."""
    return [start(), struct.pack("<HH", 16, 258) + buy(10)[4:], buy(10)]


@sample
def too_short():
    """An order that says 15 bytes, and has them."""
    return [start(), struct.pack("<HH", 15, 2) + buy(10)[4:-1], buy(10)]


@sample
def too_long():
    """An order that says 17 bytes, and has them."""
    return [start(), struct.pack("<HH", 17, 2) + buy(10)[4:] + b"\0", buy(10)]


@sample
def length_0():
    """A record that says 0 bytes ends the walk."""
    return [start(), struct.pack("<HH", 0, 4), OPENING]


@sample
def length_272():
    """A length has two bytes: 272, whose first byte is an order's 16, is no order's."""
    return [start(), struct.pack("<HH", 272, 2) + buy(10)[4:] + bytes(256), buy(10)]


@sample
def length_of_another():
    """An order that says 10 bytes, a delete's length, and has them."""
    return [start(), struct.pack("<HH", 10, 2) + buy(10)[4:10], buy(10)]


@sample
def too_short_quote():
    """A quote that says 21 bytes, and has them."""
    return [start(), struct.pack("<HH", 21, 5) + GOOD[4:-1], GOOD]


@sample
def too_long_quote():
    """A quote that says 23 bytes, and has them."""
    return [start(), struct.pack("<HH", 23, 5) + GOOD[4:] + b"\0", GOOD]


@sample
def cut_quote():
    """A quote that lacks its last byte, behind one that is whole."""
    return [start(), GOOD, GOOD[:-1]]


# Two rows: 38 bytes, the count behind the first 4 and the rows behind that
TWO = band_start([(1, 50), (100_000, 100)])


@sample
def too_short_bands():
    """A start by kind 6 that counts two rows and says 37 bytes, one fewer than they have, and has them."""
    return [struct.pack("<HH", 37, 6) + TWO[4:-1], start()]


@sample
def too_long_bands():
    """A start by kind 6 that counts two rows and says 46 bytes, what three rows have, and has them."""
    return [struct.pack("<HH", 46, 6) + TWO[4:] + bytes(8), start()]


@sample
def bands_count_9():
    """A start by kind 6 that counts nine rows and says 38 bytes, what two have: it ends the walk, where one of nine rows' length is answered 1."""
    return [band_start(rising(9)), struct.pack("<HHH", 38, 6, 9) + TWO[6:], start()]


@sample
def bands_count_65535():
    """A start by kind 6 that counts 65,535 rows, more than any length fits, and says 14 bytes, what 22 + 8 × 65,535 leaves in two bytes."""
    return [struct.pack("<HHH", 14, 6, 65_535) + TWO[-8:], start()]


@sample
def bands_count_8190():
    """A start by kind 6 that counts 8,190 rows, one more than any length fits, and says 6 bytes, what 22 + 8 × 8,190 leaves in two bytes."""
    return [struct.pack("<HHH", 6, 6, 8_190), start()]


@sample
def bands_length_4():
    """A start by kind 6 that says 4 bytes: too short to hold its count."""
    return [struct.pack("<HH", 4, 6), start()]


@sample
def bands_length_5():
    """A start by kind 6 that says 5 bytes, and has them: half of its count."""
    return [struct.pack("<HHB", 5, 6, 1), start()]


@sample
def cut_bands():
    """A start by kind 6 cut inside its second row."""
    return [band_start([(2, 100)]), TWO[:16]]


@sample
def cut_bands_count():
    """A start by kind 6 cut inside its count."""
    return [band_start([(2, 100)]), TWO[:5]]


@sample
def cut_bands_count_9():
    """A start by kind 6 of nine rows that lacks its last byte: it ends the walk, where a whole one is answered 1."""
    return [band_start(rising(9)), band_start(rising(9))[:-1]]


# 22 + 8 × 8,189 = 65,534
LONGEST = band_start(rising(8_189))


@sample
def bands_longest():
    """A start by kind 6 of 8,189 rows has 65,534 bytes, the longest record there can be: it is answered 1, and one that lacks its last byte ends the walk."""
    return [OPENING, LONGEST, band_start(BANDS), buy(10, 100_050), LONGEST[:-1]]


@sample
def bands_boundaries():
    """Starts by kind 6, more than 256 KiB: reads end before a count, in a count, in a table and behind one, where a buffer of 64 KiB keeps what was cut off."""
    file = bytearray()

    def fill(end):
        """One long start up to this length, that is answered 1, behind as many closings of 5 bytes as leave room for whole rows of 8."""
        while (end - len(file) - 22) % 8:
            file.extend(CLOSING)
        file.extend(band_start(rising((end - len(file) - 22) // 8)))

    read = 65_536
    for before in (4, 5, 20, 30):
        fill(read - before)
        # a reader that moves what is cut off to the front of its 64 KiB reads up to here next
        read = len(file) + 65_536
        file.extend(TWO)
    return [file, buy(10, 100_050), buy(10, 99_950), OPENING]


@sample
def fault_after_good():
    """A fault after good records: they are answered, trades and all, the fault has the next place, and the end doesn't count it."""
    return worked() + [struct.pack("<HHB", 6, 4, 2), CLOSING]


@sample
def boundaries():
    """Records of all sizes, more than 256 KiB: reads of 64 KiB end inside an order, a delete's header, a start, and before the opening's field."""
    file = bytearray(start())
    number = 1
    file += sell(1, 100_000)

    def fill(end):
        """Records up to this length: orders that are deleted again, starts and closings that are refused, and a few sells that stay."""
        nonlocal number
        while end - len(file) >= 120:
            number += 1
            file.extend(buy(number, 90_000) + delete(number) + start() + CLOSING)
        # 16 leaves 1 when divided by 5, so these orders leave room for closings alone
        for _ in range((end - len(file)) % 5):
            number += 1
            file.extend(sell(number, 100_000))
        file.extend(CLOSING * ((end - len(file)) // 5))

    kib64 = 65_536
    fill(1 * kib64 - 10)
    number += 1
    file += buy(70_000, 100_000)
    fill(2 * kib64 - 2)
    file += delete(1)
    fill(3 * kib64 - 20)
    file += start()
    fill(4 * kib64 - 4)
    file += OPENING
    return [file, sell(70_000, 100_000), CLOSING]


# Who owes whom (K5)

@clearing
def bought_from_itself():
    """Member 7 buys 20 from itself and 10 from member 8: the first is a cell as any other."""
    return [start(), buy(30, 100_000), sell(20, 100_000), sell(10, 100_000, member=8), OPENING]


@clearing
def two_auctions_add_up():
    """What member 7 bought from member 9 in both auctions is one line; rows and columns go by the first accepted entry: 9, 7, 8."""
    return [
        start(), sell(50, 100_000, member=9), buy(30, 100_000), OPENING,
        buy(15, 100_000), buy(5, 100_000, member=8), sell(10, 100_000), buy(10, 100_000, member=9), CLOSING,
    ]


@clearing
def nothing_traded():
    """Two auctions of outcome 2: no cell has a line, and the total is 0."""
    return [start(), buy(10, 99_000), sell(10, 101_000, member=8), OPENING, CLOSING]


@clearing
def fault_then_owes():
    """After a fault the lines come all the same, with what was traded before it."""
    return [start(), buy(50, 100_000), sell(30, 100_000, member=8), OPENING, struct.pack("<HHB", 6, 4, 2), CLOSING]


@clearing
def bands_owed():
    """Rows of steps (K6): member 9's buy off its row's step is refused and enters nobody, so rows and columns go 8, 7, 9."""
    return [
        band_start(BANDS), buy(10, 100_050, member=9), sell(40, 99_950, member=8), buy(30, 99_950), buy(10, 100_000, member=9), OPENING,
    ]


def one_each(count):
    """A buy of each of the members from 101 on."""
    return [buy(1, 99_000, member=101 + n) for n in range(count)]


@clearing
def only_order_deleted():
    """Member 7 keeps its row though its only order was deleted: with 31 others member 8 is the thirty-third, refused by 16, and 7 trades."""
    return [
        start(), buy(10, 99_000), delete(1), *one_each(31),
        buy(10, 100_000, member=8), buy(10, 100_000), sell(10, 100_000, member=101), OPENING,
    ]


@clearing
def thirty_third_by_order():
    """Refusal 16: after 32 members an order of member 7 is refused, by 8 where it reaches that; one of the 32 is accepted, and 7 refused after the opening."""
    return [
        start(), *one_each(32), sell(10_000_000), sell(9_999_999),
        sell(2, 99_000, member=132), OPENING, buy(10, 99_000),
    ]


@clearing
def thirty_third_by_quote():
    """Refusal 16: member 132 is entered by a quote, as the 32nd; a quote of member 7 is refused, by 8 where its ask reaches that; 132 and 101 quote again."""
    return [
        start(), *one_each(31), quote(BID, ASK, member=132), quote((10, 50_000), (10_000_000, 50_100)), GOOD,
        quote(BID, ASK, member=132), quote((5, 99_700), (5, 99_800), member=101), OPENING,
    ]


README = """# Samples

Session files, what each of them shows, and what is printed for it: `NAME.session` and `NAME.out`. `make run FILE=samples/worked.session` runs one;
those in `clearing/` are for the program that keeps the square (K5): `make clearing FILE=samples/clearing/nothing_traded.session`. `tools/samples.sh`, a
part of `make test`, runs all of them and holds what they print to the `.out`, byte by byte.

`tools/samples.py` makes the session files and this page, and `tools/samples.sh` holds them to it. It doesn't make a `.out`: the scope document
says what is right there, so a `.out` changes only when a rule does.

Unless the sentence says otherwise a session has the step 100, the reference price 100,000, the factor 9, the threshold 150 and the maximum order value
1,000,000,000,000, its orders are day orders of member 7, and its quotes are of that member, too. Refusals are named by their number in the scope document
and, for 13 and 16, in the change requests for quotes (K2) and for the square (K5). Refusal 12 can't come up in a file: the programs lend every auction a
list that is long enough. In a start by kind 6 (K6) a row (100,000, 70) is one with the lowest price 100,000 and the step 70.

| file | what it shows |
|---|---|
"""

UNSTORED_ROW = " Not stored, for its {}: `python3 tools/samples.py {}` prints it, and `tools/samples.sh` looks at its last lines."


def sentence(function):
    return " ".join(function.__doc__.split())


def main():
    folder = Path(__file__).resolve().parent.parent / "samples"
    if sys.argv[1:2] == ["--into"] and len(sys.argv) == 3:
        folder = Path(sys.argv[2])
    elif len(sys.argv) > 1:
        made = {f.__name__: f for f in SAMPLES + CLEARING + [f for f, _ in UNSTORED]}
        if sys.argv[1] not in made:
            sys.exit(f"samples: no sample {sys.argv[1]}")
        sys.stdout.buffer.write(b"".join(made[sys.argv[1]]()))
        return
    (folder / "clearing").mkdir(exist_ok=True)
    for old in folder.glob("**/*.session"):
        old.unlink()
    rows = []

    def stored(name, f):
        (folder / f"{name}.session").write_bytes(b"".join(f()))
        rows.append(f"| `{name}` | {sentence(f)} |\n")

    for f in SAMPLES:
        stored(f.__name__, f)
    for f, size in UNSTORED:
        rows.append(f"| `{f.__name__}` | {sentence(f)}{UNSTORED_ROW.format(size, f.__name__)} |\n")
    for f in CLEARING:
        stored(f"clearing/{f.__name__}", f)
    (folder / "README.md").write_text(README + "".join(rows), encoding="utf-8")


main()
