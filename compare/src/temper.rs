//! Session files by seed, each of a temperament: a kind of trouble. A seed has the same bytes on
//! every machine.

use crate::bands;
use crate::records::*;
use std::mem::take;
use std::ops::RangeInclusive;

/// The splitmix64 sequence.
struct Dice(u64);

impl Dice {
    fn roll(&mut self) -> u64 {
        self.0 = self.0.wrapping_add(0x9E37_79B9_7F4A_7C15);
        let mixed = (self.0 ^ self.0 >> 30).wrapping_mul(0xBF58_476D_1CE4_E5B9);
        let mixed = (mixed ^ mixed >> 27).wrapping_mul(0x94D0_49BB_1331_11EB);
        mixed ^ mixed >> 31
    }

    fn within(&mut self, range: RangeInclusive<u64>) -> u64 {
        range.start() + self.roll() % (range.end() - range.start() + 1)
    }

    fn one_of<T: Copy>(&mut self, list: &[T]) -> T {
        list[self.within(0..=list.len() as u64 - 1) as usize]
    }

    fn once_in(&mut self, times: u64) -> bool {
        self.within(1..=times) == 1
    }

    /// A number, one less or one more.
    fn about(&mut self, number: u64) -> u64 {
        self.within(number.saturating_sub(1)..=number + 1)
    }
}

/// A file that grows, and the terms that its start record has.
struct Maker {
    dice: Dice,
    file: Vec<u8>,
    step: u64,
    reference: u64,
    factor: u64,
    threshold: u64,
    maximum: u64,
    /// K6: whether the start record is of kind 6, and its table once there is one.
    by_bands: bool,
    rows: Vec<Row>,
    /// The members of the orders and quote sides so far: if none was refused, by their numbers.
    given: Vec<u64>,
}

type Temper = fn(&mut Maker);

const TEMPERS: [(&str, Temper); 20] = [
    ("crossing books", crossing),
    ("ties", ties),
    ("both sides unlimited", both_unlimited),
    ("at-the-close orders", at_the_close),
    ("Non Opening", non_opening),
    ("Delayed Opening", delayed_opening),
    ("full books", full_books),
    ("reused places", reused_places),
    ("prices at the collar", collar),
    ("values at the maximum", values),
    ("quotes", quotes),
    ("far from yesterday", far_from_yesterday),
    ("bad fields", bad_fields),
    ("wrong phases", wrong_phases),
    ("two sessions", two_sessions),
    ("cut", cut),
    ("damaged", damaged),
    ("bad headers", bad_headers),
    ("random bytes", random_bytes),
    ("far over 64 KiB", far),
];
/// The first so many make good files, for others to cut, to damage and to put together.
const GOOD: u64 = 12;
/// K6: every so many seeds it is bands, a turn of their own: the others' files stay as they are.
const BANDS_EVERY: u64 = TEMPERS.len() as u64 + 1;

/// The name of a seed's temperament, and its file. Seed 0 is the one that gives its last number.
pub fn session_file(seed: u64) -> (&'static str, Vec<u8>) {
    let (name, temper) = match seed {
        0 => ("the last number", last_number as Temper),
        _ if seed % BANDS_EVERY == 0 => ("bands", bands as Temper),
        _ => TEMPERS[(seed as usize - 1) % TEMPERS.len()],
    };
    (name, made(seed, temper))
}

/// For the square: every other file has many members, some of them with bands (K6); the others are
/// those of the sessions.
pub fn clearing_file(seed: u64) -> (&'static str, Vec<u8>) {
    match (seed % 2, seed % 7) {
        (0, _) => session_file(seed / 2),
        (_, 0) => ("many members, by bands", made(seed, many_members_by_bands)),
        _ => ("many members", made(seed, many_members)),
    }
}

fn made(seed: u64, temper: Temper) -> Vec<u8> {
    let mut maker = Maker {
        dice: Dice(seed),
        file: Vec::new(),
        step: 100,
        reference: 100_000,
        factor: 9,
        threshold: 150,
        maximum: VALUE_MAX,
        by_bands: false,
        rows: Vec::new(),
        given: Vec::new(),
    };
    if seed > 0 && maker.dice.once_in(2) {
        maker.other_terms();
    }
    temper(&mut maker);
    maker.file
}

/// The same with looks between the records: auctions with a byte that names none are answered 1 and
/// change nothing, but `looks` looks before each. Few files are longer than what it takes of them.
pub fn looks_file(seed: u64) -> (&'static str, Vec<u8>) {
    let (name, mut session) = session_file(seed);
    session.truncate(LOOKED_AT + 1_000);
    // Dice of its own: the file's have rolled from the seed itself.
    let (mut dice, mut file) = (Dice(!seed), Vec::new());
    let (records, rest) = walk(&session);
    // Before each record of a short file, and some forty times in a long one.
    let times = 1 + records.len() as u64 / 40;
    let to_the_bound = dice.once_in(2);
    for record in records {
        if dice.once_in(times) {
            look(&mut dice, &mut file);
        }
        if to_the_bound && (64..100).contains(&LOOKED_AT.saturating_sub(file.len())) {
            fill(&mut dice, &mut file);
        }
        record.pack(&mut file);
    }
    file.extend(rest);
    if rest.is_empty() && dice.once_in(8) {
        // A fault has the last look alone, though it is an auction's.
        look(&mut dice, &mut file);
        file.pop();
    }
    let behind = dice.one_of(&[0, 1, 1_000]);
    file.truncate(LOOKED_AT + behind);
    (name, file)
}

/// The same for the writer, with bands more often (K6); half of the files longer than what `rewrite`
/// takes begin with one more auction, or no record would end one byte behind the bound: theirs end at
/// even offsets.
pub fn rewrite_file(seed: u64) -> (&'static str, Vec<u8>) {
    let (name, session) = match seed % 7 {
        0 => ("bands", made(seed, bands)),
        _ => session_file(seed),
    };
    let mut file = Vec::new();
    if session.len() > LOOKED_AT && Dice(!seed).once_in(2) {
        Record::new(AUCTION, [OPENING, 0, 0, 0, 0]).pack(&mut file);
    }
    file.extend(session);
    (name, file)
}

fn look(dice: &mut Dice, file: &mut Vec<u8>) {
    let byte = dice.one_of(&[0, 3, 9, 255]);
    Record::new(AUCTION, [byte, 0, 0, 0, 0]).pack(file);
}

/// Looks up to the bound exactly. They have 5 bytes; up to four orders of zeros, which change
/// nothing either, have 16 each and make up the remainder.
fn fill(dice: &mut Dice, file: &mut Vec<u8>) {
    for _ in 0..(LOOKED_AT - file.len()) % 5 {
        Record::new(ORDER, [0; 5]).pack(file);
    }
    while file.len() < LOOKED_AT {
        look(dice, file);
    }
}

/// Few members, so that each has several orders and its quotes are overwritten.
const MEMBERS: u64 = 3;
/// One quote to so many orders, where orders are mixed.
const ORDERS_TO_A_QUOTE: u64 = 12;

/// What rests, by number, as far as the maker can tell: exact until something trades.
#[derive(Default)]
struct Rests {
    plain: Vec<u64>,
    sides: Vec<u64>,
}

impl Rests {
    fn free(&self) -> u64 {
        PLACES.saturating_sub((self.plain.len() + self.sides.len()) as u64)
    }
}

impl Maker {
    fn other_terms(&mut self) {
        let step = self.dice.within(1..=STEP_MAX);
        self.step = self.dice.one_of(&[1, 1, 5, 100, 100, STEP_MAX, step]);
        let most = PRICE_MAX / self.step;
        let steps = self.dice.within(1..=most);
        let steps = self.dice.one_of(&[steps, steps, most, most.min(1_000), most.min(3)]);
        self.reference = self.step * steps;
        let factor = self.dice.within(FACTOR.0..=FACTOR.1);
        self.factor = self.dice.one_of(&[9, factor, FACTOR.0, FACTOR.1]);
        let threshold = self.dice.within(1..=THRESHOLD_MAX);
        self.threshold = self.dice.one_of(&[1, 150, threshold, THRESHOLD_MAX]);
    }

    fn put(&mut self, kind: usize, values: [u64; 5]) {
        Record::new(kind, values).pack(&mut self.file);
    }

    fn start(&mut self) {
        if self.by_bands {
            self.table();
            return self.banded().pack(&mut self.file);
        }
        let terms = [self.step, self.reference, self.factor, self.threshold, self.maximum];
        self.put(START, terms);
    }

    /// K6: a start with the table as it is.
    fn banded(&self) -> Record {
        let (rows, reference) = (self.rows.clone(), self.reference);
        let values = [rows.len() as u64, reference, self.factor, self.threshold, self.maximum];
        Record { kind: BANDS, values, rows }
    }

    /// K6: up to eight rows about the reference price, one of them from it on, from a price beside
    /// it, or from one a step away. Some begin close together; their steps divide each other or
    /// don't; and the reference price is a multiple of its own row's.
    fn table(&mut self) {
        let (step, reference) = (self.step, self.reference);
        let (mut lows, mut low) = (Vec::new(), 0);
        for _ in 1..self.dice.one_of(&[1, 2, 2, 3, 4, 8, 8]) {
            let (near, far) = (step * self.dice.within(1..=5), self.dice.within(1..=reference));
            low += self.dice.one_of(&[1, 1, 2, step, near, near, far]);
            lows.push(low);
        }
        self.rows = vec![[1, 0]];
        if !lows.is_empty() {
            let edge = self.dice.one_of(&lows);
            let beside = [reference - 1, reference, reference, reference + 1];
            let about = self.dice.one_of(&beside);
            let about = self.dice.one_of(&[about, about, reference - step, reference + step]);
            let moved = lows.into_iter().map(|low| (about + low).saturating_sub(edge));
            let good = moved.filter(|low| (2..=PRICE_MAX).contains(low));
            self.rows.extend(good.map(|low| [low, 0]));
        }
        let own = bands::row(&self.rows, reference);
        for row in 0..self.rows.len() {
            let any = self.dice.within(1..=STEP_MAX);
            let steps = [step, step, 2 * step, 3 * step, 10 * step, step / 2, step / 5, 1, 7, any];
            let good = |by: &u64| {
                (1..=STEP_MAX).contains(by) && (row != own || reference.is_multiple_of(*by))
            };
            let steps: Vec<u64> = steps.into_iter().filter(good).collect();
            self.rows[row][1] = self.dice.one_of(&steps);
        }
    }

    /// The good limit nearest to a price; without a table it is one.
    fn good_limit(&self, price: u64) -> u64 {
        let ends = self.rows.iter().skip(1).map(|[low, _]| low - 1).chain([PRICE_MAX]);
        let beside = self.rows.iter().zip(ends).flat_map(|([low, step], end)| {
            let at = price.clamp(*low, end) / step * step;
            [at, at + step].into_iter().filter(move |at| (*low..=end).contains(at))
        });
        beside.min_by_key(|at| at.abs_diff(price)).unwrap_or(price)
    }

    /// How many numbers were given, if nothing was refused.
    fn last(&self) -> u64 {
        self.given.len() as u64
    }

    /// The member of an order by its number, so that a deletion can name the right one.
    fn member(&self, number: u64) -> u64 {
        let given = self.given.get(number.wrapping_sub(1) as usize);
        given.map_or(1 + number % MEMBERS, |member| *member)
    }

    fn order(&mut self, side: u64, validity: u64, quantity: u64, limit: u64) {
        let member = self.member(self.last() + 1);
        self.given.push(member);
        self.put(ORDER, [member, side, validity, quantity, limit]);
    }

    fn quote(&mut self, values: [u64; 5]) {
        self.given.extend([values[0]; 2]);
        self.put(QUOTE, values);
    }

    fn delete(&mut self, number: u64) {
        self.put(DELETE, [number, self.member(number), 0, 0, 0]);
    }

    fn auction(&mut self, which: u64) {
        self.put(AUCTION, [which, 0, 0, 0, 0]);
    }

    /// Asked again, an opening gets over the delay.
    fn opening(&mut self) {
        self.auction(OPENING);
        self.auction(OPENING);
    }

    fn side(&mut self) -> u64 {
        self.dice.one_of(&[BUY, SELL])
    }

    fn quantity(&mut self) -> u64 {
        let most = self.dice.one_of(&[3, 100, 100, 10_000, QUANTITY_MAX]);
        self.dice.within(1..=most)
    }

    /// A good limit, at most so many steps from the reference price.
    fn near(&mut self, steps: u64) -> u64 {
        let away = self.step * self.dice.within(0..=steps);
        let lower = self.reference.saturating_sub(away).max(self.step);
        let higher = (self.reference + away).min(PRICE_MAX / self.step * self.step);
        let limit = self.dice.one_of(&[lower, higher]);
        self.good_limit(limit)
    }

    /// Good limits of a bid and an ask; equal where there is no room for two.
    fn spread(&mut self, steps: u64) -> [u64; 2] {
        let mut limits = [self.near(steps), self.near(steps)];
        limits.sort_unstable();
        if limits[0] == limits[1] {
            limits[0] = self.good_limit(limits[0].saturating_sub(self.step).max(self.step));
        }
        limits
    }

    fn plain_orders(&mut self, count: RangeInclusive<u64>, steps: u64) {
        for _ in 0..self.dice.within(count) {
            let (side, quantity, limit) = (self.side(), self.quantity(), self.near(steps));
            let limit = if self.dice.once_in(16) { UNLIMITED } else { limit };
            let validity = self.dice.one_of(&[DAY, DAY, TILL_LATER, AT_THE_OPENING, AT_THE_CLOSE]);
            self.order(side, validity, quantity, limit);
        }
    }

    /// K2: now and then the bid is not below the ask.
    fn any_quotes(&mut self, count: RangeInclusive<u64>, steps: u64) {
        for _ in 0..self.dice.within(count) {
            let (member, [mut bid, mut ask]) = (self.dice.within(1..=MEMBERS), self.spread(steps));
            if self.dice.once_in(16) {
                [bid, ask] = self.dice.one_of(&[[ask, bid], [ask, ask]]);
            }
            let values = [member, self.quantity(), bid, self.quantity(), ask];
            if bid < ask {
                self.quote(values);
            } else {
                self.put(QUOTE, values);
            }
        }
    }

    fn any_orders(&mut self, count: RangeInclusive<u64>, steps: u64) {
        for _ in 0..self.dice.within(count) {
            match self.dice.once_in(ORDERS_TO_A_QUOTE) {
                true => self.any_quotes(1..=1, steps),
                false => self.plain_orders(1..=1, steps),
            }
        }
    }

    /// Orders that would suit another session: off the step, out of the collar, too large.
    fn misfits(&mut self, count: RangeInclusive<u64>) {
        let terms = (self.step, self.reference, self.factor, self.threshold);
        let rows = take(&mut self.rows);
        self.other_terms();
        self.any_orders(count, 10);
        (self.step, self.reference, self.factor, self.threshold) = terms;
        self.rows = rows;
    }

    /// A quote with a field out of range or a bid not below its ask; or one that the controls
    /// refuse for the bid, for the ask, or for both, each by a check of its own.
    fn bad_quote(&mut self, member: u64) {
        let [bid, ask] = self.spread(3);
        let mut values = [member, 10, bid, 10, ask];
        match self.dice.within(0..=9) {
            0 => {
                let field = self.dice.within(0..=4) as usize;
                values[field] = self.dice.one_of(&[0, fields(QUOTE)[field].1 + 1]);
            }
            1 => (values[2], values[4]) = self.dice.one_of(&[(ask, bid), (ask, ask)]),
            _ => {
                let ends = [(2, self.reference / self.factor), (4, self.reference * self.factor)];
                for (field, end) in self.dice.one_of(&[&ends[..1], &ends[1..], &ends]) {
                    match self.dice.within(0..=3) {
                        0 => values[*field] += 1,
                        1 => values[*field] = end / self.step * self.step,
                        2 => values[field - 1] = self.maximum.div_ceil(values[*field]),
                        _ => values[field - 1] = self.maximum.div_ceil(self.reference),
                    }
                }
            }
        }
        self.put(QUOTE, values);
    }

    /// The same for an order; one at-the-opening is refused in day alone.
    fn bad_order(&mut self, member: u64) {
        let mut values = [member, self.side(), TILL_LATER, 10, self.near(3)];
        match self.dice.within(0..=5) {
            0 => values[3] = self.dice.one_of(&[0, QUANTITY_MAX + 1]),
            1 => values[2] = AT_THE_OPENING,
            2 => values[4] += 1,
            3 => values[4] = self.reference * self.factor,
            4 => values[3] = self.maximum.div_ceil(values[4]),
            _ => (values[3], values[4]) = (self.maximum.div_ceil(self.reference), UNLIMITED),
        }
        self.put(ORDER, values);
    }

    /// K6: a price at the edge between two rows, one beside it, or a multiple of the step of either
    /// row next to it.
    fn edge(&mut self) -> u64 {
        let last = self.rows.len() as u64 - 1;
        let row = self.dice.within(last.min(1)..=last) as usize;
        let (low, beside) = (self.rows[row][0], &self.rows[row.saturating_sub(1)..=row]);
        let [_, step] = self.dice.one_of(beside);
        let (below, from) = ((low - 1) / step * step, low.div_ceil(step) * step);
        let price = self.dice.one_of(&[low, low, low - 1, low + 1, below, from, from + step]);
        price.clamp(1, PRICE_MAX)
    }

    /// K6: an order at an edge, or a quote with a side at one or two; where a limit is off its row's
    /// step it gets no number.
    fn entry_at_edge(&mut self) {
        let (side, quantity, limit) = (self.side(), self.dice.within(1..=100), self.edge());
        let off = |maker: &Maker, limit| bands::off_step(&maker.rows, limit);
        if !self.dice.once_in(3) {
            let validity = self.dice.one_of(&[DAY, DAY, TILL_LATER, AT_THE_OPENING, AT_THE_CLOSE]);
            match off(self, limit) {
                true => self.put(ORDER, [1, side, validity, quantity, limit]),
                false => self.order(side, validity, quantity, limit),
            }
            return;
        }
        let (member, edge, near) = (self.dice.within(1..=MEMBERS), self.edge(), self.near(3));
        let other = self.dice.one_of(&[edge, edge, near, self.good_limit(edge)]);
        let [bid, ask] = [limit.min(other), limit.max(other)];
        let values = [member, quantity, bid, quantity, ask];
        match bid == ask || off(self, bid) || off(self, ask) {
            true => self.put(QUOTE, values),
            false => self.quote(values),
        }
    }

    /// K6: a start by kind 6 with one thing wrong, of a length that fits its count.
    fn bad_bands(&mut self) {
        let mut start = self.banded();
        let [low, _] = self.rows[self.rows.len() - 1];
        let row = self.dice.within(0..=self.rows.len() as u64 - 1) as usize;
        match self.dice.within(0..=9) {
            0 => start.rows[0][0] = self.dice.one_of(&[0, 2]),
            1 => {
                // Equal to the one before it, below it, or no price.
                start.rows.truncate(TABLE_MAX as usize - 1);
                let low = start.rows[start.rows.len() - 1][0];
                let low = self.dice.one_of(&[low, low, low - 1, PRICE_MAX + 1, u64::MAX]);
                start.rows.push([low, self.step]);
            }
            2 if self.rows.len() > 1 => {
                let next = (row + 1) % self.rows.len();
                (start.rows[row][0], start.rows[next][0]) = (self.rows[next][0], self.rows[row][0]);
            }
            3 => start.rows[row][1] = self.dice.one_of(&[0, STEP_MAX + 1, u64::MAX]),
            4 => start.rows.clear(),
            5 | 6 => {
                // More rows than there may be, of steps that any price fits; 257 ends as 1 does.
                let some = self.dice.within(TABLE_MAX + 1..=8_189);
                let count = self.dice.one_of(&[9, 9, 9, 10, 16, 255, 256, 257, 264, some, 8_189]);
                let more = (low + 1..).map(|low| [low, 1]);
                start.rows.extend(more.take(count as usize - self.rows.len()));
            }
            7 => start.values[1] = self.off_reference(),
            _ => {
                let field = self.dice.within(1..=4) as usize;
                let least = if field == 2 { FACTOR.0 - 1 } else { 0 };
                start.values[field] = self.dice.one_of(&[least, fields(BANDS)[field].1 + 1]);
            }
        }
        start.values[0] = start.rows.len() as u64;
        start.pack(&mut self.file);
    }

    /// K6: a reference price off its row's step, on another row's; 0 if there is none.
    fn off_reference(&mut self) -> u64 {
        let mut found = Vec::new();
        for [low, _] in &self.rows {
            for [_, step] in &self.rows {
                let next = low.div_ceil(*step) * step;
                found.extend([next, next + step]);
            }
        }
        found.retain(|at| *at <= PRICE_MAX && bands::off_step(&self.rows, *at));
        if found.is_empty() {
            found.push(0);
        }
        self.dice.one_of(&found)
    }

    /// K6: a start by kind 6 whose length doesn't fit its count, or has no room for one, or fits it
    /// only where sums wrap; or one that is cut. What stands behind is not read.
    fn faulty_bands(&mut self) {
        let (mut start, from) = (self.banded(), self.file.len());
        let (count, whole) = (start.values[0], start.length());
        let trouble = self.dice.within(0..=7);
        match trouble {
            0 => start.values[0] = self.dice.one_of(&[count - 1, count + 1]),
            // 8,192 rows have 65,536 bytes.
            1 => start.values[0] += 8_192 * self.dice.within(1..=7),
            2 => start.values[0] = self.dice.one_of(&[8_190, 65_534, 65_535]),
            _ => {}
        }
        start.pack(&mut self.file);
        let near = [whole - 8, whole - 2, whole - 1, whole + 1, whole + 2, whole + 8];
        let said = match trouble {
            2 => length(BANDS, start.values[0] as usize) % 65_536,
            3 => self.dice.one_of(&near),
            4 => self.dice.one_of(&[4, 5]),
            _ => whole,
        };
        self.file[from..from + 2].copy_from_slice(&(said as u16).to_le_bytes());
        self.file.resize(from + said, 0);
        match trouble {
            0..=4 => self.any_orders(0..=3, 5),
            _ => self.cut_from(from),
        }
    }

    /// Cuts what stands behind this place, so that something of it is left.
    fn cut_from(&mut self, place: usize) {
        let left = self.dice.within(1..=(self.file.len() - place) as u64 - 1);
        self.file.truncate(place + left as usize);
    }

    /// A good order or quote of a member. It gets no number where others have all rows (K5).
    fn entry(&mut self, member: u64, rows: &mut Vec<u64>) {
        let (side, quantity) = (self.side(), self.dice.within(1..=100));
        let sides = if self.dice.once_in(4) {
            let ([bid, ask], other) = (self.spread(3), self.dice.within(1..=100));
            self.put(QUOTE, [member, quantity, bid, other, ask]);
            2
        } else {
            let limit = if self.dice.once_in(64) { UNLIMITED } else { self.near(3) };
            let validity = self.dice.one_of(&[DAY, DAY, TILL_LATER, AT_THE_CLOSE]);
            self.put(ORDER, [member, side, validity, quantity, limit]);
            1
        };
        if rows.len() < ROWS && !rows.contains(&member) {
            rows.push(member);
        }
        if rows.contains(&member) {
            self.given.extend(vec![member; sides]);
        }
    }

    /// A good quote over what is left of the member's; with too little room it gets no numbers.
    fn overwrite(&mut self, rests: &mut Rests, crossing: bool) {
        let member = self.dice.within(1..=MEMBERS);
        let away = [0; 2].map(|_| self.step * self.dice.within(1..=3));
        let apart = [self.reference - away[0], self.reference + away[1]];
        let [bid, ask] = if crossing { self.spread(3) } else { apart };
        let quantities = [0; 2].map(|_: u64| self.dice.within(1..=100));
        let values = [member, quantities[0], bid, quantities[1], ask];
        let left = rests.sides.iter().filter(|side| self.member(**side) == member).count() as u64;
        if rests.free() + left < 2 {
            return self.put(QUOTE, values);
        }
        rests.sides.retain(|side| self.member(*side) != member);
        rests.sides.extend([self.last() + 1, self.last() + 2]);
        self.quote(values);
    }

    /// A plain order of a member that quotes; in a full book it gets no number.
    fn beside(&mut self, rests: &mut Rests, crossing: bool) {
        let (side, quantity) = (self.side(), self.dice.within(1..=100));
        let away = self.step * self.dice.within(4..=9);
        let apart = [self.reference - away, self.reference + away];
        let limit = if crossing { self.near(3) } else { apart[usize::from(side == SELL)] };
        if rests.free() == 0 {
            return self.put(ORDER, [1, side, TILL_LATER, quantity, limit]);
        }
        rests.plain.push(self.last() + 1);
        self.order(side, TILL_LATER, quantity, limit);
    }

    fn delete_one_of(&mut self, numbers: &mut Vec<u64>) {
        if !numbers.is_empty() {
            let next = self.dice.within(0..=numbers.len() as u64 - 1);
            let number = numbers.swap_remove(next as usize);
            self.delete(number);
        }
    }

    /// Deletions of orders that may be gone, now and then by another member.
    fn any_deletions(&mut self, count: RangeInclusive<u64>) {
        for _ in 0..self.dice.within(count) {
            let number = self.dice.within(1..=self.last() + 1);
            let by = number + u64::from(self.dice.once_in(8));
            self.put(DELETE, [number, self.member(by), 0, 0, 0]);
        }
    }

    fn cut(&mut self) {
        let left = self.dice.within(0..=self.file.len() as u64);
        self.file.truncate(left as usize);
    }

    fn good_file(&mut self) {
        let (_, temper) = TEMPERS[self.dice.within(0..=GOOD - 1) as usize];
        temper(self);
    }
}

fn crossing(maker: &mut Maker) {
    let steps = maker.dice.one_of(&[2, 10, 100]);
    maker.start();
    maker.any_orders(2..=120, steps);
    maker.opening();
    maker.any_orders(0..=60, steps);
    maker.any_deletions(0..=20);
    maker.auction(CLOSING);
    maker.any_deletions(0..=20);
    maker.misfits(0..=5);
}

/// Few prices and few quantities, mostly the same on both sides.
fn ties(maker: &mut Maker) {
    let unit = maker.dice.within(1..=50);
    maker.start();
    for auction in [OPENING, OPENING, CLOSING] {
        for _ in 0..maker.dice.within(1..=3) {
            let (middle, away) = (maker.near(3), maker.step * maker.dice.within(0..=2));
            let (buy, sell) = (middle + away, middle.saturating_sub(away).max(maker.step));
            let quantity = unit * maker.dice.within(1..=2);
            let against = maker.dice.one_of(&[quantity, quantity, unit]);
            maker.order(BUY, DAY, quantity, buy);
            maker.order(SELL, DAY, against, sell);
            if maker.dice.once_in(2) {
                // The same on either side as in P9: demand exceeds at one end, supply at the other.
                maker.order(BUY, DAY, unit, sell);
                maker.order(SELL, DAY, unit, buy);
            }
        }
        maker.auction(auction);
    }
}

fn both_unlimited(maker: &mut Maker) {
    maker.start();
    for auction in [OPENING, OPENING, CLOSING] {
        for _ in 0..maker.dice.within(1..=3) {
            let quantity = maker.dice.within(2..=1_000);
            let against = maker.dice.about(quantity);
            let against = maker.dice.one_of(&[quantity, quantity, quantity, against]);
            maker.order(BUY, DAY, quantity, UNLIMITED);
            maker.order(SELL, DAY, against, UNLIMITED);
        }
        maker.any_orders(0..=3, 3);
        maker.auction(auction);
    }
}

fn at_the_close(maker: &mut Maker) {
    maker.start();
    for auction in [OPENING, OPENING, CLOSING] {
        for _ in 0..maker.dice.within(1..=10) {
            let (side, quantity, limit) = (maker.side(), maker.quantity(), maker.near(3));
            let limit = maker.dice.one_of(&[limit, UNLIMITED]);
            let others = if limit == UNLIMITED { AT_THE_CLOSE } else { DAY };
            let validity = maker.dice.one_of(&[AT_THE_CLOSE, others]);
            maker.order(side, validity, quantity, limit);
        }
        maker.auction(auction);
    }
}

/// An unlimited quantity about as large as what is executable, and orders that may mend it.
fn non_opening(maker: &mut Maker) {
    let (side, quantity, limit) = (maker.side(), maker.dice.within(2..=1_000), maker.near(20));
    let (other, unlimited) = (BUY + SELL - side, maker.dice.about(quantity));
    maker.start();
    maker.order(other, DAY, 1, limit);
    maker.order(other, TILL_LATER, quantity - 1, limit);
    maker.order(side, AT_THE_OPENING, unlimited, UNLIMITED);
    let aside = maker.side();
    maker.order(aside, AT_THE_CLOSE, 5, UNLIMITED);
    maker.auction(OPENING);
    let validity = maker.dice.one_of(&[DAY, AT_THE_CLOSE]);
    maker.order(other, validity, 1, limit);
    maker.opening();
    maker.any_deletions(1..=3);
    maker.opening();
    maker.auction(CLOSING);
}

/// A price about as far from the reference price as the threshold, at times with Non Opening.
fn delayed_opening(maker: &mut Maker) {
    maker.step = maker.dice.one_of(&[1, 10, 100]);
    maker.reference = 10_000 * maker.dice.within(1..=1_000);
    maker.factor = FACTOR.1;
    maker.start();
    let least = (maker.threshold * maker.reference).div_ceil(10_000 * maker.step);
    let away = maker.dice.about(least) * maker.step;
    let below = maker.reference.saturating_sub(away);
    let limit = maker.dice.one_of(&[below, maker.reference + away]);
    for _ in 0..2 {
        let (quantity, side) = (maker.dice.within(2..=100), maker.side());
        maker.order(BUY, DAY, quantity, limit);
        maker.order(SELL, DAY, quantity, limit);
        if maker.dice.once_in(3) {
            let unlimited = maker.dice.about(quantity);
            maker.order(side, DAY, unlimited, UNLIMITED);
        }
        maker.opening();
        maker.any_deletions(0..=3);
    }
    maker.opening();
    maker.auction(CLOSING);
}

/// More orders than places; or as many trades as there can be; or a book that stays full.
fn full_books(maker: &mut Maker) {
    let (side, steps) = (maker.side(), maker.dice.within(0..=40));
    if maker.dice.once_in(2) {
        maker.start();
        maker.plain_orders(PLACES - 1..=PLACES + 5, steps);
    } else {
        // So that 7 and 8 are met in a full book.
        maker.maximum = 1_000 * maker.reference;
        maker.start();
        if maker.dice.once_in(2) {
            maker.order(side, DAY, PLACES - 1, maker.reference);
        }
        for _ in 0..PLACES {
            maker.order(BUY + SELL - side, TILL_LATER, 1, maker.reference);
        }
    }
    for auction in [OPENING, OPENING, CLOSING] {
        maker.misfits(0..=5);
        maker.any_deletions(0..=3);
        maker.any_orders(0..=8, steps);
        maker.any_quotes(0..=3, steps);
        maker.auction(auction);
    }
    maker.misfits(0..=5);
}

/// At one limit the rank goes by the number alone, whatever place an order got.
fn reused_places(maker: &mut Maker) {
    let steps = maker.dice.within(0..=1);
    maker.start();
    for auction in [OPENING, OPENING, CLOSING] {
        for _ in 0..maker.dice.within(1..=6) {
            maker.any_orders(1..=20, steps);
            maker.any_deletions(1..=20);
        }
        maker.auction(auction);
    }
}

/// Limits at both ends, a step inside and a step outside; after an opening also at those that the
/// new reference price would set.
fn collar(maker: &mut Maker) {
    let unit = maker.step * maker.factor;
    if unit <= PRICE_MAX && maker.dice.once_in(2) {
        // So that a limit times the factor can be the reference price.
        maker.reference = unit * maker.dice.within(1..=PRICE_MAX / unit).min(1_000);
    }
    // The large ones are refused by 7 too, but by 6 first.
    maker.maximum = 2_000 * maker.reference * maker.factor;
    maker.start();
    let yesterday = maker.reference;
    for auction in [OPENING, OPENING, CLOSING] {
        for _ in 0..12 {
            let by = maker.dice.one_of(&[yesterday, maker.reference]);
            let (low, high) = (by / unit, by * maker.factor / maker.step);
            let end = maker.dice.one_of(&[low, high]);
            let limit = maker.dice.about(end) * maker.step + u64::from(maker.dice.once_in(9));
            let (side, quantity) = (maker.side(), maker.dice.one_of(&[1, 1, 1, 5_000]));
            maker.order(side, TILL_LATER, quantity, limit);
            if maker.dice.once_in(ORDERS_TO_A_QUOTE) {
                let [bid, ask] = [low, high].map(|end| maker.dice.about(end) * maker.step);
                let member = maker.dice.within(1..=MEMBERS);
                maker.quote([member, quantity, bid, 1, ask]);
            }
        }
        // Enough to outweigh the others.
        let price = maker.near(100);
        maker.order(BUY, DAY, 1_000, price);
        maker.order(SELL, DAY, 1_000, price);
        maker.auction(auction);
        maker.reference = price;
    }
}

/// Quantity times limit, or times the reference price, about the maximum order value.
fn values(maker: &mut Maker) {
    if maker.dice.once_in(4) {
        (maker.step, maker.reference) = (1, PRICE_MAX);
    }
    let (price, quantity) = (maker.near(50), maker.dice.within(1..=QUANTITY_MAX));
    let quantity = maker.dice.one_of(&[quantity, QUANTITY_MAX]);
    let value = quantity * maker.dice.one_of(&[price, maker.reference]);
    maker.maximum = maker.dice.about(value).clamp(1, VALUE_MAX);
    maker.start();
    for auction in [OPENING, OPENING, CLOSING] {
        for _ in 0..16 {
            let (limit, side) = (maker.near(50), maker.side());
            let limit = maker.dice.one_of(&[limit, limit, price, UNLIMITED]);
            let fits = maker.maximum / maker.dice.one_of(&[limit.max(1), maker.reference]);
            let quantity = maker.dice.one_of(&[quantity, fits]);
            let quantity = maker.dice.about(quantity).clamp(1, QUANTITY_MAX);
            maker.order(side, TILL_LATER, quantity, limit);
            if maker.dice.once_in(ORDERS_TO_A_QUOTE) {
                let (member, [bid, ask]) = (maker.dice.within(1..=MEMBERS), maker.spread(50));
                let [one, other] =
                    maker.dice.one_of(&[[quantity, 1], [1, quantity], [quantity; 2]]);
                maker.quote([member, one, bid, other, ask]);
            }
        }
        maker.auction(auction);
    }
}

/// K4: an opening far from the start's reference price; then limits at the ends, and quantities at
/// the maximum, of the controls as they are and as the price in force would set them; and a closing,
/// whose price may hang on that one.
fn far_from_yesterday(maker: &mut Maker) {
    maker.step = maker.dice.one_of(&[1, 5, 100]);
    maker.factor = maker.dice.one_of(&[2, 3, 9]);
    let unit = maker.step * maker.factor;
    // So that a limit times the factor can be the reference price.
    maker.reference = unit * maker.dice.within(100..=1_000);
    let inside = maker.reference / unit + 1..=maker.reference * maker.factor / maker.step - 1;
    let price = maker.step * maker.dice.within(inside);
    let prices = [maker.reference, price];
    // The pair that opens passes 7 and 8.
    let value = maker.dice.within(100..=1_000) * maker.dice.one_of(&prices);
    maker.maximum = maker.dice.about(value);
    maker.start();
    maker.order(BUY, DAY, 1, price);
    maker.order(SELL, DAY, 1, price);
    maker.opening();
    for _ in 0..maker.dice.within(4..=12) {
        let (by, side) = (maker.dice.one_of(&prices), maker.side());
        let ends = [by / unit, by * maker.factor / maker.step];
        let limits = ends.map(|end| maker.dice.about(end) * maker.step);
        let (limit, near) = (maker.dice.one_of(&limits), maker.near(20));
        let limit = maker.dice.one_of(&[limit, limit, near, UNLIMITED]);
        let most = maker.dice.about(maker.maximum / by);
        let quantity = maker.dice.one_of(&[1, 1, most]);
        let validity = maker.dice.one_of(&[DAY, TILL_LATER, AT_THE_CLOSE]);
        maker.order(side, validity, quantity, limit);
        if maker.dice.once_in(3) {
            let (member, [bid, ask]) = (maker.dice.within(1..=MEMBERS), maker.spread(20));
            let [bid, ask] =
                maker.dice.one_of(&[[bid, ask], [limits[0], ask], [bid, limits[1]], limits]);
            let [one, other] = maker.dice.one_of(&[[1, 1], [most, 1], [1, most]]);
            maker.quote([member, one, bid, other, ask]);
        }
    }
    maker.auction(CLOSING);
}

/// K6: a table of steps, with what hunts it, or in a session of another temperament; and at times a
/// trouble of its own.
fn bands(maker: &mut Maker) {
    maker.by_bands = true;
    let trouble = maker.dice.within(0..=11);
    if trouble <= 1 {
        // Before the start: the session stays fresh.
        maker.table();
        for _ in 0..maker.dice.within(1..=6) {
            maker.bad_bands();
        }
    }
    match maker.dice.within(0..=9) {
        0 => long_bands(maker),
        1..=3 => maker.good_file(),
        _ => edges(maker),
    }
    match trouble {
        2 => {
            let from = maker.file.len();
            maker.bad_bands();
            if maker.dice.once_in(2) {
                maker.cut_from(from);
            }
        }
        3..=7 => maker.faulty_bands(),
        8 => {
            // In the start, if it is the first record.
            let place = maker.dice.within(0..=maker.banded().length() as u64 - 1);
            maker.file[place as usize] ^= maker.dice.within(1..=255) as u8;
        }
        9 => {
            maker.by_bands = false;
            maker.start();
            maker.banded().pack(&mut maker.file);
        }
        _ => {}
    }
}

/// K6: limits about the edges, quotes across them, and auctions at a price in any row, which is the
/// reference price of the next.
fn edges(maker: &mut Maker) {
    maker.factor = maker.dice.one_of(&[9, FACTOR.1]);
    maker.start();
    for auction in [OPENING, OPENING, CLOSING] {
        for _ in 0..maker.dice.within(2..=12) {
            maker.entry_at_edge();
        }
        if !maker.dice.once_in(4) {
            // Enough to outweigh the others.
            let price = maker.edge();
            let price = maker.good_limit(price);
            let limit = maker.dice.one_of(&[price, price, UNLIMITED]);
            maker.order(BUY, DAY, 5_000, limit);
            maker.order(SELL, DAY, 5_000, limit);
        }
        maker.auction(auction);
    }
    maker.any_deletions(0..=5);
}

/// K6: starts of all lengths, so that reads end anywhere in them. After the first they are refused.
fn long_bands(maker: &mut Maker) {
    let length = maker.dice.within(65_536..=200_000) as usize;
    maker.start();
    while maker.file.len() < length {
        match maker.dice.within(0..=5) {
            0 => maker.bad_bands(),
            1 => maker.entry_at_edge(),
            _ => maker.banded().pack(&mut maker.file),
        }
    }
    maker.opening();
    maker.auction(CLOSING);
}

/// K2: few members' quotes, overwritten again and again, with plain orders of these members in
/// between, in a book that has room for none, for one or two more, or for all. Without trades the
/// maker knows what rests, and so the numbers; the plain orders stay for the closing.
fn quotes(maker: &mut Maker) {
    maker.step = maker.dice.one_of(&[5, 100]);
    (maker.reference, maker.factor) = (1_000 * maker.step, 9);
    // So that 7 and 8 are met.
    maker.maximum = 1_000 * maker.reference;
    let (room, crossing) = (maker.dice.one_of(&[2, 3, 4, 5, 6, PLACES]), maker.dice.once_in(2));
    let mut rests = Rests::default();
    if maker.dice.once_in(2) {
        // Before the start: none of these gets a number.
        maker.any_quotes(1..=2, 3);
        let member = maker.dice.within(1..=MEMBERS);
        maker.bad_quote(member);
        maker.given.clear();
    }
    maker.start();
    // Quotes in places before the others', too.
    for _ in 0..maker.dice.within(0..=2) {
        maker.overwrite(&mut rests, false);
    }
    while rests.free() > 0 && rests.free() + rests.sides.len() as u64 > room {
        maker.beside(&mut rests, false);
    }
    for auction in [OPENING, OPENING, CLOSING] {
        for _ in 0..maker.dice.within(5..=25) {
            match maker.dice.within(0..=9) {
                0 => maker.beside(&mut rests, crossing),
                1 | 2 => maker.delete_one_of(&mut rests.sides),
                3 if room < PLACES => maker.delete_one_of(&mut rests.plain),
                // An overwritten side, or another member's number.
                4 => maker.any_deletions(1..=1),
                5 => {
                    let member = maker.dice.within(1..=MEMBERS);
                    maker.bad_quote(member);
                }
                _ => maker.overwrite(&mut rests, crossing),
            }
        }
        maker.auction(auction);
    }
    maker.any_quotes(0..=2, 3);
    maker.any_deletions(0..=5);
}

/// K5: about as many members as the square has rows, or some more. Their entries trade, some are
/// refused, some are deleted at once, and at times the file is cut.
fn many_members(maker: &mut Maker) {
    maker.step = maker.dice.one_of(&[5, 100]);
    (maker.reference, maker.factor) = (1_000 * maker.step, 9);
    // So that 7 and 8 are met.
    maker.maximum = 1_000 * maker.reference;
    let (members, mut rows) = (maker.dice.within(30..=40), Vec::new());
    // Their numbers differ in the low byte, in the high one, or in both.
    let apart = maker.dice.one_of(&[1, 256, MEMBER_MAX / 40]);
    let entries = maker.dice.one_of(&[20, 40, 40, 80, 80, 700]);
    maker.start();
    for auction in [OPENING, OPENING, CLOSING] {
        for _ in 0..maker.dice.within(entries / 2..=entries) {
            let member = apart * maker.dice.within(1..=members);
            match maker.dice.within(0..=15) {
                0 => maker.bad_order(member),
                1 => maker.bad_quote(member),
                2 => maker.any_deletions(1..=1),
                3 => {
                    maker.entry(member, &mut rows);
                    maker.delete(maker.last());
                }
                _ => maker.entry(member, &mut rows),
            }
        }
        maker.auction(auction);
    }
    // Closed: none of these is taken.
    for _ in 0..maker.dice.within(0..=8) {
        let member = apart * maker.dice.within(1..=members);
        maker.entry(member, &mut rows);
    }
    if maker.dice.once_in(4) {
        maker.cut();
    }
}

/// K6: the same with a table of steps, and at times a start that ends the walk.
fn many_members_by_bands(maker: &mut Maker) {
    maker.by_bands = true;
    many_members(maker);
    if maker.dice.once_in(2) {
        maker.faulty_bands();
    }
}

/// Each field of each kind bad or at an end, in any order and so in any phase; those of kind 6, whose
/// length hangs on one of them, are bands' own.
fn bad_fields(maker: &mut Maker) {
    let (price, mut records) = (maker.near(2), Vec::new());
    for (kind, values) in [
        (START, [maker.step, maker.reference, maker.factor, maker.threshold, maker.maximum]),
        (ORDER, [1, BUY, DAY, 10, price]),
        (DELETE, [1, 1, 0, 0, 0]),
        (AUCTION, [OPENING, 0, 0, 0, 0]),
        (QUOTE, [1, 10, price, 10, price + maker.step]),
    ] {
        for (field, (_, most)) in fields(kind).iter().enumerate() {
            for value in [0, 1, values[field], values[field] + 1, *most, most + 1, u64::MAX] {
                let mut record = Record::new(kind, values);
                record.values[field] = value;
                // Or a bad step would be one that the reference price is no multiple of.
                if kind == START && field == 0 && value > 0 {
                    record.values[1] = value;
                }
                records.push(record);
            }
        }
    }
    // Half of the files start at once, or few would get far.
    if maker.dice.once_in(2) {
        maker.start();
    }
    while !records.is_empty() {
        let next = maker.dice.within(0..=records.len() as u64 - 1);
        records.swap_remove(next as usize).pack(&mut maker.file);
    }
}

fn wrong_phases(maker: &mut Maker) {
    for _ in 0..maker.dice.within(10..=60) {
        match maker.dice.within(0..=10) {
            0 => maker.start(),
            1 => maker.auction(OPENING),
            2 => maker.auction(CLOSING),
            3 | 4 => maker.any_deletions(1..=1),
            5 => maker.misfits(1..=1),
            6 => maker.any_quotes(1..=1, 2),
            _ => maker.any_orders(1..=1, 2),
        }
    }
}

fn two_sessions(maker: &mut Maker) {
    maker.good_file();
    maker.good_file();
}

fn cut(maker: &mut Maker) {
    maker.good_file();
    maker.cut();
}

fn damaged(maker: &mut Maker) {
    maker.good_file();
    for _ in 0..maker.dice.within(1..=8) {
        let place = maker.dice.within(0..=maker.file.len() as u64 - 1);
        maker.file[place as usize] ^= maker.dice.within(1..=255) as u8;
    }
}

/// A header that is nearly a good one: its length may be one off, or its kind one beyond. Auctions
/// twice as often: `looks` would look before a good one.
fn bad_headers(maker: &mut Maker) {
    maker.start();
    maker.any_orders(0..=3, 5);
    let (kind, length) = maker.dice.one_of(&[(1, 24), (2, 16), (3, 10), (4, 5), (4, 5), (5, 22)]);
    let (kind, length) = match maker.dice.once_in(2) {
        true => (kind, maker.dice.about(length)),
        false => (maker.dice.one_of(&[0, KINDS as u64 + 1]), length),
    };
    maker.file.extend((length as u16).to_le_bytes());
    maker.file.extend((kind as u16).to_le_bytes());
    for _ in 4..length {
        maker.file.push(maker.dice.within(0..=3) as u8);
    }
    maker.any_orders(0..=3, 5);
}

/// Random bytes and nothing else, or good records with random values and few such bytes.
fn random_bytes(maker: &mut Maker) {
    let alone = maker.dice.once_in(3);
    for _ in 0..maker.dice.within(0..=60) {
        if alone || maker.dice.once_in(40) {
            maker.file.push(maker.dice.roll() as u8);
        } else {
            let bits = maker.dice.one_of(&[2, 8, 20, 64]);
            let values = [0; 5].map(|_: u64| maker.dice.roll() >> (64 - bits));
            // One of kind 6 would be a fault nearly always: its length has to fit its count.
            let kind = maker.dice.within(1..=QUOTE as u64) as usize;
            maker.put(kind, values);
        }
    }
}

/// Up to a megabyte, the opening anywhere in it, and some with the last record cut.
fn far(maker: &mut Maker) {
    let most = maker.dice.one_of(&[100_000, 150_000, 300_000, 1_000_000]);
    let length = maker.dice.within(71_680..=most) as usize;
    let opening = maker.dice.within(0..=most) as usize;
    maker.start();
    while maker.file.len() < length {
        let before = maker.file.len();
        let (side, quantity, limit) = (maker.side(), maker.quantity(), maker.near(50));
        maker.order(side, DAY, quantity, limit);
        // Most are deleted at once; what rests will fill the longest files' books.
        if !maker.dice.once_in(64) {
            maker.delete(maker.last());
        }
        if maker.dice.once_in(ORDERS_TO_A_QUOTE) {
            maker.any_quotes(1..=1, 50);
        }
        if before <= opening && maker.file.len() > opening {
            maker.opening();
        }
    }
    maker.opening();
    maker.auction(CLOSING);
    maker.any_orders(0..=20, 50);
    let left = maker.file.len() as u64 - maker.dice.within(0..=3);
    maker.file.truncate(left as usize);
}

/// All numbers are given and the last 512 orders rest: refusal 9 comes before 10, and neither a
/// deletion nor an auction gives a number back. One number is too few for a quote (K2).
fn last_number(maker: &mut Maker) {
    maker.start();
    for number in 1..=NUMBER_MAX {
        if number == NUMBER_MAX {
            maker.put(QUOTE, [1, 1, maker.reference - maker.step, 1, maker.reference]);
        }
        maker.order(BUY + number % 2, DAY, 1 + number % 7, maker.reference);
        if number <= NUMBER_MAX - PLACES {
            maker.delete(number);
        }
    }
    maker.plain_orders(2..=2, 1);
    maker.any_quotes(2..=2, 1);
    maker.delete(NUMBER_MAX);
    maker.plain_orders(2..=2, 1);
    maker.opening();
    maker.plain_orders(2..=2, 1);
    maker.any_quotes(2..=2, 1);
    maker.auction(CLOSING);
}
