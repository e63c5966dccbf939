//! A plain Rust builder and walker with document 01's algorithm and memory layout: states as arrays
//! of words in slots of the scratch, of which the record's words are compared before the slot's. No
//! proofs, no library types; what the proved builder's time is held against.
//!
//! Bounds are tested as Rust tests them. Nothing is allocated.

pub use filterbox_sys::{Answer, Built, Lamp, Set};

// Document 01's numbers, named here for the bench and the stand-in.
pub const MOST_SLOTS: usize = 4096;
pub const MOST_FILTERS: usize = 64;
pub const MOST_FRAME: usize = 1522;
pub const MOST_TESTS: usize = 8;
/// The greatest group and the greatest level.
const MOST_GROUP: u32 = 255;
/// Group, level, number of tests.
const HEAD: usize = 3;
/// Kind, field, mask, value.
pub const TEST: usize = 4;
/// The places of a record's words behind those of its question: three next states, two sets of two
/// words, the low half first.
const HOLDS_AT: usize = TEST;
const FAILS_AT: usize = 5;
const ABSENT_AT: usize = 6;
const SURE_AT: usize = 7;
const OUT_AT: usize = 9;
/// The words of a record.
pub const RECORD: usize = OUT_AT + 2;
/// The words of a filter in a slot: its remaining tests first, zeros behind.
const FILTER: usize = MOST_TESTS * TEST;
/// The words of a slot.
pub const SLOT: usize = MOST_FILTERS * FILTER;
/// Stands in the first word of a filter that is out; no kind has this number.
const OUT: u32 = 5;

const FIELDS: usize = 14;
const WIDTHS: [u32; FIELDS] = [16, 8, 16, 16, 8, 8, 32, 32, 16, 16, 8, 8, 8, 8];

pub const EQUAL: u32 = 1;
pub const DIFFERS: u32 = 2;
pub const AT_MOST: u32 = 3;
const AT_LEAST: u32 = 4;

fn full(field: u32) -> u32 {
    u32::MAX >> (32 - WIDTHS[field as usize])
}

#[derive(Clone, Copy)]
struct Test {
    kind: u32,
    field: u32,
    mask: u32,
    value: u32,
}

impl Test {
    fn from(words: &[u32]) -> Test {
        Test { kind: words[0], field: words[1], mask: words[2], value: words[3] }
    }

    fn words(&self) -> [u32; TEST] {
        [self.kind, self.field, self.mask, self.value]
    }

    fn of(&self, x: u32) -> bool {
        match self.kind {
            EQUAL => x & self.mask == self.value,
            DIFFERS => x & self.mask != self.value,
            AT_MOST => x <= self.value,
            _ => x >= self.value,
        }
    }
}

/// How a candidate is compared with a stored state.
pub trait Compare {
    /// Whether its record is compared with the stored one first: the out set, the sure set, then the
    /// question.
    const RECORDS_FIRST: bool;

    fn same(a: &[u32], b: &[u32]) -> bool;
}

/// The proved builder's way: records first, then the filters from the last back, each word by word
/// up to the first difference.
pub struct FromTheBack;

impl Compare for FromTheBack {
    const RECORDS_FIRST: bool = true;

    #[inline(always)]
    fn same(a: &[u32], b: &[u32]) -> bool {
        a.chunks_exact(FILTER).zip(b.chunks_exact(FILTER)).rev().all(|(x, y)| by_words(x, y))
    }
}

/// The proved builder's way before document 02's P3: the slots alone, from the front.
pub struct FromTheFront;

impl Compare for FromTheFront {
    const RECORDS_FIRST: bool = false;

    #[inline(always)]
    fn same(a: &[u32], b: &[u32]) -> bool {
        by_words(a, b)
    }
}

/// Records first, then slices, which the standard library hands to memcmp.
pub struct AsSlices;

impl Compare for AsSlices {
    const RECORDS_FIRST: bool = true;

    #[inline(always)]
    fn same(a: &[u32], b: &[u32]) -> bool {
        a == b
    }
}

/// Word by word up to the first difference, written in eights. As one plain loop it runs up to 1.4
/// times as long or not, as the compiler happens to inline it, and a slow yardstick flatters what is
/// held against it.
#[inline(always)]
fn by_words(a: &[u32], b: &[u32]) -> bool {
    let (mut eights, mut others) = (a.chunks_exact(8), b.chunks_exact(8));
    for (x, y) in eights.by_ref().zip(others.by_ref()) {
        for i in 0..8 {
            if x[i] != y[i] {
                return false;
            }
        }
    }
    eights.remainder() == others.remainder()
}

/// The set that a record has at a place.
fn set_at(record: &[u32], at: usize) -> Set {
    Set::from(record[at + 1]) << 32 | Set::from(record[at])
}

fn put_set(record: &mut [u32], at: usize, set: Set) {
    record[at] = set as u32;
    record[at + 1] = (set >> 32) as u32;
}

/// The first record from a number on with the question and the sets of a fresh one. A call of its
/// own, or its loop would have to share the registers of all that is inlined around it.
#[inline(never)]
fn agreeing(records: &[u32], from: usize, fresh: &[u32; RECORD]) -> Option<usize> {
    let (out, sure) = (set_at(fresh, OUT_AT), set_at(fresh, SURE_AT));
    let agrees = |record: &[u32]| {
        set_at(record, OUT_AT) == out
            && set_at(record, SURE_AT) == sure
            && record[..TEST] == fresh[..TEST]
    };
    Some(from + records[from * RECORD..].chunks_exact(RECORD).position(agrees)?)
}

/// The refusal of a list's first fault and its filter, or the number of filters.
pub fn check(list: &[u32]) -> Result<usize, Built> {
    let mut at = 0;
    let mut filter = 0;
    while at < list.len() {
        let refused = |refusal| Err(Built { refusal, number: filter as u32 });
        let rest = &list[at..];
        if filter == MOST_FILTERS {
            return refused(1);
        }
        if rest.len() < HEAD {
            return refused(2);
        }
        if rest[0] > MOST_GROUP || rest[1] > MOST_GROUP {
            return refused(3);
        }
        if rest[2] > MOST_TESTS as u32 {
            return refused(4);
        }
        let tests = rest[2] as usize;
        if rest.len() - HEAD < tests * TEST {
            return refused(2);
        }
        for i in 0..tests {
            let refusal = check_test(&rest[HEAD + i * TEST..][..TEST]);
            if refusal != 0 {
                return refused(refusal);
            }
        }
        at += HEAD + tests * TEST;
        filter += 1;
    }
    Ok(filter)
}

fn check_test(words: &[u32]) -> u32 {
    let test = Test::from(words);
    if test.kind < EQUAL || test.kind > AT_LEAST {
        return 5;
    }
    if test.field >= FIELDS as u32 {
        return 6;
    }
    let masked = test.kind <= DIFFERS;
    if masked == (test.mask == 0) {
        return 7;
    }
    if test.mask > full(test.field) || test.value > full(test.field) {
        return 8;
    }
    if masked && test.value & !test.mask != 0 {
        return 9;
    }
    0
}

/// True, false, or the mask and value that a test is left with.
enum Left {
    True,
    False,
    Test(u32, u32),
}

/// What is known after an outcome: a test that holds, or with kind 0 that the field is absent.
fn fact(question: Test, way: usize) -> Test {
    let absent = Test { kind: 0, ..question };
    match (way, question.kind) {
        (0, _) => question,
        (1, EQUAL) => Test { kind: DIFFERS, ..question },
        (1, DIFFERS) => Test { kind: EQUAL, ..question },
        (1, AT_MOST) if question.value < full(question.field) => {
            Test { kind: AT_LEAST, value: question.value + 1, ..question }
        }
        (1, AT_LEAST) if question.value > 0 => {
            Test { kind: AT_MOST, value: question.value - 1, ..question }
        }
        _ => absent,
    }
}

fn decided(truth: bool) -> Left {
    if truth {
        Left::True
    } else {
        Left::False
    }
}

/// What is left of a test on the fact's own field.
fn residue(test: Test, fact: Test) -> Left {
    let all = full(test.field);
    let same = Left::Test(test.mask, test.value);
    let equal = test.kind == EQUAL;
    match fact.kind {
        0 => Left::False,
        EQUAL if fact.mask == all => decided(test.of(fact.value)),
        EQUAL => given_equal(test, fact, all),
        DIFFERS => {
            let masked = test.kind <= DIFFERS;
            if masked && fact.mask & !test.mask == 0 && test.value & fact.mask == fact.value {
                return decided(!equal);
            }
            same
        }
        AT_MOST => match test.kind {
            EQUAL | DIFFERS if test.value > fact.value => decided(!equal),
            AT_MOST if fact.value <= test.value => Left::True,
            AT_LEAST if test.value > fact.value => Left::False,
            _ => same,
        },
        _ => match test.kind {
            EQUAL | DIFFERS if test.value + (all - test.mask) < fact.value => decided(!equal),
            AT_MOST if test.value < fact.value => Left::False,
            AT_LEAST if test.value <= fact.value => Left::True,
            _ => same,
        },
    }
}

/// The same where some bits of the field are known.
fn given_equal(test: Test, fact: Test, all: u32) -> Left {
    let same = Left::Test(test.mask, test.value);
    let equal = test.kind == EQUAL;
    match test.kind {
        EQUAL | DIFFERS => {
            if test.value & fact.mask != fact.value & test.mask {
                return decided(!equal);
            }
            let rest = test.mask & !fact.mask;
            if rest == 0 {
                return decided(equal);
            }
            Left::Test(rest, test.value & rest)
        }
        AT_MOST if fact.value > test.value => Left::False,
        AT_MOST if fact.value + (all - fact.mask) <= test.value => Left::True,
        AT_LEAST if fact.value >= test.value => Left::True,
        AT_LEAST if fact.value + (all - fact.mask) < test.value => Left::False,
        _ => same,
    }
}

struct Builder<'a> {
    table: &'a mut [u32],
    scratch: &'a mut [u32],
    slots: usize,
    used: usize,
    filters: usize,
    /// The filters that rank below each filter.
    below: [Set; MOST_FILTERS],
    /// The state that a way leads to, before it is known to be new.
    candidate: [u32; SLOT],
}

/// More states than slots.
struct Full;

/// Builds a list in lent words.
pub fn build<C: Compare>(list: &[u32], table: &mut [u32], scratch: &mut [u32]) -> Built {
    let filters = match check(list) {
        Ok(filters) => filters,
        Err(refused) => return refused,
    };
    let slots = (table.len() / RECORD).min(MOST_SLOTS);
    if scratch.len() < slots * SLOT {
        return Built { refusal: 10, number: 0 };
    }
    let mut builder = Builder {
        table,
        scratch,
        slots,
        used: 0,
        filters,
        below: ranks(list, filters),
        candidate: [0; SLOT],
    };
    builder.start(list);
    let built = builder.meet::<C>().and_then(|(first, _)| builder.state::<C>(first));
    let used = builder.used;
    // Slots that were never used still hold the lender's words.
    scratch[..slots * SLOT].fill(0);
    if built.is_err() {
        table[..slots * RECORD].fill(0);
        return Built { refusal: 11, number: 0 };
    }
    Built { refusal: 0, number: used as u32 }
}

fn ranks(list: &[u32], filters: usize) -> [Set; MOST_FILTERS] {
    let mut heads = [(0, 0); MOST_FILTERS];
    let mut at = 0;
    for head in heads.iter_mut().take(filters) {
        *head = (list[at], list[at + 1]);
        at += HEAD + list[at + 2] as usize * TEST;
    }
    let mut below = [0; MOST_FILTERS];
    for a in 0..filters {
        for b in 0..filters {
            let (x, y) = (heads[a], heads[b]);
            // In group 0 each filter is on its own.
            if x.0 != 0 && x.0 == y.0 && (x.1 > y.1 || x.1 == y.1 && a < b) {
                below[a] |= 1 << b;
            }
        }
    }
    below
}

impl Builder<'_> {
    fn start(&mut self, list: &[u32]) {
        let mut at = 0;
        for i in 0..self.filters {
            let words = list[at + 2] as usize * TEST;
            self.candidate[i * FILTER..][..words].copy_from_slice(&list[at + HEAD..][..words]);
            at += HEAD + words;
        }
        self.drop_beaten();
    }

    /// The words of a slot that this list uses.
    fn width(&self) -> usize {
        self.filters * FILTER
    }

    fn drop_beaten(&mut self) {
        let mut beaten = 0;
        for i in 0..self.filters {
            if self.candidate[i * FILTER] == 0 {
                beaten |= self.below[i];
            }
        }
        for i in 0..self.filters {
            if beaten >> i & 1 == 1 {
                self.candidate[i * FILTER..][..FILTER].fill(0);
                self.candidate[i * FILTER] = OUT;
            }
        }
    }

    /// Looks for the candidate among the states met, and gives it the next number if it is new.
    fn meet<C: Compare>(&mut self) -> Result<(usize, bool), Full> {
        let width = self.width();
        let fresh = self.fresh();
        let mut from = 0;
        while let Some(n) = self.next::<C>(from, &fresh) {
            if C::same(&self.scratch[n * SLOT..][..width], &self.candidate[..width]) {
                return Ok((n, false));
            }
            from = n + 1;
        }
        if self.used == self.slots {
            return Err(Full);
        }
        let n = self.used;
        self.scratch[n * SLOT..][..width].copy_from_slice(&self.candidate[..width]);
        self.table[n * RECORD..][..RECORD].copy_from_slice(&fresh);
        self.used += 1;
        Ok((n, true))
    }

    /// The next state from a number on whose slot is to be compared.
    fn next<C: Compare>(&self, from: usize, fresh: &[u32; RECORD]) -> Option<usize> {
        if C::RECORDS_FIRST {
            agreeing(&self.table[..self.used * RECORD], from, fresh)
        } else {
            (from < self.used).then_some(from)
        }
    }

    fn question(state: &[u32]) -> Option<Test> {
        let asks = state.chunks_exact(FILTER).find(|filter| filter[0] != 0 && filter[0] != OUT)?;
        Some(Test::from(asks))
    }

    /// The candidate's record, with no next states yet.
    fn fresh(&self) -> [u32; RECORD] {
        let mut out = 0;
        let mut held = 0;
        let state = &self.candidate[..self.width()];
        for (i, filter) in state.chunks_exact(FILTER).enumerate() {
            match filter[0] {
                OUT => out |= 1 << i,
                0 => held |= 1 << i,
                _ => {}
            }
        }
        let mut sure = held;
        for i in 0..self.filters {
            if out >> i & 1 == 0 {
                sure &= !self.below[i];
            }
        }
        let mut record = [0; RECORD];
        if let Some(test) = Self::question(state) {
            record[..TEST].copy_from_slice(&test.words());
        }
        put_set(&mut record, SURE_AT, sure);
        put_set(&mut record, OUT_AT, out);
        record
    }

    fn state<C: Compare>(&mut self, n: usize) -> Result<(), Full> {
        let state = &self.scratch[n * SLOT..][..self.width()];
        let Some(question) = Self::question(state) else { return Ok(()) };
        for way in 0..3 {
            self.step(n, fact(question, way));
            let (next, new) = self.meet::<C>()?;
            self.table[n * RECORD + HOLDS_AT + way] = next as u32;
            if new {
                self.state::<C>(next)?;
            }
        }
        Ok(())
    }

    /// Makes the candidate from the state in slot n and a fact.
    fn step(&mut self, n: usize, fact: Test) {
        for i in 0..self.filters {
            let from = n * SLOT + i * FILTER;
            self.divide(from, i * FILTER, fact);
        }
        self.drop_beaten();
    }

    fn divide(&mut self, from: usize, to: usize, fact: Test) {
        let old = &self.scratch[from..from + FILTER];
        let new = &mut self.candidate[to..to + FILTER];
        new.fill(0);
        if old[0] == OUT {
            new[0] = OUT;
            return;
        }
        let mut at = 0;
        for words in old.chunks_exact(TEST) {
            if words[0] == 0 {
                return;
            }
            let test = Test::from(words);
            let left = if test.field == fact.field {
                residue(test, fact)
            } else {
                Left::Test(test.mask, test.value)
            };
            match left {
                Left::True => {}
                Left::False => {
                    new.fill(0);
                    new[0] = OUT;
                    return;
                }
                Left::Test(mask, value) => {
                    new[at..at + TEST].copy_from_slice(&[test.kind, test.field, mask, value]);
                    at += TEST;
                }
            }
        }
    }
}

/// A frame's fields, read once: which are present, and their values.
#[derive(Clone, Copy)]
pub struct Header {
    pub present: u32,
    pub values: [u32; FIELDS],
}

/// The number in two bytes.
fn pair(bytes: &[u8], at: usize) -> u32 {
    u32::from(bytes[at]) << 8 | u32::from(bytes[at + 1])
}

pub fn read_header(frame: &[u8], port: u8) -> Header {
    let mut header = Header { present: 1 << 13, values: [0; FIELDS] };
    header.values[13] = u32::from(port);
    if frame.len() < 14 {
        return header;
    }
    let ethertype = pair(frame, 12);
    if ethertype >= 1536 {
        header.present |= 1;
        header.values[0] = ethertype;
    }
    if ethertype != 0x0800 || frame.len() < 34 {
        return header;
    }
    let ip = &frame[14..];
    let length = 4 * usize::from(ip[0] & 15);
    let total = pair(ip, 2) as usize;
    if ip[0] >> 4 != 4 || length < 20 || total < length || total > ip.len() {
        return header;
    }
    header.present |= 0xFE;
    header.values[1] = u32::from(ip[1]);
    header.values[2] = total as u32;
    header.values[3] = pair(ip, 6);
    header.values[4] = u32::from(ip[8]);
    header.values[5] = u32::from(ip[9]);
    header.values[6] = pair(ip, 12) << 16 | pair(ip, 14);
    header.values[7] = pair(ip, 16) << 16 | pair(ip, 18);
    if header.values[3] & 0x1FFF == 0 {
        let part = &ip[length..total];
        read_transport(&mut header, ip[9], part);
    }
    header
}

fn read_transport(header: &mut Header, protocol: u8, part: &[u8]) {
    match protocol {
        1 => {
            if let Some(&kind) = part.first() {
                header.present |= 1 << 11;
                header.values[11] = u32::from(kind);
            }
            if let Some(&code) = part.get(1) {
                header.present |= 1 << 12;
                header.values[12] = u32::from(code);
            }
        }
        6 | 17 if part.len() >= 4 => {
            header.present |= 3 << 8;
            header.values[8] = pair(part, 0);
            header.values[9] = pair(part, 2);
            if protocol == 6 && part.len() >= 14 {
                header.present |= 1 << 10;
                header.values[10] = u32::from(part[13]);
            }
        }
        _ => {}
    }
}

/// The fields that a frame which goes on could have: a byte behind the end may be any, and so may
/// the total length.
pub fn possible(frame: &[u8]) -> u32 {
    let could = |at: usize, fits: fn(u8) -> bool| frame.get(at).map_or(true, |&byte| fits(byte));
    let mut set = 1 << 13;
    if !could(12, |byte| byte >= 6) {
        return set;
    }
    set |= 1;
    if !could(12, |byte| byte == 8) || !could(13, |byte| byte == 0) {
        return set;
    }
    if !could(14, |byte| (0x45..=0x4F).contains(&byte)) {
        return set;
    }
    set |= 0xFE;
    if could(20, |byte| byte & 0x1F == 0) && could(21, |byte| byte == 0) {
        set |= match frame.get(23) {
            None => 0x1F00,
            Some(1) => 0x1800,
            Some(6) => 0x0700,
            Some(17) => 0x0300,
            Some(_) => 0,
        };
    }
    set
}

/// Walks a frame through a table.
#[inline(never)]
pub fn classify(frame: &[u8], port: u8, table: &[u32], states: u32, allowance: u32) -> Answer {
    let refused = |refusal| Answer { ended: 0, refusal, sure: 0, out: 0, asked: 0, cut: 0 };
    if frame.len() > MOST_FRAME {
        return refused(12);
    }
    if states == 0 || states as usize > (table.len() / RECORD).min(MOST_SLOTS) {
        return refused(13);
    }
    let header = read_header(frame, port);
    let mut number = 0;
    let mut asked = 0;
    let mut absent = 0;
    loop {
        let record = &table[number as usize * RECORD..][..RECORD];
        let test = Test::from(record);
        if test.kind > AT_LEAST || test.kind != 0 && test.field >= FIELDS as u32 {
            return refused(13);
        }
        if test.kind == 0 || asked == allowance {
            let ended = if test.kind == 0 { 1 } else { 2 };
            let cut = u32::from(absent != 0 && absent & possible(frame) != 0);
            let (sure, out) = (set_at(record, SURE_AT), set_at(record, OUT_AT));
            return Answer { ended, refusal: 0, sure, out, asked, cut };
        }
        let field = test.field as usize;
        let next = if header.present >> field & 1 == 0 {
            record[ABSENT_AT]
        } else if test.of(header.values[field]) {
            record[HOLDS_AT]
        } else {
            record[FAILS_AT]
        };
        if next >= states {
            return refused(13);
        }
        number = next;
        asked += 1;
        absent |= !header.present & 1 << field;
    }
}

/// Whether any filter matches: the state is worked out in one slot, beside the walk.
pub fn lamp(list: &[u32], frame: &[u8], port: u8, table: &[u32], states: u32) -> Lamp {
    let refused = |refusal, filter| Lamp { refusal, filter, lit: 0, asked: 0 };
    let filters = match check(list) {
        Ok(filters) => filters,
        Err(built) => return refused(built.refusal, built.number),
    };
    if frame.len() > MOST_FRAME {
        return refused(12, 0);
    }
    if states == 0 || states as usize > (table.len() / RECORD).min(MOST_SLOTS) {
        return refused(13, 0);
    }
    let header = read_header(frame, port);
    let below = ranks(list, filters);
    let (table_of, scratch) = (&mut [], &mut [0; SLOT]);
    let candidate = [0; SLOT];
    let mut walk =
        Builder { table: table_of, scratch, slots: 1, used: 0, filters, below, candidate };
    walk.start(list);
    let mut number = 0;
    let mut asked = 0;
    loop {
        walk.scratch.copy_from_slice(&walk.candidate);
        let record = &table[number as usize * RECORD..][..RECORD];
        let question = Builder::question(&walk.candidate[..walk.width()]);
        let held = walk.candidate[..walk.width()].chunks_exact(FILTER).any(|words| words[0] == 0);
        let as_is = question.map_or(record[0] == 0, |test| record[..TEST] == test.words());
        if !as_is {
            return refused(13, 0);
        }
        let Some(test) = question.filter(|_| !held) else {
            return Lamp { refusal: 0, filter: 0, lit: held.into(), asked };
        };
        let field = test.field as usize;
        let present = header.present >> field & 1 == 1;
        let way = if !present { 2 } else { usize::from(!test.of(header.values[field])) };
        if record[TEST + way] >= states {
            return refused(13, 0);
        }
        walk.step(0, fact(test, way));
        number = record[TEST + way];
        asked += 1;
    }
}
