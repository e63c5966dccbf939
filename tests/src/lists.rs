//! Random lists. Few fields, masks and values in a list, so that its tests bear on each other: a
//! list whose tests never meet on a field says little about residues.

use crate::fields::{full, FIELDS, WIDTHS};
use crate::random::Random;
use crate::rules::{
    words, Filter, Test, AT_LEAST, AT_MOST, DIFFERS, EQUAL, FILTER_WORDS, MOST_FILTERS, ON_ITS_OWN,
    TEST_WORDS,
};

/// What a list is made of.
#[derive(Clone, Copy, PartialEq, Eq, Debug)]
pub enum Style {
    /// Masked tests that overlap on one field, sometimes two.
    Masks,
    /// All four kinds on one field.
    OneField,
    /// All four kinds on two or three fields.
    FewFields,
    /// Rules as a technician writes them: protocols, prefixes, ports, flags.
    Network,
    /// Up to 64 filters of one or two tests.
    Crowd,
    /// Any fields, masks and values.
    Wild,
}

/// The styles in the order in which a run goes through them, each with its share in 20.
const SHARES: [(Style, usize); 6] = [
    (Style::Masks, 8),
    (Style::OneField, 5),
    (Style::FewFields, 4),
    (Style::Network, 1),
    (Style::Crowd, 1),
    (Style::Wild, 1),
];

/// The style of case i in a run of n: masked rules first and most often.
pub fn style(i: usize, n: usize) -> Style {
    let mut end = 0;
    for (style, share) in SHARES {
        end += share;
        if i * 20 < end * n {
            return style;
        }
    }
    Style::Wild
}

/// The masks and values that a list's tests on one field are made of.
struct Pool {
    field: u32,
    masks: Vec<u32>,
    values: Vec<u32>,
}

/// Values that mean something in a field, so that ordinary frames meet them.
fn natural(field: u32) -> &'static [u32] {
    match field {
        0 => &[0x0800, 0x0806, 0x86DD, 1536],
        1 => &[0, 0x10, 0xB8],
        2 => &[20, 28, 40, 60, 100],
        3 => &[0, 0x4000, 0x2000, 0x2001],
        4 => &[1, 2, 64, 128],
        5 => &[1, 6, 17],
        6 | 7 => &[0x0A00_0001, 0x0A00_0002, 0x0A01_0203, 0xC0A8_0101],
        8 | 9 => &[22, 53, 80, 443, 1024, 49152],
        10 => &[0x02, 0x10, 0x12, 0x18, 0x04],
        11 => &[0, 3, 8, 11],
        12 => &[0, 1, 3],
        _ => &[0, 1, 2, 3],
    }
}

fn one_bit(random: &mut Random, field: u32) -> u32 {
    1 << random.below(WIDTHS[field as usize] as usize)
}

/// The first so many bits of a field.
fn prefix(random: &mut Random, field: u32) -> u32 {
    let width = WIDTHS[field as usize] as usize;
    let all = full(field);
    all & !(u64::from(all) >> random.between(1, width)) as u32
}

/// A mask that is not 0; some are made from one already there, to overlap with it. The full mask
/// is rare, since an equality under it settles its field at once.
fn mask(random: &mut Random, field: u32, there: &[u32]) -> u32 {
    let all = full(field);
    let other = if there.is_empty() { random.word() & all } else { random.pick(there) };
    let mask = match random.below(16) {
        0 => all,
        1 | 2 => one_bit(random, field),
        3 | 4 => one_bit(random, field) | one_bit(random, field),
        5 | 6 => prefix(random, field),
        7 => all & !prefix(random, field),
        8 => other & random.word(),
        9 => all & !other,
        10 | 11 => other | one_bit(random, field),
        12 | 13 => other ^ one_bit(random, field),
        _ => random.word() & random.word() & all,
    };
    if mask == 0 {
        all
    } else {
        mask
    }
}

fn value(random: &mut Random, field: u32, there: &[u32]) -> u32 {
    let all = full(field);
    match random.below(10) {
        0 => 0,
        1 => all,
        2 | 3 => random.word() & all,
        4..=6 if !there.is_empty() => random.pick(there) ^ one_bit(random, field),
        _ => random.pick(natural(field)),
    }
}

/// Masks of one to three bits, taken from a few bits of the field: such tests overlap without
/// settling each other at once, and the longest paths come from them.
fn narrow_masks(random: &mut Random, field: u32) -> Vec<u32> {
    let bits: Vec<u32> = (0..random.between(3, 7)).map(|_| one_bit(random, field)).collect();
    (0..random.between(3, 8))
        .map(|_| (0..random.between(1, 3)).fold(0, |mask, _| mask | random.pick(&bits)))
        .collect()
}

fn pool(random: &mut Random, field: u32) -> Pool {
    let mut pool = Pool { field, masks: Vec::new(), values: Vec::new() };
    if random.once_in(2) {
        pool.masks = narrow_masks(random, field);
    }
    for _ in pool.masks.len()..random.between(2, 8) {
        let made = mask(random, field, &pool.masks);
        pool.masks.push(made);
    }
    for _ in 0..random.between(2, 8) {
        let made = value(random, field, &pool.values);
        pool.values.push(made);
    }
    pool
}

fn masked_test(random: &mut Random, pool: &Pool) -> Test {
    let kind = random.pick(&[EQUAL, EQUAL, EQUAL, DIFFERS, DIFFERS]);
    let mask = random.pick(&pool.masks);
    Test { kind, field: pool.field, mask, value: random.pick(&pool.values) & mask }
}

/// A range test; its bounds lie at, beside and at the ends of what other tests name.
fn range_test(random: &mut Random, pool: &Pool) -> Test {
    let all = full(pool.field);
    let named = random.pick(&pool.values);
    let bound = match random.below(12) {
        0 => 0,
        1 => all,
        2 | 3 => named.saturating_sub(1),
        4 | 5 => named.saturating_add(1).min(all),
        6 | 7 => named | all & !random.pick(&pool.masks),
        _ => named,
    };
    Test { kind: random.pick(&[AT_MOST, AT_LEAST]), field: pool.field, mask: 0, value: bound }
}

/// A test; `anchor` is a value of which it should hold. Tests drawn without one soon contradict
/// each other, and a filter that never holds is put out by the first question.
fn test(random: &mut Random, pool: &Pool, anchor: u32, masks_only: bool) -> Test {
    let draw = |random: &mut Random| {
        if masks_only || random.once_in(2) {
            masked_test(random, pool)
        } else {
            range_test(random, pool)
        }
    };
    let mut drawn = draw(random);
    for _ in 0..6 {
        if drawn.of(anchor) || random.once_in(12) {
            break;
        }
        drawn = draw(random);
    }
    drawn
}

/// What a list of a style is drawn from.
struct Plan {
    fields: usize,
    filters: usize,
    most_tests: usize,
    masks_only: bool,
}

fn plan(random: &mut Random, style: Style) -> Plan {
    let (fields, filters, most_tests) = match style {
        Style::Masks => (random.pick(&[1, 1, 1, 2]), random.between(2, 16), 5),
        Style::OneField => (1, random.between(2, 16), 4),
        Style::FewFields => (random.between(2, 3), random.between(2, 9), 4),
        Style::Network => (6, random.between(3, 7), 5),
        Style::Crowd => (random.between(1, 2), random.between(8, MOST_FILTERS), 2),
        Style::Wild => (random.between(1, 5), random.between(0, 5), 8),
    };
    Plan { fields, filters, most_tests, masks_only: style == Style::Masks }
}

fn level(random: &mut Random, choices: usize) -> u32 {
    if random.once_in(50) {
        return random.pick(&[0, 254, 255]);
    }
    random.below(choices) as u32
}

/// The groups of a list: so many in which filters rank, and how often a filter is on its own, once
/// in so many or never.
struct Groups {
    ranking: usize,
    on_its_own: Option<usize>,
}

/// One list of nine has filters on their own; in half of these every filter is.
fn groups(random: &mut Random) -> Groups {
    let ranking = random.pick(&[1, 2, 3, 5, 8, 200]);
    let on_its_own = random.once_in(9).then(|| random.pick(&[1, 2]));
    Groups { ranking, on_its_own }
}

fn group(random: &mut Random, groups: &Groups) -> u32 {
    if groups.on_its_own.is_some_and(|often| random.once_in(often)) {
        return ON_ITS_OWN;
    }
    if random.once_in(50) {
        return random.pick(&[1, 254, 255]);
    }
    1 + random.below(groups.ranking) as u32
}

/// A well-formed list.
pub fn list(random: &mut Random, style: Style) -> Vec<Filter> {
    let plan = plan(random, style);
    let pools: Vec<Pool> = (0..plan.fields)
        .map(|_| {
            let field = random.below(FIELDS) as u32;
            pool(random, field)
        })
        .collect();
    let groups = groups(random);
    let levels = random.between(1, 4);
    (0..plan.filters)
        .map(|_| {
            let group = group(random, &groups);
            let level = level(random, levels);
            let tests = tests(random, &pools, &plan);
            Filter { group, level, tests }
        })
        .collect()
}

/// The tests of one filter: mostly such that some frame satisfies them all.
fn tests(random: &mut Random, pools: &[Pool], plan: &Plan) -> Vec<Test> {
    let anchors: Vec<u32> = pools.iter().map(|pool| anchor(random, pool)).collect();
    (0..number_of_tests(random, plan.most_tests))
        .map(|_| {
            let i = random.below(pools.len());
            test(random, &pools[i], anchors[i], plan.masks_only)
        })
        .collect()
}

/// A value near those of a pool.
fn anchor(random: &mut Random, pool: &Pool) -> u32 {
    let named = random.pick(&pool.values);
    match random.below(3) {
        0 => named,
        1 => named ^ one_bit(random, pool.field),
        _ => named ^ random.word() & full(pool.field) & !random.pick(&pool.masks),
    }
}

/// Now and then no test at all, and now and then the most allowed.
fn number_of_tests(random: &mut Random, most: usize) -> usize {
    if random.once_in(24) {
        0
    } else {
        random.between(1, most)
    }
}

/// Words at the edges of what the checks allow.
const EDGES: [u32; 22] = [
    0,
    1,
    2,
    3,
    4,
    5,
    8,
    9,
    13,
    14,
    64,
    65,
    254,
    255,
    256,
    257,
    65535,
    65536,
    0x7FFF_FFFF,
    0x8000_0000,
    0xFFFF_FFFE,
    u32::MAX,
];

/// The words of a list with up to three of them damaged, cut short or continued. Most such lists
/// are refused, some stay well-formed.
pub fn faulty(random: &mut Random, style: Style) -> Vec<u32> {
    let mut list = words(&list(random, style));
    for _ in 0..random.between(0, 3) {
        if !list.is_empty() {
            let at = random.below(list.len());
            list[at] = match random.below(4) {
                0 => random.word(),
                1 => list[at] ^ 1 << random.below(32),
                _ => random.pick(&EDGES),
            };
        }
    }
    match random.below(6) {
        0 => list.truncate(random.below(list.len() + 1)),
        1 => list.extend((0..random.between(1, 12)).map(|_| random.pick(&EDGES))),
        2 => fill_up(random, &mut list),
        _ => {}
    }
    list
}

/// Appends filters without tests until there are about 64, to come near refusal 1.
fn fill_up(random: &mut Random, list: &mut Vec<u32>) {
    for _ in 0..random.between(MOST_FILTERS - 8, MOST_FILTERS + 1) {
        list.extend([1 + random.below(3) as u32, random.below(3) as u32, 0]);
    }
}

/// Where the filters of a well-formed list begin, for placing faults.
pub fn places(filters: &[Filter]) -> Vec<usize> {
    let mut at = 0;
    filters
        .iter()
        .map(|filter| {
            let place = at;
            at += FILTER_WORDS + TEST_WORDS * filter.tests.len();
            place
        })
        .collect()
}
