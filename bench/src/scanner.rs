//! Ordinary optimised scanners: the header is read once, then each filter is asked in turn. What the
//! walk through a table is held against.

use crate::plain::{read_header, Header, Set, AT_MOST, DIFFERS, EQUAL, TEST};

#[derive(Clone, Copy)]
enum Kind {
    Equal,
    Differs,
    AtMost,
    AtLeast,
}

#[derive(Clone, Copy)]
struct Test {
    kind: Kind,
    field: u8,
    mask: u32,
    value: u32,
}

impl Test {
    fn from(words: &[u32]) -> Test {
        let kind = match words[0] {
            EQUAL => Kind::Equal,
            DIFFERS => Kind::Differs,
            AT_MOST => Kind::AtMost,
            _ => Kind::AtLeast,
        };
        Test { kind, field: words[1] as u8, mask: words[2], value: words[3] }
    }

    #[inline(always)]
    fn holds(&self, header: &Header) -> bool {
        let field = usize::from(self.field & 15);
        if header.present >> field & 1 == 0 {
            return false;
        }
        let x = header.values[field];
        match self.kind {
            Kind::Equal => x & self.mask == self.value,
            Kind::Differs => x & self.mask != self.value,
            Kind::AtMost => x <= self.value,
            Kind::AtLeast => x >= self.value,
        }
    }
}

struct Filter {
    group: u32,
    level: u32,
    tests: Vec<Test>,
}

/// The filters of a list that is known to be well-formed.
fn filters(list: &[u32]) -> Vec<Filter> {
    let mut filters = Vec::new();
    let mut rest = list;
    while let [group, level, tests, behind @ ..] = rest {
        let (words, behind) = behind.split_at(TEST * *tests as usize);
        let tests = words.chunks_exact(TEST).map(Test::from).collect();
        filters.push(Filter { group: *group, level: *level, tests });
        rest = behind;
    }
    filters
}

/// For each filter the set of those that rank above it.
fn ranks(filters: &[Filter]) -> Vec<Set> {
    let above = |a: usize, b: usize| {
        let (x, y) = (&filters[a], &filters[b]);
        // In group 0 each filter is on its own.
        let compared = x.group == y.group && x.group != 0;
        compared && (x.level > y.level || x.level == y.level && a < b)
    };
    (0..filters.len())
        .map(|i| (0..filters.len()).filter(|&j| above(j, i)).fold(0, |set, j| set | 1 << j))
        .collect()
}

/// Asks every filter, then takes those above which none holds.
pub struct InTurn {
    filters: Vec<Filter>,
    above: Vec<Set>,
}

impl InTurn {
    pub fn new(list: &[u32]) -> InTurn {
        let filters = filters(list);
        let above = ranks(&filters);
        InTurn { filters, above }
    }

    #[inline(never)]
    pub fn scan_in_turn(&self, frame: &[u8], port: u8) -> Set {
        let header = read_header(frame, port);
        let mut holding = 0;
        for (i, filter) in self.filters.iter().enumerate() {
            if filter.tests.iter().all(|test| test.holds(&header)) {
                holding |= 1 << i;
            }
        }
        let mut matches = 0;
        let mut rest: Set = holding;
        while rest != 0 {
            let i = rest.trailing_zeros();
            if self.above[i as usize] & holding == 0 {
                matches |= 1 << i;
            }
            rest &= rest - 1;
        }
        matches
    }
}

/// Asks the filters from the highest rank down and skips those below one that holds; the tests lie
/// one behind the other in one piece of memory.
pub struct Sorted {
    order: Vec<Entry>,
    tests: Vec<Test>,
}

struct Entry {
    bit: Set,
    above: Set,
    end: u32,
}

impl Sorted {
    pub fn new(list: &[u32]) -> Sorted {
        let filters = filters(list);
        let above = ranks(&filters);
        let mut numbers: Vec<usize> = (0..filters.len()).collect();
        numbers.sort_by_key(|&i| (above[i].count_ones(), i));
        let mut sorted = Sorted { order: Vec::new(), tests: Vec::new() };
        for i in numbers {
            sorted.tests.extend(&filters[i].tests);
            let end = sorted.tests.len() as u32;
            sorted.order.push(Entry { bit: 1 << i, above: above[i], end });
        }
        sorted
    }

    #[inline(never)]
    pub fn scan_sorted(&self, frame: &[u8], port: u8) -> Set {
        let header = read_header(frame, port);
        let mut matches = 0;
        let mut start = 0;
        for entry in &self.order {
            let end = entry.end as usize;
            if entry.above & matches == 0
                && self.tests[start..end].iter().all(|test| test.holds(&header))
            {
                matches |= entry.bit;
            }
            start = end;
        }
        matches
    }
}
