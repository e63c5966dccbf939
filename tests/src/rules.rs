//! A run of words as a list of filters: tests, ranks, refusals 1 to 9
//! (document 01, "Tests, filters, ranks" and "Refusal numbers"; document 02, P6).

pub use crate::sizes::{
    AT_LEAST, AT_MOST, DIFFERS, EQUAL, FILTER_WORDS, MOST_FILTERS, MOST_GROUP, MOST_TESTS,
    TEST_WORDS,
};

use crate::fields::{full, FIELDS};

/// The group whose filters rank above and below none.
pub const ON_ITS_OWN: u32 = 0;

/// A test in the order of its words.
#[derive(Clone, Copy, PartialEq, Eq, Hash, Debug)]
pub struct Test {
    pub kind: u32,
    pub field: u32,
    pub mask: u32,
    pub value: u32,
}

#[derive(Clone, PartialEq, Eq, Debug)]
pub struct Filter {
    pub group: u32,
    pub level: u32,
    pub tests: Vec<Test>,
}

/// Why a list is refused, and the filter's number or 0.
#[derive(Clone, Copy, PartialEq, Eq, Debug)]
pub struct Refused {
    pub refusal: u32,
    pub filter: u32,
}

impl Test {
    /// Whether the test holds of a present field's value.
    pub fn of(&self, x: u32) -> bool {
        match self.kind {
            EQUAL => x & self.mask == self.value,
            DIFFERS => x & self.mask != self.value,
            AT_MOST => x <= self.value,
            AT_LEAST => x >= self.value,
            kind => unreachable!("a test of kind {kind}"),
        }
    }

    pub fn words(&self) -> [u32; TEST_WORDS] {
        [self.kind, self.field, self.mask, self.value]
    }
}

/// Whether filter a ranks above filter b.
pub fn above(filters: &[Filter], a: usize, b: usize) -> bool {
    let (x, y) = (&filters[a], &filters[b]);
    if x.group == ON_ITS_OWN || y.group == ON_ITS_OWN {
        return false;
    }
    x.group == y.group && (x.level > y.level || x.level == y.level && a < b)
}

/// The number of tests in all filters.
pub fn tests(filters: &[Filter]) -> usize {
    filters.iter().map(|filter| filter.tests.len()).sum()
}

/// The words of a list.
pub fn words(filters: &[Filter]) -> Vec<u32> {
    let mut words = Vec::new();
    for filter in filters {
        words.extend([filter.group, filter.level, filter.tests.len() as u32]);
        words.extend(filter.tests.iter().flat_map(Test::words));
    }
    words
}

/// The filters of a list, or its first fault.
pub fn read_list(words: &[u32]) -> Result<Vec<Filter>, Refused> {
    let mut filters = Vec::new();
    let mut rest = words;
    while !rest.is_empty() {
        let number = filters.len();
        let refused = |refusal| Refused { refusal, filter: number as u32 };
        if number == MOST_FILTERS {
            return Err(refused(1));
        }
        if rest.len() < FILTER_WORDS {
            return Err(refused(2));
        }
        let (head, behind) = rest.split_at(FILTER_WORDS);
        if head[0] > MOST_GROUP || head[1] > MOST_GROUP {
            return Err(refused(3));
        }
        if head[2] > MOST_TESTS {
            return Err(refused(4));
        }
        let length = head[2] as usize * TEST_WORDS;
        if behind.len() < length {
            return Err(refused(2));
        }
        let (body, behind) = behind.split_at(length);
        let tests = body.chunks_exact(TEST_WORDS).map(read_test).collect::<Result<_, _>>();
        let tests = tests.map_err(refused)?;
        filters.push(Filter { group: head[0], level: head[1], tests });
        rest = behind;
    }
    Ok(filters)
}

/// A test from its four words, or its refusal, 5 to 9.
fn read_test(words: &[u32]) -> Result<Test, u32> {
    let test = Test { kind: words[0], field: words[1], mask: words[2], value: words[3] };
    if test.kind < EQUAL || test.kind > AT_LEAST {
        return Err(5);
    }
    if test.field >= FIELDS as u32 {
        return Err(6);
    }
    let masked = test.kind == EQUAL || test.kind == DIFFERS;
    if masked == (test.mask == 0) {
        return Err(7);
    }
    if test.mask > full(test.field) || test.value > full(test.field) {
        return Err(8);
    }
    if masked && test.value & !test.mask != 0 {
        return Err(9);
    }
    Ok(test)
}
