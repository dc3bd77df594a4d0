//! A table of many ranges, over a type of declarations of one's own.

use crate::fallible::Vec;
use crate::fallible::alloc::Global;
use crate::reader::runs::{HasRange, Looks, Range, Table};

struct Declared {
    range: Range,
}

impl HasRange for Declared {
    fn range(&self) -> &Range {
        &self.range
    }
}

#[test]
fn each_of_many_codes_is_found() {
    let even_codes = (0..100_000).map(|index| 2 * index);
    let declared = even_codes.map(|code| Declared { range: Range { start: code, end: code } });
    let table = Table::build(Global, Vec::from_std(declared.collect())).expect("there is memory");
    assert_eq!(table.run_count(), 100_000);
    for code in 0..200_000 {
        let found = table.find(code, &mut Looks::new()).map(|declared| declared.range.start);
        assert_eq!(found, (code % 2 == 0).then_some(code));
    }
}

#[test]
fn looks_take_no_bytes() {
    let _looks = Looks::new();
    assert_eq!(size_of::<Looks>(), 0);
}
