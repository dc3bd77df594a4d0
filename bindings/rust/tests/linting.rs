//! What looks wrong in files that have a map.

use hayro_cmap::{CMap, Finding, Place, Warning};

const DOUBTFUL: &[u8] = b"1 begincodespacerange <00> <FF> endcodespacerange \
    3 beginbfchar <01> <E000> <02> <20BB7> <03> <0041> endbfchar";

fn lint(file: &[u8], to_unicode: bool, shown: &[u32]) -> Vec<Finding> {
    CMap::parse(file, |_| None).expect("it is accepted").lint(file, to_unicode, shown)
}

/// The warnings, each with its count, its first place, and the shown codes that it concerns.
fn fields(found: &[Finding]) -> Vec<(Warning, u64, Place, usize, Option<u32>)> {
    found.iter().map(|it| (it.warning, it.count, it.first, it.shown, it.first_shown)).collect()
}

#[test]
fn warnings_say_where_and_which_shown_codes() {
    let offset = DOUBTFUL.windows(7).position(|bytes| bytes == b"<20BB7>").unwrap();
    let at = |code| Place::Code { byte_len: 1, code };
    let expected = [
        (Warning::PrivateUse, 1, at(1), 1, Some(1)),
        (Warning::NoMapping, 253, at(0), 1, Some(4)),
        (Warning::OddDigits, 1, Place::Offset(offset), 1, Some(2)),
        (Warning::OddText, 1, Place::Offset(offset), 1, Some(2)),
    ];
    assert_eq!(fields(&lint(DOUBTFUL, true, &[4, 2, 1, 2])), expected);
}

#[test]
fn without_shown_codes_none_is_concerned() {
    let found = lint(DOUBTFUL, true, &[]);
    assert_eq!(found.len(), 4);
    assert!(found.iter().all(|it| it.shown == 0 && it.first_shown.is_none()));
}

#[test]
fn without_a_text_only_the_map_is_looked_at() {
    let map = CMap::parse(DOUBTFUL, |_| None).unwrap();
    assert_eq!(map.lint(b"", false, &[]), []);
    assert_eq!(map.lint(b"", true, &[]).len(), 2);
}

#[test]
fn declarations_files_and_names_are_places() {
    let file = b"/CMapName /A-V def begincidrange <01F0> <0210> 5 endcidrange";
    let range = Place::Range { byte_len: 2, first: 0x1F0, last: 0x210 };
    let expected = [
        (Warning::NoCodespace, 1, Place::File, 0, None),
        (Warning::CrossesRow, 1, range, 1, Some(0x210)),
        (Warning::ModeDiffers, 1, Place::Name, 0, None),
    ];
    let map = CMap::parse(file, |_| None).unwrap();
    assert_eq!(fields(&map.lint(b"", false, &[0x210, 0x211])), expected);
}

#[test]
fn warnings_have_the_names_of_the_command() {
    assert_eq!(Warning::NothingDeclared.name(), "nothing-declared");
    assert_eq!(Warning::NoMapping.name(), "no-mapping");
    assert_eq!(Warning::OddText.name(), "odd-text");
}
