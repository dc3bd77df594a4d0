//! Destinations: their units, and the texts that these stand for.

use super::maps::text_of;
use super::memory::counted;
use crate::bytes::asked;
use crate::maps::{text, unless};
use crate::row_error::{Answer, RowError};
use hayro_cmap::fallible::alloc::Global;
use hayro_cmap::reader::{Units, utf16};

/// What comes after a word that asks something of a destination.
pub fn answer(bytes: &[u8], word: &str, rest: &str) -> Answer<String> {
    let units = counted(|| utf16::units(Global, bytes))?;
    match word {
        "units" => shown(&units),
        "text" => text_at(&units, rest),
        _ => Err(RowError::UNKNOWN_WORD),
    }
}

/// Units; a declaration has to keep them, and a copy of it too.
fn shown(units: &[u16]) -> Answer<String> {
    let kept = counted(|| Units::from_slice(Global, units))?;
    let copied = counted(|| kept.clone(Global))?;
    let is_kept = kept.as_slice() == units && copied.as_slice() == units;
    let shown: String = units.iter().map(|unit| format!(" {unit:04X}")).collect();
    let shown = if units.is_empty() { String::from(" none") } else { shown };
    Ok(shown + unless(is_kept))
}

/// The text at the offset that a line begins with. It is one character where `one_char` finds that.
fn text_at(units: &[u16], rest: &str) -> Answer<String> {
    let digits = asked(rest, ' ', "text OFFSET ..")?;
    let offset = digits.parse().map_err(|_| RowError::Wrong("no offset"))?;
    let found = counted(|| utf16::text(Global, units, offset))?.map(text_of);
    let one = found.as_ref().filter(|text| text.is_one).map(|text| text.characters.clone());
    let is_same = one == utf16::one_char(units, offset).map(String::from);
    Ok(format!(" {digits}{}{}", text(found.as_ref()), unless(is_same)))
}
