//! What looks wrong in files.

use crate::CMap;
use crate::ffi::{self, RawFinding};
use crate::finding::{Finding, Place, Warning, in_order};

impl CMap {
    /// What looks wrong in the file: the warnings of `cmap check --lint`, each at most once, in the order of
    /// [`Warning`]. [`Warning::NameDiffers`] is never among them.
    ///
    /// `text` is the file, if it is a text; without bytes there is no warning about the spelling of a text.
    /// `to_unicode` tells that the map is a ToUnicode CMap.
    ///
    /// `shown` has the codes that are shown with the font, in any order. A finding counts the shown codes that
    /// it concerns. A declaration concerns the codes between its ends; with [`Warning::NoText`] only the codes
    /// without a text. A string concerns the codes of its entry, and a text in a list only its own code.
    ///
    /// ```
    /// use hayro_cmap::{CMap, Place, Warning};
    ///
    /// let file = b"1 begincodespacerange <00> <FF> endcodespacerange 1 beginbfchar <02> <20BB7> endbfchar";
    /// let map = CMap::parse(file, |_| None).unwrap();
    /// let found = map.lint(file, false, &[2]);
    /// assert_eq!(found[0].warning, Warning::OddDigits);
    /// assert_eq!(found[0].warning.name(), "odd-digits");
    /// assert_eq!(found[0].first, Place::Offset(69));
    /// assert_eq!((found[0].shown, found[0].first_shown), (1, Some(2)));
    /// ```
    pub fn lint(&self, text: &[u8], to_unicode: bool, shown: &[u32]) -> Vec<Finding> {
        let shown = in_order(shown);
        let found = self.ask(|map| map.lint(text, to_unicode, &shown));
        found.iter().filter_map(Finding::of).collect()
    }
}

impl Finding {
    /// The finding; `None` if this crate doesn't know the warning.
    fn of(raw: &RawFinding) -> Option<Finding> {
        Some(Finding {
            warning: Warning::numbered(raw.warning)?,
            count: raw.count,
            first: place_of(raw),
            shown: raw.shown,
            first_shown: (raw.shown > 0).then_some(raw.first_shown),
        })
    }
}

fn place_of(raw: &RawFinding) -> Place {
    let byte_len = raw.byte_len as u8;
    match raw.place {
        1 => Place::Code { byte_len, code: raw.first },
        2 => Place::Range { byte_len, first: raw.first, last: raw.last },
        3 => Place::Name,
        4 => Place::Offset(raw.offset),
        _ => Place::File,
    }
}

impl Warning {
    /// The name of the warning in `cmap check --lint`, such as `odd-digits`.
    pub fn name(self) -> String {
        let name = ffi::warning_name(self as u32).unwrap_or_default();
        String::from_utf8_lossy(&name).into_owned()
    }
}
