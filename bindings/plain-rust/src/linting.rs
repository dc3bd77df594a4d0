//! What looks wrong in files.

use crate::fallible::alloc::Global;
use crate::finding::{Finding, Place, Warning, in_order};
use crate::reader::lint::{Subject, findings_of};
use crate::reader::{finding, warning};
use crate::{CMap, made};
use alloc::string::String;
use alloc::vec::Vec;

impl CMap {
    /// What looks wrong in the file: the warnings of `cmap check --lint`, each at most once, in the order of
    /// [`Warning`]. [`Warning::NameDiffers`] is never among them.
    ///
    /// `text` is the file, if it is a text; without bytes there is no warning about the spelling of a text.
    /// `to_unicode` tells that the map is a ToUnicode CMap.
    ///
    /// `shown` has the codes that are shown with the font, in any order. A finding counts the shown codes that
    /// it concerns. A declaration concerns the codes between its ends; with [`Warning::NoText`] only the codes
    /// without a text. A string concerns the codes of its entry, and a text in a list only its own code.
    ///
    /// ```
    /// use hayro_cmap::{CMap, Place, Warning};
    ///
    /// let file = b"1 begincodespacerange <00> <FF> endcodespacerange 1 beginbfchar <02> <20BB7> endbfchar";
    /// let map = CMap::parse(file, |_| None).unwrap();
    /// let found = map.lint(file, false, &[2]);
    /// assert_eq!(found[0].warning, Warning::OddDigits);
    /// assert_eq!(found[0].warning.name(), "odd-digits");
    /// assert_eq!(found[0].first, Place::Offset(69));
    /// assert_eq!((found[0].shown, found[0].first_shown), (1, Some(2)));
    /// ```
    pub fn lint(&self, text: &[u8], to_unicode: bool, shown: &[u32]) -> Vec<Finding> {
        let shown = in_order(shown);
        let subject = Subject {
            map: self.reader_layers(),
            text: (!text.is_empty()).then_some(text),
            file_name: None,
            to_unicode,
            shown: &shown,
        };
        made(findings_of(Global, &subject)).iter().filter_map(Finding::of).collect()
    }
}

impl Finding {
    /// The finding; `None` if this crate doesn't know the warning.
    fn of(found: &finding::Finding<'_>) -> Option<Finding> {
        Some(Finding {
            warning: Warning::numbered(found.warning.number())?,
            count: found.count,
            first: place_of(found.first),
            shown: found.shown,
            first_shown: found.first_shown,
        })
    }
}

fn place_of(place: finding::Place<'_>) -> Place {
    match place {
        finding::Place::File => Place::File,
        finding::Place::Code { byte_len, code } => Place::Code { byte_len, code },
        finding::Place::Range { byte_len, range } => {
            Place::Range { byte_len, first: range.start, last: range.end }
        }
        finding::Place::Name(_) => Place::Name,
        finding::Place::Offset(offset) => Place::Offset(offset),
    }
}

impl Warning {
    /// The name of the warning in `cmap check --lint`, such as `odd-digits`.
    pub fn name(self) -> String {
        let known = warning::Warning::numbered(self as u32);
        String::from(known.map_or("", warning::Warning::name))
    }
}
