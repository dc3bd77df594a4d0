//! The maps of a font, and the codes of its strings.

use crate::folding::fold;
use crate::map::{CMap, StringCode};
use crate::refusal::Refusal;
use crate::text::BfString;
use crate::{CMapName, CidFamily};
use alloc::string::String;
use alloc::vec::Vec;

/// The maps of a font. They give the texts of its strings, and an [`Encoder`](crate::Encoder) the strings of
/// texts. ISO 32000-1, 9.10.2.
///
/// ```
/// use hayro_cmap::{BfString, CMap, Extractor};
///
/// let collection = CMap::parse(b"beginbfchar <1234> <65E5> endbfchar", |_| None);
/// let font = Extractor::new(CMap::identity_h(), None, collection);
/// assert_eq!(font.characters(b"\x12\x34")[0].text, Some(BfString::Char('日')));
/// ```
#[derive(Clone, Debug)]
pub struct Extractor {
    pub(crate) encoding: CMap,
    pub(crate) to_unicode: Option<CMap>,
    pub(crate) collection: Option<CMap>,
    pub(crate) unicode: Option<CMap>,
}

impl Extractor {
    /// `encoding` is the font's CMap, `to_unicode` its ToUnicode CMap, and `collection` a map from the CIDs
    /// of its character collection to Unicode, such as the CMap that
    /// [`CidFamily::ucs2_cmap`](crate::CidFamily::ucs2_cmap) names. A clone of a map copies nothing.
    pub fn new(encoding: CMap, to_unicode: Option<CMap>, collection: Option<CMap>) -> Extractor {
        Extractor { encoding, to_unicode, collection, unicode: None }
    }

    /// The same with the maps of the character collection that the encoding names. [`CMap::open`] reads the
    /// files with the names [`CidFamily::ucs2_name`](crate::CidFamily::ucs2_name) and
    /// [`CidFamily::unicode_name`](crate::CidFamily::unicode_name), if `get_cmap` has them. An encoding whose
    /// own name begins with `Uni` is itself the map from Unicode.
    ///
    /// ```
    /// use hayro_cmap::{CMap, Extractor};
    ///
    /// let encoding = b"/CIDSystemInfo << /Registry (Adobe) /Ordering (Japan1) /Supplement 6 >> def
    ///     begincodespacerange <00> <FF> endcodespacerange begincidrange <20> <7E> 1 endcidrange";
    /// let encoding = CMap::parse(encoding, |_| None).unwrap();
    /// let texts = b"beginbfrange <0001> <005F> <0020> endbfrange";
    /// let font = Extractor::over(encoding, None, |name| match name.to_bytes() {
    ///     b"Adobe-Japan1-UCS2" => Some(texts),
    ///     _ => None,
    /// })?;
    /// assert_eq!(font.text(b"A"), "A");
    /// # Ok::<(), hayro_cmap::Refusal>(())
    /// ```
    pub fn over<'a>(
        encoding: CMap,
        to_unicode: Option<CMap>,
        get_cmap: impl Fn(CMapName<'_>) -> Option<&'a [u8]>,
    ) -> Result<Extractor, Refusal> {
        let family = family_of(&encoding);
        let open = |name: CMapName<'_>| CMap::open(name, &get_cmap);
        Extractor::by_names(encoding, to_unicode, family.as_ref(), open)
    }

    /// The same with the maps of this character collection, whichever the encoding names. Take the collection
    /// from the font's CIDSystemInfo dictionary if the encoding is Identity-H, which names Adobe-Identity, or
    /// an embedded CMap.
    ///
    /// ```
    /// use hayro_cmap::{CMap, CMapName, CidFamily, Extractor};
    ///
    /// let texts: &[u8] = b"beginbfchar <020E> <3042> <034B> <3042> endbfchar";
    /// let unicode: &[u8] =
    ///     b"begincodespacerange <0000> <FFFF> endcodespacerange begincidchar <3042> 843 endcidchar";
    /// let get_cmap = |name: CMapName<'_>| match name.to_bytes() {
    ///     b"Adobe-Japan1-UCS2" => Some(texts),
    ///     b"UniJIS-UTF16-H" => Some(unicode),
    ///     _ => None,
    /// };
    /// let family = CidFamily::AdobeJapan1;
    /// let font = Extractor::over_collection(CMap::identity_h(), None, &family, get_cmap)?;
    /// assert_eq!(font.encoder().encode("あ").unwrap(), 843_u16.to_be_bytes());
    /// # Ok::<(), hayro_cmap::Refusal>(())
    /// ```
    pub fn over_collection<'a>(
        encoding: CMap,
        to_unicode: Option<CMap>,
        family: &CidFamily,
        get_cmap: impl Fn(CMapName<'_>) -> Option<&'a [u8]>,
    ) -> Result<Extractor, Refusal> {
        let open = |name: CMapName<'_>| CMap::open(name, &get_cmap);
        Extractor::by_names(encoding, to_unicode, Some(family), open)
    }

    /// The maps of a font; the maps of its character collection are opened by their names.
    pub(crate) fn by_names<E>(
        encoding: CMap,
        to_unicode: Option<CMap>,
        family: Option<&CidFamily>,
        open: impl Fn(CMapName<'_>) -> Result<Option<CMap>, E>,
    ) -> Result<Extractor, E> {
        let opened = |name: Option<Vec<u8>>| match name {
            Some(name) => open(CMapName::from_bytes(&name)),
            None => Ok(None),
        };
        let collection = opened(family.map(CidFamily::ucs2_name))?;
        let mode = encoding.metadata().writing_mode.unwrap_or_default();
        let unicode = match is_from_unicode(&encoding) {
            true => Some(encoding.clone()),
            false => opened(family.and_then(|family| family.unicode_name(mode)))?,
        };
        Ok(Extractor { encoding, to_unicode, collection, unicode })
    }

    /// The same with this map from Unicode to the CIDs of the character collection, such as UniJIS-UTF16-H. By
    /// this map an [`Encoder`](crate::Encoder) chooses the glyphs of characters.
    pub fn with_unicode(self, unicode: CMap) -> Extractor {
        Extractor { unicode: Some(unicode), ..self }
    }

    /// The maps of a simple font, which has no CMap: its codes are bytes. ISO 32000-1, 9.6.
    ///
    /// ```
    /// use hayro_cmap::{CMap, Extractor};
    ///
    /// let to_unicode = CMap::parse(b"beginbfchar <41> <006600660069> endbfchar", |_| None);
    /// assert_eq!(Extractor::simple(to_unicode).text(b"AB"), "ffi\u{FFFD}");
    /// ```
    pub fn simple(to_unicode: Option<CMap>) -> Extractor {
        let bytes = b"begincodespacerange <00> <FF> endcodespacerange";
        let encoding = CMap::parse(bytes, |_| None).expect("it is a CMap file");
        Extractor::new(encoding, to_unicode, None)
    }

    /// The text of a string: the texts of its codes, one after another, with U+FFFD for each code without a text.
    pub fn text(&self, string: &[u8]) -> String {
        let mut text = String::new();
        for character in self.characters(string) {
            match &character.text {
                Some(more) => text.push_str(more.as_str(&mut [0; 4])),
                None => text.push(char::REPLACEMENT_CHARACTER),
            }
        }
        text
    }

    /// The same text, folded by [`fold`]: in the characters that are usually written.
    ///
    /// ```
    /// use hayro_cmap::{CMap, Extractor};
    ///
    /// let to_unicode = CMap::parse(b"beginbfchar <41> <FB01> <42> <2002> endbfchar", |_| None);
    /// assert_eq!(Extractor::simple(to_unicode).folded_text(b"ABA"), "fi fi");
    /// ```
    pub fn folded_text(&self, string: &[u8]) -> String {
        fold(&self.text(string))
    }
}

/// The family of the character collection of the first layer that names one.
pub(crate) fn family_of(encoding: &CMap) -> Option<CidFamily> {
    let mut layers = encoding.layers().into_iter();
    layers.find_map(|layer| Some(layer.metadata.character_collection?.family))
}

/// Whether the name of a map begins with `Uni`: it is then a map from Unicode.
fn is_from_unicode(encoding: &CMap) -> bool {
    let name = encoding.metadata().name.as_ref();
    name.is_some_and(|name| name.starts_with(b"Uni"))
}

/// A code of a string of a font.
#[derive(Clone, Debug, PartialEq, Eq)]
#[non_exhaustive]
pub struct Character {
    /// The code. Its CID is the one that the font's CMap declares, never the Unicode number that
    /// [`CMap::lookup_cid_code`] gives for a code that has nothing else.
    pub code: StringCode,
    /// Its text.
    pub text: Option<BfString>,
}
