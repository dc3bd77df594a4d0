//! Names of CMaps.

/// Writes the enum of the known names, in the order of their texts, and its conversions.
macro_rules! known_names {
    ($($variant:ident = $text:literal,)*) => {
        /// The name of a CMap: a predefined one of ISO 32000-1, 9.7.5.2, one of the files from CIDs to
        /// Unicode of Adobe Technical Note 5411, or any other name.
        ///
        /// Names are equal by their variant, and `Custom` names by their bytes. A `Custom` with a known
        /// text isn't equal to the known name; [`CMapName::from_bytes`] never makes one.
        #[derive(Clone, Copy, Debug, PartialEq, Eq)]
        pub enum CMapName<'a> {
            $(
                #[doc = concat!("`", $text, "`")]
                $variant,
            )*
            /// Any other name, by its bytes.
            Custom(&'a [u8]),
        }

        /// The known names, each with its text, in the order of the texts.
        const KNOWN_NAMES: &[(CMapName<'static>, &str)] = &[$((CMapName::$variant, $text),)*];

        impl<'a> CMapName<'a> {
            /// The text of the name, without the slash before it in a file.
            pub fn to_bytes(&self) -> &[u8] {
                match self {
                    $(CMapName::$variant => $text.as_bytes(),)*
                    CMapName::Custom(bytes) => bytes,
                }
            }
        }
    };
}

known_names! {
    N83pvRksjH = "83pv-RKSJ-H",
    N90msRksjH = "90ms-RKSJ-H",
    N90msRksjV = "90ms-RKSJ-V",
    N90mspRksjH = "90msp-RKSJ-H",
    N90mspRksjV = "90msp-RKSJ-V",
    N90pvRksjH = "90pv-RKSJ-H",
    AddRksjH = "Add-RKSJ-H",
    AddRksjV = "Add-RKSJ-V",
    AdobeCns1Ucs2 = "Adobe-CNS1-UCS2",
    AdobeGb1Ucs2 = "Adobe-GB1-UCS2",
    AdobeJapan1Ucs2 = "Adobe-Japan1-UCS2",
    AdobeKorea1Ucs2 = "Adobe-Korea1-UCS2",
    B5pcH = "B5pc-H",
    B5pcV = "B5pc-V",
    CnsEucH = "CNS-EUC-H",
    CnsEucV = "CNS-EUC-V",
    ETenB5H = "ETen-B5-H",
    ETenB5V = "ETen-B5-V",
    ETenmsB5H = "ETenms-B5-H",
    ETenmsB5V = "ETenms-B5-V",
    EucH = "EUC-H",
    EucV = "EUC-V",
    ExtRksjH = "Ext-RKSJ-H",
    ExtRksjV = "Ext-RKSJ-V",
    GbEucH = "GB-EUC-H",
    GbEucV = "GB-EUC-V",
    GbkEucH = "GBK-EUC-H",
    GbkEucV = "GBK-EUC-V",
    Gbk2kH = "GBK2K-H",
    Gbk2kV = "GBK2K-V",
    GbkpEucH = "GBKp-EUC-H",
    GbkpEucV = "GBKp-EUC-V",
    GbpcEucH = "GBpc-EUC-H",
    GbpcEucV = "GBpc-EUC-V",
    H = "H",
    HKscsB5H = "HKscs-B5-H",
    HKscsB5V = "HKscs-B5-V",
    IdentityH = "Identity-H",
    IdentityV = "Identity-V",
    KscEucH = "KSC-EUC-H",
    KscEucV = "KSC-EUC-V",
    KscmsUhcH = "KSCms-UHC-H",
    KscmsUhcHwH = "KSCms-UHC-HW-H",
    KscmsUhcHwV = "KSCms-UHC-HW-V",
    KscmsUhcV = "KSCms-UHC-V",
    KscpcEucH = "KSCpc-EUC-H",
    UniCnsUcs2H = "UniCNS-UCS2-H",
    UniCnsUcs2V = "UniCNS-UCS2-V",
    UniCnsUtf16H = "UniCNS-UTF16-H",
    UniCnsUtf16V = "UniCNS-UTF16-V",
    UniGbUcs2H = "UniGB-UCS2-H",
    UniGbUcs2V = "UniGB-UCS2-V",
    UniGbUtf16H = "UniGB-UTF16-H",
    UniGbUtf16V = "UniGB-UTF16-V",
    UniJisUcs2H = "UniJIS-UCS2-H",
    UniJisUcs2HwH = "UniJIS-UCS2-HW-H",
    UniJisUcs2HwV = "UniJIS-UCS2-HW-V",
    UniJisUcs2V = "UniJIS-UCS2-V",
    UniJisUtf16H = "UniJIS-UTF16-H",
    UniJisUtf16V = "UniJIS-UTF16-V",
    UniKsUcs2H = "UniKS-UCS2-H",
    UniKsUcs2V = "UniKS-UCS2-V",
    UniKsUtf16H = "UniKS-UTF16-H",
    UniKsUtf16V = "UniKS-UTF16-V",
    V = "V",
}

/// The number of the known names.
pub(crate) const KNOWN_COUNT: usize = KNOWN_NAMES.len();

impl<'a> CMapName<'a> {
    /// The name with this text; `Custom` if no other variant has the text.
    pub fn from_bytes(bytes: &'a [u8]) -> CMapName<'a> {
        match index_of(bytes) {
            Some(index) => KNOWN_NAMES[index].0,
            None => CMapName::Custom(bytes),
        }
    }

    /// The index among the known names, in the order of their texts; `None` for a `Custom` name.
    pub(crate) fn index(&self) -> Option<usize> {
        match self {
            CMapName::Custom(_) => None,
            known => index_of(known.to_bytes()),
        }
    }
}

fn index_of(text: &[u8]) -> Option<usize> {
    KNOWN_NAMES.binary_search_by_key(&text, |(_, known)| known.as_bytes()).ok()
}

#[cfg(test)]
mod tests {
    use super::*;

    #[test]
    fn known_names_are_in_the_order_of_their_texts() {
        assert_eq!(KNOWN_COUNT, 65);
        assert!(KNOWN_NAMES.is_sorted_by(|(_, before), (_, after)| before < after));
    }

    #[test]
    fn each_known_name_is_that_of_its_text() {
        for (index, (name, text)) in KNOWN_NAMES.iter().enumerate() {
            assert_eq!(CMapName::from_bytes(text.as_bytes()), *name);
            assert_eq!(name.to_bytes(), text.as_bytes());
            assert_eq!(name.index(), Some(index));
        }
    }
}
