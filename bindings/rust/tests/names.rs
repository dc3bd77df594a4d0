//! The names of the predefined CMaps, by their variants.

use hayro_cmap::CMapName;

/// Each known text with its name.
const KNOWN: &[(&[u8], CMapName<'static>)] = &[
    (b"83pv-RKSJ-H", CMapName::N83pvRksjH),
    (b"90ms-RKSJ-H", CMapName::N90msRksjH),
    (b"90ms-RKSJ-V", CMapName::N90msRksjV),
    (b"90msp-RKSJ-H", CMapName::N90mspRksjH),
    (b"90msp-RKSJ-V", CMapName::N90mspRksjV),
    (b"90pv-RKSJ-H", CMapName::N90pvRksjH),
    (b"Add-RKSJ-H", CMapName::AddRksjH),
    (b"Add-RKSJ-V", CMapName::AddRksjV),
    (b"Adobe-CNS1-UCS2", CMapName::AdobeCns1Ucs2),
    (b"Adobe-GB1-UCS2", CMapName::AdobeGb1Ucs2),
    (b"Adobe-Japan1-UCS2", CMapName::AdobeJapan1Ucs2),
    (b"Adobe-Korea1-UCS2", CMapName::AdobeKorea1Ucs2),
    (b"B5pc-H", CMapName::B5pcH),
    (b"B5pc-V", CMapName::B5pcV),
    (b"CNS-EUC-H", CMapName::CnsEucH),
    (b"CNS-EUC-V", CMapName::CnsEucV),
    (b"ETen-B5-H", CMapName::ETenB5H),
    (b"ETen-B5-V", CMapName::ETenB5V),
    (b"ETenms-B5-H", CMapName::ETenmsB5H),
    (b"ETenms-B5-V", CMapName::ETenmsB5V),
    (b"EUC-H", CMapName::EucH),
    (b"EUC-V", CMapName::EucV),
    (b"Ext-RKSJ-H", CMapName::ExtRksjH),
    (b"Ext-RKSJ-V", CMapName::ExtRksjV),
    (b"GB-EUC-H", CMapName::GbEucH),
    (b"GB-EUC-V", CMapName::GbEucV),
    (b"GBK-EUC-H", CMapName::GbkEucH),
    (b"GBK-EUC-V", CMapName::GbkEucV),
    (b"GBK2K-H", CMapName::Gbk2kH),
    (b"GBK2K-V", CMapName::Gbk2kV),
    (b"GBKp-EUC-H", CMapName::GbkpEucH),
    (b"GBKp-EUC-V", CMapName::GbkpEucV),
    (b"GBpc-EUC-H", CMapName::GbpcEucH),
    (b"GBpc-EUC-V", CMapName::GbpcEucV),
    (b"H", CMapName::H),
    (b"HKscs-B5-H", CMapName::HKscsB5H),
    (b"HKscs-B5-V", CMapName::HKscsB5V),
    (b"Identity-H", CMapName::IdentityH),
    (b"Identity-V", CMapName::IdentityV),
    (b"KSC-EUC-H", CMapName::KscEucH),
    (b"KSC-EUC-V", CMapName::KscEucV),
    (b"KSCms-UHC-H", CMapName::KscmsUhcH),
    (b"KSCms-UHC-HW-H", CMapName::KscmsUhcHwH),
    (b"KSCms-UHC-HW-V", CMapName::KscmsUhcHwV),
    (b"KSCms-UHC-V", CMapName::KscmsUhcV),
    (b"KSCpc-EUC-H", CMapName::KscpcEucH),
    (b"UniCNS-UCS2-H", CMapName::UniCnsUcs2H),
    (b"UniCNS-UCS2-V", CMapName::UniCnsUcs2V),
    (b"UniCNS-UTF16-H", CMapName::UniCnsUtf16H),
    (b"UniCNS-UTF16-V", CMapName::UniCnsUtf16V),
    (b"UniGB-UCS2-H", CMapName::UniGbUcs2H),
    (b"UniGB-UCS2-V", CMapName::UniGbUcs2V),
    (b"UniGB-UTF16-H", CMapName::UniGbUtf16H),
    (b"UniGB-UTF16-V", CMapName::UniGbUtf16V),
    (b"UniJIS-UCS2-H", CMapName::UniJisUcs2H),
    (b"UniJIS-UCS2-HW-H", CMapName::UniJisUcs2HwH),
    (b"UniJIS-UCS2-HW-V", CMapName::UniJisUcs2HwV),
    (b"UniJIS-UCS2-V", CMapName::UniJisUcs2V),
    (b"UniJIS-UTF16-H", CMapName::UniJisUtf16H),
    (b"UniJIS-UTF16-V", CMapName::UniJisUtf16V),
    (b"UniKS-UCS2-H", CMapName::UniKsUcs2H),
    (b"UniKS-UCS2-V", CMapName::UniKsUcs2V),
    (b"UniKS-UTF16-H", CMapName::UniKsUtf16H),
    (b"UniKS-UTF16-V", CMapName::UniKsUtf16V),
    (b"V", CMapName::V),
];

#[test]
fn a_known_text_has_its_name_and_a_name_its_text() {
    assert_eq!(KNOWN.len(), 65);
    for (text, name) in KNOWN {
        assert_eq!(CMapName::from_bytes(text), *name);
        assert_eq!(name.to_bytes(), *text);
    }
}
