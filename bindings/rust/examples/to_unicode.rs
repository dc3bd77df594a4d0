//! Writes a PDF file of one page, with a ToUnicode CMap by which its text can be read.
//!
//!     to_unicode OUT TEXT..
//!
//! Each TEXT is what one glyph stands for: `to_unicode out.pdf o ffi c e` shows four, one of them a
//! ligature, and `pdftotext out.pdf -` then prints `office`. The codes of the font are 1, 2 and so on. The
//! file has no font program, so that viewers draw the glyphs of another font.

use hayro_cmap::{CMapBuilder, WriteError};
use std::error::Error;
use std::{env, fs, process};

/// The ToUnicode CMap of a font whose codes 1, 2 and so on have these texts.
fn to_unicode(texts: &[&str]) -> Result<Vec<u8>, WriteError> {
    let mut file = CMapBuilder::new()
        .name("Adobe-Identity-UCS")
        .collection("Adobe", "UCS", 0)
        .codespace([0x00, 0x00]..=[0xFF, 0xFF]);
    for (code, text) in (1_u16..).zip(texts) {
        file = file.text(code.to_be_bytes(), *text);
    }
    file.build()
}

/// An object that is a stream of these bytes.
fn stream(data: &[u8]) -> Vec<u8> {
    let head = format!("<< /Length {} >>\nstream\n", data.len());
    [head.as_bytes(), data, b"\nendstream"].concat()
}

/// The objects of the file. The page shows the codes, to which the ToUnicode CMap gives their texts.
fn objects_of(codes: &[usize], to_unicode: &[u8]) -> [Vec<u8>; 8] {
    let string: String = codes.iter().map(|code| format!("{code:04X}")).collect();
    let object = |text: &str| text.as_bytes().to_vec();
    [
        object("<< /Type /Catalog /Pages 2 0 R >>"),
        object("<< /Type /Pages /Kids [3 0 R] /Count 1 >>"),
        object(
            "<< /Type /Page /Parent 2 0 R /MediaBox [0 0 595 842] /Contents 4 0 R \
             /Resources << /Font << /F 5 0 R >> >> >>",
        ),
        stream(format!("BT /F 24 Tf 72 720 Td <{string}> Tj ET").as_bytes()),
        object(
            "<< /Type /Font /Subtype /Type0 /BaseFont /Subset /Encoding /Identity-H \
             /DescendantFonts [6 0 R] /ToUnicode 8 0 R >>",
        ),
        object(
            "<< /Type /Font /Subtype /CIDFontType2 /BaseFont /Subset /FontDescriptor 7 0 R /DW 500 \
             /CIDSystemInfo << /Registry (Adobe) /Ordering (Identity) /Supplement 0 >> >>",
        ),
        object(
            "<< /Type /FontDescriptor /FontName /Subset /Flags 4 /FontBBox [0 0 1000 1000] \
             /ItalicAngle 0 /Ascent 800 /Descent -200 /CapHeight 800 /StemV 80 >>",
        ),
        stream(to_unicode),
    ]
}

/// A PDF file of these objects, numbered from 1 on. ISO 32000-1, 7.5.
fn pdf_of(objects: &[Vec<u8>]) -> Vec<u8> {
    let mut made = b"%PDF-1.7\n".to_vec();
    let mut table = String::from("0000000000 65535 f \n");
    for (number, data) in (1..).zip(objects) {
        table += &format!("{:010} 00000 n \n", made.len());
        made.extend([format!("{number} 0 obj\n").as_bytes(), data, b"\nendobj\n"].concat());
    }
    let (size, place) = (objects.len() + 1, made.len());
    let trailer = format!("trailer\n<< /Size {size} /Root 1 0 R >>\nstartxref\n{place}\n%%EOF\n");
    made.extend(format!("xref\n0 {size}\n{table}{trailer}").as_bytes());
    made
}

/// The PDF file of glyphs that stand for these texts.
pub fn pdf_of_texts(texts: &[&str]) -> Result<Vec<u8>, WriteError> {
    let mut subset: Vec<&str> = Vec::new();
    let mut codes = Vec::new();
    for text in texts {
        let known = subset.iter().position(|other| other == text);
        let index = known.unwrap_or(subset.len());
        if known.is_none() {
            subset.push(text);
        }
        codes.push(index + 1);
    }
    Ok(pdf_of(&objects_of(&codes, &to_unicode(&subset)?)))
}

fn run() -> Result<(), Box<dyn Error>> {
    let words: Vec<String> = env::args().skip(1).collect();
    let [out, texts @ ..] = &words[..] else {
        return Err("usage: to_unicode OUT TEXT..".into());
    };
    let texts: Vec<&str> = texts.iter().map(String::as_str).collect();
    fs::write(out, pdf_of_texts(&texts)?)?;
    Ok(())
}

fn main() {
    if let Err(fault) = run() {
        eprintln!("{fault}");
        process::exit(1);
    }
}
