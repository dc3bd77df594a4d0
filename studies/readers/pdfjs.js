// Prints the texts that pdf.js gives for the codes that a PDF file shows: for each page a line, the texts and the codes in order as JSON.
//
//     node pdfjs.js FILE.pdf

const fs = require("fs");
const pdfjs = require("/usr/share/javascript/pdf/build/pdf.js");

const CMAPS = "/usr/share/javascript/pdf/web/cmaps/";

async function textsOf(page) {
    const { fnArray, argsArray } = await page.getOperatorList();
    const shown = argsArray.filter((_, at) => fnArray[at] === pdfjs.OPS.showText);
    return shown.flatMap(([glyphs]) => glyphs.map((glyph) => [glyph.unicode, glyph.originalCharCode]));
}

async function print(path) {
    const data = new Uint8Array(fs.readFileSync(path));
    const file = await pdfjs.getDocument({ data, cMapUrl: CMAPS, cMapPacked: true, verbosity: 0 }).promise;
    for (let number = 1; number <= file.numPages; number++) {
        console.log(JSON.stringify(await textsOf(await file.getPage(number))));
    }
}

print(process.argv[2]);
