"""Which fonts a file has, and what they are."""

import io
import unittest
from unittest import mock

import pikepdf
from pikepdf import Array, Dictionary, Name

from hayro_cmap import pdf
from hayro_cmap.pdf import _fonts, _objects

from made import BAD, GOOD, WIDE, File, needs_resources, showing

#: A CMap for codes of one byte: each is its CID and five.
BASE = b"/CMapName /Base def 1 begincodespacerange <00> <FF> endcodespacerange 1 begincidrange <00> <FF> 5 endcidrange"


class Found(unittest.TestCase):
    def test_each_once(self):
        file = File()
        font = file.simple(GOOD)
        file.show(b"", A=font, B=font)
        file.page.Resources.XObject.X = file.form(b"", C=font)
        self.assertEqual(len(pdf.fonts(file.pdf)), 1)

    def test_where_they_are_found(self):
        file = File()
        names = ["page", "form", "state", "pattern", "mask", "procedure", "note", "field"]
        of = {name: file.simple(GOOD, base_font=name) for name in names}
        type3 = file.made(Dictionary(Type=Name.Font, Subtype=Name.Type3), GOOD)
        type3.Resources = Dictionary(Font=Dictionary(F=of["procedure"]))
        file.show(b"", F=of["page"], T=type3)
        file.page.Resources.XObject.X = file.form(b"", F=of["form"])
        mask = Dictionary(S=Name.Alpha, G=file.form(b"", F=of["mask"]))
        file.page.Resources.ExtGState.G = Dictionary(Font=Array([of["state"], 9]), SMask=mask)
        file.page.Resources.Pattern = Dictionary(P=file.form(b"", F=of["pattern"]))
        note = Dictionary(Type=Name.Annot, AP=Dictionary(N=Dictionary(On=file.form(b"", F=of["note"]))))
        file.page.Annots = Array([note])
        file.pdf.Root.AcroForm = Dictionary(DR=Dictionary(Font=Dictionary(F=of["field"])), Fields=Array([]))
        self.assertEqual({it.base_font for it in pdf.fonts(file.pdf)}, {*names, None})

    def test_forms_in_a_circle(self):
        file = File()
        file.show(b"/X Do")
        form = file.form(b"/X Do")
        form.Resources.XObject = Dictionary(X=form)
        file.page.Resources.XObject.X = form
        self.assertEqual((pdf.fonts(file.pdf), file.shown()), ([], []))

    def test_resources_of_a_node_above(self):
        file = showing(b"A", GOOD)
        file.page.Parent.Resources = file.page.Resources
        del file.page.Resources
        self.assertEqual((len(pdf.fonts(file.pdf)), file.text()), (1, "A"))

    def test_too_many(self):
        file = File()
        file.show(b"", A=file.simple(GOOD), B=file.simple(GOOD))
        with mock.patch.object(_fonts, "MOST_FONTS", 1):
            self.assertRaises(pdf.TooLarge, pdf.fonts, file.pdf)


class Facts(unittest.TestCase):
    def test_composite(self):
        file = File()
        file.show(b"", F=file.composite(Name("/Identity-H"), "Japan1", WIDE))
        it = file.font().as_json()
        self.assertEqual(
            (it["subtype"], it["encoding"], it["collection"]), ("CIDFontType2", "Identity-H", "Adobe-Japan1")
        )
        self.assertEqual(
            (it["font"], it["encoding_kind"], it["type0"]), (file.font().dictionary.objgen[0], "name", True)
        )
        self.assertEqual(it["to_unicode_object"], file.font().dictionary.ToUnicode.objgen[0])

    def test_simple(self):
        font = showing(b"A", GOOD).font()
        self.assertFalse(font.is_composite)
        self.assertEqual((font.encoding.strict, font.collection, font.encoding_kind), (None, None, "none"))
        self.assertRegex(str(font), r"^font \d+ Simple \(TrueType, none, ToUnicode \d+\)$")

    def test_a_name_that_is_an_object(self):
        file = File()
        font = file.simple(GOOD)
        font.Subtype = file.pdf.make_indirect(Name.Type1)
        file.show(b"", F=font)
        self.assertEqual([it.subtype for it in pdf.fonts(file.pdf)], ["Type1"])

    def test_an_encoding_that_is_a_stream(self):
        file = File()
        above = file.stream(b"", CMapName=Name("/Over"), UseCMap=file.stream(BASE))
        file.show(b"", F=file.composite(above, "GB1"))
        it = file.font().as_json()
        self.assertEqual((it["encoding"], it["encoding_kind"]), ("Over", "stream"))
        self.assertEqual(it["use_cmap_object"], above.UseCMap.objgen[0])
        self.assertEqual(file.font().collection, b"Adobe-GB1")

    @needs_resources
    def test_the_collection_is_that_of_a_predefined_cmap(self):
        """Under an identity, whose own is Adobe-Identity, it is that of the CIDFont."""
        for encoding, of_font, collection in [
            ("90ms-RKSJ-H", "Identity", b"Adobe-Japan1"),
            ("Identity-V", "Korea1", b"Adobe-Korea1"),
        ]:
            file = File()
            file.show(b"", F=file.composite(Name(f"/{encoding}"), of_font))
            self.assertEqual(file.font().collection, collection)

    def test_names_that_are_no_utf8(self):
        """Of fonts, of keys of resources, and of operands."""
        file = File()
        file.show(b"/Fzz 9 Tf (A) Tj", Fzz=file.simple(GOOD))
        data = file.bytes(object_stream_mode=pikepdf.ObjectStreamMode.disable, compress_streams=False)
        data = data.replace(b"/BaseFont /Simple", b"/BaseFont /Si\xffple").replace(b"/Fzz", b"/F\xb0\xa1")
        with pikepdf.open(io.BytesIO(data)) as read:
            [font] = pdf.fonts(read)
            self.assertEqual(font.base_font, "Si\ufffdple")
            self.assertEqual([it.text for it in pdf.characters(read.pages[0])], ["A"])
            self.assertEqual(pdf.check(read).summary(), "100.0 % of 1 shown codes have a text")


class Maps(unittest.TestCase):
    def test_over_another_stream(self):
        """Whatever name the text uses, and also where it uses none."""
        char = b"1 begincidchar <01> 900 endcidchar"
        for text in [b"/Base usecmap " + char, b"/Another usecmap " + char, char]:
            file = File()
            file.show(b"/F 9 Tf <0100> Tj", F=file.composite(file.stream(text, UseCMap=file.stream(BASE))))
            self.assertEqual([it.code.cid for it in file.characters()], [900, 5])

    def test_over_streams_of_one_name(self):
        file = File()
        middle = file.stream(b"/Base usecmap 1 begincidchar <02> 800 endcidchar", UseCMap=file.stream(BASE))
        above = file.stream(b"/Base usecmap 1 begincidchar <01> 900 endcidchar", UseCMap=middle)
        file.show(b"/F 9 Tf <000102> Tj", F=file.composite(above))
        self.assertEqual([it.code.cid for it in file.characters()], [5, 900, 800])

    @needs_resources
    def test_over_a_predefined_cmap(self):
        file = File()
        above = file.stream(b"1 begincidchar <8140> 900 endcidchar", UseCMap=Name("/90ms-RKSJ-H"))
        file.show(b"/F 9 Tf <93FA8140> Tj", F=file.composite(above, "Japan1"))
        self.assertEqual([it.code.cid for it in file.characters()], [3284, 900])

    def test_faults_have_their_objects_and_places(self):
        data = b"\n1 begincidrange <00> <FF> x endcidrange"
        file = File()
        below = file.stream(b"1 begincidchar <> 1 endcidchar")
        file.show(b"", F=file.composite(file.stream(data, UseCMap=below), to_unicode=BAD))
        own, of_base, of_texts = file.font().faults
        self.assertEqual(
            (own.of, own.number, own.offset, own.line),
            ("Encoding", file.page.Resources.Font.F.Encoding.objgen[0], 28, 2),
        )
        self.assertEqual((of_base.number, of_base.offset, of_base.line), (below.objgen[0], 17, 1))
        self.assertEqual((of_texts.of, of_texts.offset), ("ToUnicode", BAD.index(b"/x") + 2))
        self.assertEqual(str(own), f"Encoding {own.number}: byte 28 (line 2): a CID was expected")

    def test_a_base_that_is_missing(self):
        file = File()
        file.show(b"", F=file.composite(file.stream(b"", UseCMap=Name("/Nowhere"))))
        [fault] = file.font().faults
        self.assertEqual((fault.offset, fault.names), (None, (b"Nowhere",)))

    def test_streams_in_a_circle(self):
        file = File()
        one, other = file.stream(BASE), file.stream(b"1 begincidchar <01> 900 endcidchar")
        one.UseCMap, other.UseCMap = other, one
        file.show(b"", F=file.composite(other))
        self.assertEqual(file.font().encoding.lenient.cid(1, 1), 900)

    def test_malformed(self):
        file = File()
        broken = Dictionary(Type=Name.Font, Subtype=Name.Type0, Encoding=12, ToUnicode=12)
        file.show(b"/F 9 Tf (abcd) Tj /G 9 Tf (x) Tj", F=broken, G=Array([]))
        self.assertEqual([fault.of for fault in file.font().faults], ["Encoding", "ToUnicode"])
        report = pdf.check(file.pdf)
        self.assertEqual((report.shown, report.with_text, report.without_font), (2, 0, 1))

    def test_a_to_unicode_that_is_a_name(self):
        file = File()
        file.show(b"/F 9 Tf <0041> Tj", F=file.composite(Name("/Identity-H"), to_unicode=Name("/Identity-H")))
        self.assertEqual((file.font().faults, file.text()), ([], "?"))


class Limits(unittest.TestCase):
    def test_a_stream_that_grows(self):
        """Four megabytes of blanks in some kilobytes."""
        file = File()
        blanks = b" " * (4 << 20)
        file.show(b"/F 9 Tf (A) Tj", F=file.simple(GOOD + blanks))
        with pikepdf.open(io.BytesIO(file.bytes())) as read:
            self.assertEqual(pdf.check(read).with_text, 1)
            with mock.patch.object(_objects.Streams.__init__, "__defaults__", (1 << 20, 1 << 31)):
                report = pdf.check(read)
            [fault] = report.fonts[0].font.faults
            self.assertIn("more than 1,048,576 bytes", fault.reason)

    def test_all_streams_together(self):
        streams = _objects.Streams(100, 150)
        stream = pikepdf.Stream(pikepdf.new(), b" " * 100)
        self.assertEqual(len(streams.decoded(stream)), 100)
        self.assertRaises(pdf.TooLarge, streams.decoded, stream)

    def test_filters_that_pikepdf_decodes(self):
        file = pikepdf.new()
        stream = pikepdf.Stream(file, b"3C3E>" * 20)
        stream.Filter = Name.ASCIIHexDecode
        self.assertEqual(_objects.Streams().decoded(stream)[:2], b"<>")
        self.assertRaises(pdf.TooLarge, _objects.Streams(1000, 1 << 20).decoded, stream)
        stream.write(b"no data", filter=Name.FlateDecode)
        self.assertRaises(pdf.Undecodable, _objects.Streams().decoded, stream)


if __name__ == "__main__":
    unittest.main()
