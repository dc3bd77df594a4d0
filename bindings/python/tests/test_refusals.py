"""Why files are refused."""

import copy
import pickle
import re
import unittest

from hayro_cmap import Bundle, Cause, CMap, NotABundle, ReadAs, Reason, Refused, Segment
from hayro_cmap._faults import Lines

from .files import BINARY, BROKEN, BUNDLE, FIRST, SMALL, needs_resources, predefined, uses


class Refusals(unittest.TestCase):
    def refusal(self, call, *arguments, **named):
        with self.assertRaises(Refused) as found:
            call(*arguments, **named)
        self.assertIsInstance(found.exception, ValueError)
        return found.exception

    def test_malformed(self):
        fault = self.refusal(CMap.parse, BROKEN)
        self.assertEqual((fault.cause, fault.reason, fault.offset), (Cause.MALFORMED, Reason.CID_EXPECTED, 27))
        self.assertEqual((fault.names, fault.segment), ((), None))
        self.assertEqual(str(fault), "byte 27: a CID was expected")
        self.assertEqual((fault.words, fault.line(BROKEN)), ("a CID was expected", 1))

    def test_lines(self):
        """CR, LF and CRLF end lines; those after the offset don't count."""
        data = b"% 1\n% 2\r% 3\r\n% 4\n\n% 6\n" + BROKEN + b"\n\n"
        fault = self.refusal(CMap.parse, data)
        self.assertEqual((fault.words, fault.line(data)), ("a CID was expected", 7))
        fault = self.refusal(CMap.parse, uses(b"A"), {"A": data})
        self.assertEqual((fault.line(data), fault.line(bytearray(data))), (7, 7))
        fault = self.refusal(CMap.parse, uses(b"Nowhere"))
        self.assertEqual((fault.line(data), fault.words), (None, fault.message))
        offsets = range(len(data) + 1)
        ends = [len(re.findall(rb"\r\n?|\n", data[:offset])) for offset in offsets]
        self.assertEqual([Lines(data).line(offset) for offset in offsets], [1 + count for count in ends])

    def test_below(self):
        fault = self.refusal(CMap.parse, uses(b"A"), {"A": uses(b"B"), "B": BROKEN})
        self.assertEqual((fault.cause, fault.reason, fault.offset), (Cause.MALFORMED, Reason.CID_EXPECTED, 27))
        self.assertEqual(fault.names, (b"A", b"B"))
        self.assertEqual(str(fault), "/B: byte 27: a CID was expected")

    def test_no_file(self):
        fault = self.refusal(CMap.parse, uses(b"Nowhere"))
        self.assertEqual((fault.cause, fault.reason, fault.offset), (Cause.NO_FILE, None, None))
        self.assertEqual(fault.names, (b"Nowhere",))
        self.assertTrue(str(fault).startswith("/Nowhere: "), str(fault))

    def test_chain_length(self):
        for files in [{"Loop": uses(b"Loop")}, {b"Loop": uses(b"Loop")}.get]:
            fault = self.refusal(CMap.parse, uses(b"Loop"), files)
            self.assertEqual((fault.cause, fault.names), (Cause.CHAIN_LENGTH, (b"Loop",) * 16))

    def test_salvage(self):
        data = uses(b"AB") + b" begincidchar <41> 5 <42> /X <43> 7 endcidchar"
        files = {b"AB": b"begincidchar\n<> 8\n<44> 9\nendcidchar /C usecmap"}
        for given in [files, files.get]:
            with CMap.salvage(data, given).cmap as cmap:
                self.assertEqual([cmap.cid(code, 1) for code in b"ABCD"], [5, None, 7, 9])
            faults = CMap.salvage(data, given).faults
            self.assertEqual([fault.names for fault in faults], [(), (b"AB",), (b"AB", b"C")])
            self.assertEqual([fault.reason for fault in faults], [Reason.CID_EXPECTED, Reason.CODE_LENGTH, None])
            self.assertEqual([fault.offset for fault in faults], [data.index(b"/X") + 2, 15, None])
            self.assertEqual(str(faults[1]), "/AB: byte 15: a code must have one to four bytes")
        self.assertEqual(CMap.salvage(SMALL).faults, [])

    def test_read_as(self):
        data = (
            b"begincodespacerange <00> <FFFF> <0000> <FF> endcodespacerange "
            b"beginbfchar <41> <> <42> /x endbfchar " + uses(b"A")
        )
        faults = CMap.salvage(data).faults
        self.assertEqual(
            [fault.read_as(data) for fault in faults], [ReadAs.EXTENDED_CODE, None, ReadAs.EMPTY_TEXT, None, None]
        )
        self.assertEqual(faults[2].read_as(bytearray(data)).words, "the empty text")
        self.assertEqual(faults[0].read_as(data).words, "a range whose first code has leading bytes 0")
        self.assertIsNone(faults[0].read_as(b"<00> <FFFF>"))

    def test_salvage_asks_once(self):
        asked = []

        def ask(name):
            asked.append(name)
            return b"begincidchar <> endcidchar /B usecmap" if name == b"A" else None

        faults = CMap.salvage(uses(b"A") + b" begincidchar <> endcidchar " + uses(b"C"), ask).faults
        self.assertEqual(asked, [b"A", b"B", b"C"])
        self.assertEqual([fault.cause for fault in faults if fault.offset is None], [Cause.NO_FILE] * 2)
        data = b" begincidchar <> endcidchar" * 500
        many = CMap.salvage(data).faults
        self.assertEqual([fault.offset for fault in many], [27 * count + 16 for count in range(500)])
        for most in [0, 1, 499, 500, 501]:
            for files in [{}, {}.get]:
                faults = CMap.salvage(data, files, most_faults=most).faults
                self.assertEqual([it.args for it in faults], [it.args for it in many[:most]])
            of_base = CMap.salvage(b"", base=data, most_faults=most).faults
            self.assertEqual([it.offset for it in of_base], [it.offset for it in many[:most]])
        # no file is asked for before the number is checked
        self.assertRaises(ValueError, CMap.salvage, uses(b"A"), self.fail, most_faults=-1)
        self.assertRaises(ValueError, CMap.salvage, uses(b"A"), self.fail, most_faults=2**33)

    def test_a_base_with_a_fault_that_is_not_listed(self):
        base = uses(b"Nowhere") + b" begincidchar <41> 5 endcidchar"
        for most in [None, 0, 1]:
            with CMap.salvage(b"begincidchar <42> 6 endcidchar", base=base, most_faults=most).cmap as cmap:
                self.assertEqual((len(cmap.layers), cmap.cid(0x41, 1), cmap.cid(0x42, 1)), (2, 5, 6))

    def test_a_file_past_the_faults_that_are_asked_for(self):
        """It is found though its fault isn't given."""
        data = b"begincidchar <> endcidchar " + uses(b"A")
        with CMap.salvage(data, {b"A": SMALL}.get, most_faults=0).cmap as cmap:
            self.assertEqual(cmap.cid(0x41, 1), 34)

    def test_a_budget_bounds_what_is_asked_for(self):
        asked = []

        def files(name):
            asked.append(name)
            return uses(b"%d" % (int(name) + 1)) + b" " * 1000

        fault = self.refusal(CMap.parse, uses(b"0"), files, budget=5000)
        self.assertEqual((fault.cause, len(fault.names)), (Cause.PAST_BUDGET, 5))
        self.assertEqual(asked, [b"0", b"1", b"2", b"3", b"4"])

    def test_what_a_budget_left_out_is_asked_for_when_it_is_read(self):
        """All files together pass the budget, and the file that is read first uses one that is missing."""
        data, files = uses(b"A", b"B"), {b"A": uses(b"Nowhere"), b"B": SMALL}
        fault = self.refusal(CMap.parse, data, files.get, budget=len(data) + len(files[b"A"]) + 1)
        self.assertEqual((fault.cause, fault.names), (Cause.NO_FILE, (b"A", b"Nowhere")))

    def test_budget(self):
        files = {"A": uses(b"B"), "B": SMALL}
        for budget, names in [(9, ()), (19, (b"A",)), (20, (b"A", b"B")), (19 + len(SMALL), (b"A", b"B"))]:
            fault = self.refusal(CMap.parse, uses(b"A"), files, budget=budget)
            self.assertEqual((fault.cause, fault.names, fault.offset), (Cause.PAST_BUDGET, names, None))
        CMap.parse(uses(b"A"), files, budget=20 + len(SMALL)).close()
        for bundle in [None, Bundle.open(BUNDLE)]:
            fault = self.refusal(CMap.open, "Identity-H", {}, bundle, budget=100)
            self.assertEqual((fault.cause, fault.names, fault.opened), (Cause.PAST_BUDGET, (), b"Identity-H"))
            self.assertTrue(str(fault).startswith("/Identity-H: "), str(fault))
            self.assertEqual(self.refusal(CMap.open, "None", {}, bundle, budget=100).cause, Cause.NO_FILE)

    def test_binary(self):
        with Bundle.open(BUNDLE) as bundle:
            fault = self.refusal(CMap.parse, BINARY[:17] + BINARY[18:], bundle=bundle)
            self.assertEqual((fault.cause, fault.reason, fault.segment), (Cause.MALFORMED, Reason.HEADER, None))
            self.assertIsNone(fault.line(BINARY))
            # after the writing mode, codespace ranges without their number, and with it
            for ranges, reason in [("0C 00000005", Reason.FIELD), ("0C 00000006 01", Reason.ENTRY)]:
                cut = bytes.fromhex("62636D617001 00000000 0B 00000006 01" + ranges)
                cut = cut[:6] + len(cut).to_bytes(4, "big") + cut[10:]
                fault = self.refusal(CMap.parse, cut, bundle=bundle)
                self.assertEqual((fault.reason, fault.segment, fault.offset), (reason, Segment.CODESPACES, 16))
                self.assertIsNone(fault.line(cut))
                self.assertFalse(fault.words.startswith("byte"), fault.words)
            # notdefs of five bytes
            wide = bytes.fromhex("62636D617001 00000012 0A 00000008 05 0001")
            fault = self.refusal(CMap.parse, wide, bundle=bundle)
            self.assertEqual((fault.reason, fault.offset, fault.line(wide)), (Reason.CODE_LENGTH, 10, None))

    def test_names_of_any_bytes(self):
        fault = self.refusal(CMap.parse, uses(b"\xff\x1bJ\\"))
        self.assertEqual(fault.names, (b"\xff\x1bJ\\",))
        self.assertTrue(str(fault).startswith(r"/\xFF\x1BJ\\: "), str(fault))

    def test_long_names(self):
        names = [bytes([0x41 + index]) * 1000 for index in range(3)]
        files = {names[0]: uses(names[1]), names[1]: uses(names[2])}
        self.assertEqual(self.refusal(CMap.parse, uses(names[0]), files).names, tuple(names))

    def test_open(self):
        fault = self.refusal(CMap.open, "Nowhere")
        self.assertEqual((fault.cause, fault.names), (Cause.NO_FILE, (b"Nowhere",)))
        fault = self.refusal(CMap.open, "Broken", {"Broken": BROKEN})
        self.assertEqual((fault.reason, fault.offset, fault.names), (Reason.CID_EXPECTED, 27, ()))
        self.assertEqual(str(fault), "/Broken: byte 27: a CID was expected")
        fault = self.refusal(CMap.open, "Over", {"Over": uses(b"Broken"), "Broken": BROKEN})
        self.assertEqual((fault.names, str(fault)), ((b"Broken",), "/Broken: byte 27: a CID was expected"))
        fault = self.refusal(CMap.open, "Broken", {"Broken": BROKEN}, budget=10)
        self.assertEqual((fault.cause, fault.names), (Cause.PAST_BUDGET, ()))
        CMap.open("Empty", {"Empty": b""}, budget=0).close()

    def test_uses(self):
        fault = self.refusal(CMap.uses, uses(b"A") + b" )")
        self.assertEqual((fault.cause, fault.reason), (Cause.MALFORMED, Reason.STRAY_DELIMITER))

    def test_bundle(self):
        for data in [b"", b"\0\0\0\1", BUNDLE[:-1]]:
            with self.subTest(data=data):
                self.assertRaises(NotABundle, Bundle.open, data)
        self.assertTrue(issubclass(NotABundle, ValueError))

    def test_pickle(self):
        fault = self.refusal(CMap.parse, uses(b"A"), {"A": BROKEN})
        for same in [pickle.loads(pickle.dumps(fault)), copy.copy(fault)]:
            self.assertEqual((str(same), same.names, same.offset), (str(fault), fault.names, fault.offset))
            self.assertEqual((same.cause, same.reason), (fault.cause, fault.reason))

    @needs_resources
    def test_spoiled(self):
        """A predefined file whose first CID follows an x without a space: the byte after this token is at fault."""
        data = predefined("90ms-RKSJ-H")
        at = re.search(rb"begincidrange\s+<\w+>\s+<\w+>\s+", data).end()
        fault = self.refusal(CMap.parse, data[:at] + b"x" + data[at:])
        self.assertEqual((fault.reason, fault.offset), (Reason.CID_EXPECTED, at + len(b"x231")))


if __name__ == "__main__":
    unittest.main()
