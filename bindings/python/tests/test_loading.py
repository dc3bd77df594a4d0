"""Loaders, and files that are awaited."""

import asyncio
import copy
import ctypes
import gc
import pickle
import unittest
import unittest.mock

from hayro_cmap import Bundle, Cause, CMap, Loader, Reason, Refused, SalvageLoader, WritingMode
from hayro_cmap._library import NO_BUDGET, Fault, File, Handle
from hayro_cmap._owned import library

from .files import BINARY, BUNDLE, FIRST, SMALL, bundle_of, uses

#: Ten files. Each but the last one uses the next one seven times: the last one is used 7 ** 9 times by the first one.
NAMES = [b"%d" % number for number in range(1, 11)]
CHAIN = {name: uses(*[used] * 7) for name, used in zip(NAMES, NAMES[1:])}
CHAIN[NAMES[-1]] = b"1 begincidchar <41> 7 endcidchar"

#: A file whose third token is at fault, and one that uses it.
FAULTY = {b"Faulty": b"begincidchar <41> x endcidchar", b"Over": uses(b"Faulty")}


def asked_by(load, files):
    """What a call gives over files, and the names that it asked for."""
    asked = []

    def file_of(name):
        asked.append(name)
        return files.get(name)

    try:
        return load(file_of), asked
    except Refused as refused:
        return refused, asked


def parsed(data, files, **options):
    """By CMap.parse."""
    return asked_by(lambda file_of: CMap.parse(data, file_of, **options), files)


def awaited(data, files, call=CMap.load, **options):
    """By CMap.load."""

    def load(file_of):
        async def later(name):
            await asyncio.sleep(0)
            return file_of(name)

        return asyncio.run(call(data, later, **options))

    return asked_by(load, files)


def supplied(data, files, kind=Loader, **options):
    """By a Loader."""

    def load(file_of):
        loader = kind(data, **options)
        while loader.wanted is not None:
            loader.supply(file_of(loader.wanted))
        return loader.finish()

    return asked_by(load, files)


def opened(data, files, **options):
    """By CMap.open, without the first name."""
    found, asked = asked_by(lambda file_of: CMap.open("Top", file_of, **options), {b"Top": data, **files})
    return found, asked[1:]


def faults_of_list(data, files, budget=NO_BUDGET):
    """The cause, the offset and the names of each fault, by hayro_cmap_salvage over a list of files."""
    table = (File * (len(files) + 1))(*((name, len(name), file, len(file)) for name, file in files.items()))
    faults, room = (Fault * 16)(), ctypes.create_string_buffer(1024)
    found, needed, handle, size = ctypes.c_size_t(), ctypes.c_size_t(), Handle(), ctypes.c_size_t
    status = library["hayro_cmap_salvage"](
        *(ctypes.byref(handle), data, size(len(data)), ctypes.byref(Handle()), table, size(len(files))),
        *(ctypes.c_uint64(budget), faults, size(len(faults)), ctypes.byref(found)),
        *(room, size(len(room)), ctypes.byref(needed)),
    )
    library.hayro_cmap_free(handle)
    assert status == 0 and found.value <= len(faults) and needed.value <= len(room)
    told, start = [], 0
    for fault in faults[: found.value]:
        names = []
        for length in fault.name_lens[: fault.names]:
            names.append(room.raw[start : start + length])
            start += length
        told.append((fault.cause, fault.offset, tuple(names)))
    return told


class Order(unittest.TestCase):
    def loaded(self, data, files, **options):
        """What each way of reading gives, and the names that were asked for, which are the same."""
        found, asked = zip(*(way(data, files, **options) for way in [parsed, awaited, supplied, opened]))
        self.assertEqual(asked, (asked[0],) * len(asked))
        return found, asked[0]

    def test_a_chain(self):
        found, asked = self.loaded(uses(*[NAMES[0]] * 7), CHAIN)
        self.assertEqual(asked, NAMES)
        for cmap in [*found, CMap.parse(uses(*[NAMES[0]] * 7), CHAIN)]:
            self.assertEqual((cmap.cid(0x41, 1), len(cmap.layers)), (7, 11))
            cmap.close()

    def test_used_files_come_before_later_ones(self):
        files = {b"A": uses(b"C", b"D"), b"B": uses(b"C"), b"C": SMALL, b"D": b""}
        found, asked = self.loaded(uses(b"A", b"B", b"A"), files)
        self.assertEqual(asked, [b"A", b"C", b"D", b"B"])
        self.assertEqual([cmap.cid(0x41, 1) for cmap in found], [None] * 4)

    def test_nothing_after_a_malformed_file(self):
        found, asked = self.loaded(uses(b"Over", b"1"), {**CHAIN, **FAULTY})
        self.assertEqual(asked, [b"Over", b"Faulty"])
        for fault in found:
            self.assertEqual((fault.cause, fault.reason), (Cause.MALFORMED, Reason.CID_EXPECTED))
            self.assertEqual((fault.names, fault.offset), ((b"Over", b"Faulty"), 19))

    def test_nothing_for_a_malformed_file(self):
        found, asked = self.loaded(uses(b"1") + b" )", CHAIN)
        self.assertEqual(asked, [])
        self.assertEqual([fault.reason for fault in found], [Reason.STRAY_DELIMITER] * 4)

    def test_nothing_after_a_missing_file(self):
        found, asked = self.loaded(uses(b"10", b"Nowhere", b"1"), CHAIN)
        self.assertEqual(asked, [b"10", b"Nowhere"])
        self.assertEqual([(fault.cause, fault.names) for fault in found], [(Cause.NO_FILE, (b"Nowhere",))] * 4)

    def test_nothing_after_a_budget(self):
        """A file counts at each use, and one that would exceed the budget is asked for, but not read."""
        data = uses(b"10", b"10", b"A", b"B")
        least = len(data) + 2 * len(CHAIN[b"10"])
        files = {**CHAIN, b"A": b"% A", b"B": b""}
        for budget, names, cause in [(least - 1, [b"10"], b"10"), (least + 2, [b"10", b"A"], b"A")]:
            found, asked = self.loaded(data, files, budget=budget)
            self.assertEqual(asked, names)
            self.assertEqual([(fault.cause, fault.names) for fault in found], [(Cause.PAST_BUDGET, (cause,))] * 4)
        found, _ = self.loaded(data, files, budget=least + 3)
        self.assertEqual([len(cmap.layers) for cmap in found], [2] * 4)

    def test_identities(self):
        """Their files are asked for, and not needed. They count 177 bytes."""
        for name, mode in [(b"Identity-H", WritingMode.HORIZONTAL), (b"Identity-V", WritingMode.VERTICAL)]:
            data = uses(name)
            found, asked = self.loaded(data, {}, budget=len(data) + 177)
            self.assertEqual(asked, [name])
            for cmap in found:
                self.assertEqual((cmap.cid(0x3042, 2), cmap.effective_writing_mode), (0x3042, mode))
                self.assertEqual(cmap.layers[1].metadata, CMap.identity(mode == WritingMode.VERTICAL).metadata)
            found, _ = self.loaded(data, {}, budget=len(data) + 176)
            self.assertEqual([fault.cause for fault in found], [Cause.PAST_BUDGET] * 4)
            found, _ = self.loaded(data, {name: SMALL})
            self.assertEqual([(cmap.cid(0x41, 1), cmap.cid(0x3042, 2)) for cmap in found], [(34, None)] * 4)

    def test_a_bundle(self):
        with Bundle.open(bundle_of(uses(b"A"))) as bundle:
            found, asked = self.loaded(uses(FIRST), {b"A": SMALL}, bundle=bundle)
            self.assertEqual(asked, [FIRST, b"A"])
            self.assertEqual([cmap.cid(0x41, 1) for cmap in found], [34] * 4)
        with Bundle.open(BUNDLE) as bundle:
            found, _ = self.loaded(BINARY, {}, bundle=bundle)
            self.assertEqual([cmap.cid(0x20, 2) for cmap in found], [5] * 4)
            found, _ = self.loaded(uses(FIRST), {FIRST: SMALL}, bundle=bundle)
            self.assertEqual([(cmap.cid(0x41, 1), cmap.cid(0x20, 2)) for cmap in found], [(34, None)] * 4)


class PastFaults(unittest.TestCase):
    def salvaged(self, data, files, budget=None):
        """What CMap.salvage, CMap.load_past_faults and a SalvageLoader give, and the names that they ask for, which are
        the same. The faults are those over a list of files."""
        ways = [
            asked_by(lambda file_of: CMap.salvage(data, file_of, budget=budget), files),
            awaited(data, files, CMap.load_past_faults, budget=budget),
            supplied(data, files, SalvageLoader, budget=budget),
        ]
        expected = faults_of_list(data, files, NO_BUDGET if budget is None else budget)
        for (_, faults), asked in ways:
            self.assertEqual(asked, ways[0][1])
            self.assertEqual([(it.cause, it.offset or 0, it.names) for it in faults], expected)
        by_mapping = CMap.salvage(data, files, budget=budget).faults
        self.assertEqual([it.args for it in by_mapping], [it.args for it in faults])
        return [cmap for (cmap, _), _ in ways], faults, asked

    def test_a_chain(self):
        """Each file is asked for once, though the last one is used 7 ** 10 times."""
        maps, faults, asked = self.salvaged(uses(*[NAMES[0]] * 7) + b" ) " + uses(NAMES[4]), CHAIN)
        self.assertEqual((asked, len(faults)), (NAMES, 1))
        self.assertEqual([cmap.cid(0x41, 1) for cmap in maps], [7] * 3)

    def test_names_after_faults(self):
        """A file comes before those that it uses, and these before later ones."""
        data = b") " + uses(b"Over", b"Nowhere", b"Faulty", b"Over", b"Nowhere", b"9")
        maps, faults, asked = self.salvaged(data, {**CHAIN, **FAULTY})
        self.assertEqual(asked, [b"Over", b"Faulty", b"Nowhere", b"9", b"10"])
        self.assertEqual([it.names for it in faults], [(), (b"Over", b"Faulty"), (b"Nowhere",)])
        self.assertEqual([cmap.cid(0x41, 1) for cmap in maps], [7] * 3)

    def test_nothing_after_a_chain_that_is_too_long(self):
        maps, faults, asked = self.salvaged(uses(b"Loop", b"1"), {**CHAIN, b"Loop": uses(b"Loop")})
        self.assertEqual((asked, [it.cause for it in faults]), ([b"Loop"], [Cause.CHAIN_LENGTH]))
        self.assertEqual([len(cmap.layers) for cmap in maps], [16] * 3)

    def test_a_budget(self):
        """A file that would exceed it is asked for, and not read."""
        data = uses(b"1", b"10", b"10")
        maps, faults, asked = self.salvaged(data, CHAIN, budget=len(data) + len(CHAIN[b"10"]))
        self.assertEqual((asked, [it.cause for it in faults]), ([b"1", b"10"], [Cause.PAST_BUDGET] * 2))
        _, faults, asked = self.salvaged(data, CHAIN, budget=len(data) - 1)
        self.assertEqual((asked, [it.names for it in faults]), ([], [()]))

    def test_identities_and_a_bundle(self):
        data = b") " + uses(b"Identity-V")
        with SalvageLoader(data) as loader:
            self.assertEqual(loader.wanted, b"Identity-V")
            cmap, faults = loader.finish()
            self.assertEqual((cmap.cid(0x3042, 2), len(faults)), (0x3042, 1))
            self.assertRaisesRegex(ValueError, "^the loader is closed$", loader.finish)
        with Bundle.open(BUNDLE) as bundle:
            self.assertEqual(SalvageLoader(b") " + uses(FIRST), bundle).finish().cmap.cid(0x20, 2), 5)

    def test_the_first_faults(self):
        """A number of faults, and names that are longer than the first buffers."""
        names = [b"%d" % number * 100 for number in range(100, 130)]
        for most in [0, 1, 29, 30, None]:
            with SalvageLoader(uses(*names)) as loader:
                faults = loader.finish(most).faults
            self.assertEqual([it.names for it in faults], [(name,) for name in names[:most]])
        with SalvageLoader(b"") as loader:
            self.assertRaises(ValueError, loader.finish, -1)

    def test_without_memory(self):
        """A loader that can't tell what it wants, or what is at fault, is asked again."""
        with SalvageLoader(uses(b"A")) as loader:
            with unittest.mock.patch.object(library, "hayro_cmap_wanted", return_value=2):
                self.assertRaises(MemoryError, lambda: loader.wanted)
            loader.supply(SMALL + b" )")
            with unittest.mock.patch.object(library, "hayro_cmap_found_faults", return_value=2):
                self.assertRaises(MemoryError, loader.finish)
            self.assertEqual([it.names for it in loader.finish().faults], [(b"A",)])

    def test_the_number_of_faults(self):
        data, files = b" begincidchar <> endcidchar" * 3, {}
        for most, count in [(None, 3), (4, 3), (3, 3), (2, 2), (0, 0)]:
            (_, faults), _ = awaited(data, files, CMap.load_past_faults, most_faults=most)
            self.assertEqual(len(faults), count)

    def test_the_class(self):
        class Own(CMap):
            pass

        async def files(name):
            return SMALL

        self.assertEqual(type(asyncio.run(Own.load_past_faults(uses(b"A"), files)).cmap), Own)
        self.assertEqual(type(Own.salvage(uses(b"A")).cmap), Own)


class Loaders(unittest.TestCase):
    def test_one_file_after_another(self):
        with Loader(bytearray(uses(b"A", b"B"))) as loader:
            self.assertEqual([loader.wanted, loader.wanted], [b"A", b"A"])
            loader.supply(bytearray(SMALL))
            self.assertEqual(loader.wanted, b"B")
            loader.supply(memoryview(b""))
            self.assertIsNone(loader.wanted)
            loader.supply(b"not wanted (")
            with loader.finish() as cmap:
                self.assertEqual((len(cmap.layers), type(cmap)), (2, CMap))
            for use in [lambda: loader.wanted, lambda: loader.supply(None), loader.finish, loader.__enter__]:
                self.assertRaisesRegex(ValueError, "^the loader is closed$", use)

    def test_files_that_are_still_wanted(self):
        """They are files of the bundle, or missing."""
        with Bundle.open(BUNDLE) as bundle, Loader(uses(FIRST), bundle).finish() as cmap:
            self.assertEqual(cmap.cid(0x20, 2), 5)
        with Loader(uses(b"x" * 1000)) as loader:
            for _ in range(2):
                with self.assertRaises(Refused) as found:
                    loader.finish()
                self.assertEqual((found.exception.cause, found.exception.names), (Cause.NO_FILE, (b"x" * 1000,)))
            self.assertIsNone(loader.wanted)

    def test_what_it_takes(self):
        self.assertRaises(TypeError, Loader, "a text")
        self.assertRaises(TypeError, Loader, b"", b"no bundle")
        self.assertRaises(ValueError, Loader, b"", None, -1)
        with Loader(uses(b"A")) as loader:
            self.assertRaises(TypeError, loader.supply, "a text")
            self.assertEqual(loader.wanted, b"A")

    def test_a_bundle_that_is_closed_meanwhile(self):
        with Bundle.open(BUNDLE) as bundle:
            loader = Loader(uses(FIRST), bundle)
        self.assertRaisesRegex(ValueError, "^the bundle is closed$", loader.supply, None)
        loader.close()

    def test_no_copies(self):
        with Loader(b"") as loader:
            for call in [copy.copy, copy.deepcopy, pickle.dumps]:
                self.assertRaises(TypeError, call, loader)
        self.assertFalse(hasattr(loader, "share"))

    def test_each_loader_is_freed(self):
        """Also after an exception, and without an end."""
        were_full, free = [], Loader._free

        def freed(handle):
            were_full.append(handle.full)
            free(handle)

        async def files(name):
            raise KeyError(name)

        with unittest.mock.patch.object(Loader, "_free", staticmethod(freed)):
            self.assertRaises(KeyError, CMap.parse, uses(b"A"), {}.__getitem__)
            self.assertRaises(KeyError, asyncio.run, CMap.load(uses(b"A"), files))
            Loader(uses(b"A"))
            gc.collect()
            self.assertEqual(were_full, [True] * 3)
            CMap.parse(SMALL).close()
            self.assertEqual(were_full, [True] * 3 + [False])

    def test_without_memory(self):
        """A file that wasn't read for lack of memory is still wanted."""
        with Loader(uses(b"A")) as loader:
            with unittest.mock.patch.object(library, "hayro_cmap_supply", return_value=2):
                self.assertRaises(MemoryError, loader.supply, SMALL)
            self.assertEqual(loader.wanted, b"A")
            loader.supply(SMALL)
            with unittest.mock.patch.object(library, "hayro_cmap_finish", return_value=2):
                self.assertRaises(MemoryError, loader.finish)
            self.assertRaisesRegex(ValueError, "^the loader is closed$", loader.finish)


class Awaited(unittest.TestCase):
    def test_maps_at_the_same_time(self):
        """Each waits for its own files."""

        async def one(number):
            asked = []

            async def files(name):
                asked.append(name)
                await asyncio.sleep(0.001 * (number % 3))
                return CHAIN[name] if name != b"10" else b"begincidchar <41> %d endcidchar" % number

            with await CMap.load(uses(b"1"), files) as cmap:
                return cmap.cid(0x41, 1), asked

        async def all_of_them():
            return await asyncio.gather(*map(one, range(20)))

        self.assertEqual(asyncio.run(all_of_them()), [(number, NAMES) for number in range(20)])

    def test_a_task_that_is_cancelled(self):
        async def main():
            waits = asyncio.Event()

            async def files(name):
                waits.set()
                await asyncio.Event().wait()

            task = asyncio.create_task(CMap.load(uses(b"A"), files))
            await waits.wait()
            task.cancel()
            await task

        self.assertRaises(asyncio.CancelledError, asyncio.run, main())

    def test_the_class(self):
        class Own(CMap):
            pass

        async def files(name):
            return SMALL

        with asyncio.run(Own.load(uses(b"A"), files)) as cmap:
            self.assertEqual((type(cmap), cmap.cid(0x41, 1)), (Own, 34))


if __name__ == "__main__":
    unittest.main()
