"""Closing, and several threads."""

import contextlib
import copy
import gc
import pickle
import signal
import threading
import unittest
import unittest.mock
from concurrent.futures import ThreadPoolExecutor

from hayro_cmap import Bundle, CMap, SalvageLoader, _reading
from hayro_cmap._owned import library

from .files import BINARY, BUNDLE, FIRST, SMALL, uses

THREADS, ROUNDS = 8, 2000

#: A file with a fault, which uses another one.
WRONG = b"begincidchar <> 1 endcidchar /B usecmap"


@contextlib.contextmanager
def freed_handles():
    """Of each handle that is freed within a block, whether it had a map, or a loader past faults."""
    were_full = []

    def freeing(free):
        def freed(handle):
            were_full.append(handle.full)
            free(handle)

        return freed

    of_loaders = staticmethod(freeing(SalvageLoader._free))
    with unittest.mock.patch.object(library, "hayro_cmap_free", freeing(library.hayro_cmap_free)):
        with unittest.mock.patch.object(SalvageLoader, "_free", of_loaders):
            yield were_full


class Closing(unittest.TestCase):
    def test_use_after_close(self):
        cmap = CMap.parse(SMALL)
        cmap.close()
        cmap.close()
        uses_of_it = [
            lambda: cmap.cid(0x41, 1),
            lambda: cmap.cid_strict(0x41, 1),
            lambda: cmap.cids(0, 4, 1),
            lambda: cmap.text(0x41),
            lambda: cmap.decode(b"A"),
            lambda: cmap.write(),
            lambda: cmap.metadata,
            lambda: cmap.layers,
            lambda: cmap.share(),
            lambda: cmap.__enter__(),
        ]
        for use in uses_of_it:
            self.assertRaises(ValueError, use)

    def test_bundle_after_close(self):
        bundle = Bundle.open(BUNDLE)
        bundle.close()
        bundle.close()
        uses_of_it = [
            lambda: bundle.file(FIRST),
            lambda: bundle.share(),
            lambda: CMap.parse(BINARY, bundle=bundle),
            lambda: CMap.open(FIRST, bundle=bundle),
            lambda: CMap.uses(BINARY, bundle),
        ]
        for use in uses_of_it:
            self.assertRaises(ValueError, use)

    def test_with(self):
        with CMap.parse(SMALL) as cmap:
            self.assertEqual(cmap.cid(0x41, 1), 34)
        self.assertRaises(ValueError, cmap.cid, 0x41, 1)

    def test_use_within_a_use(self):
        """As a handler of signals may have it: it is no deadlock."""
        with CMap.parse(SMALL) as cmap:
            with cmap._held():
                self.assertRaises(RuntimeError, cmap.cid, 0x41, 1)
                self.assertRaises(RuntimeError, cmap.close)
            self.assertEqual(cmap.cid(0x41, 1), 34)

    @unittest.skipUnless(hasattr(signal, "setitimer"), "there are no timers")
    def test_a_map_is_opened_by_a_handler_of_signals(self):
        """Also where it interrupts the same call: it is no deadlock."""
        opened = []
        before = signal.signal(signal.SIGALRM, lambda *_: opened.append(CMap.open("Identity-H")))
        try:
            while len(opened) < 50:
                signal.setitimer(signal.ITIMER_REAL, 1e-5 * (1 + len(opened) % 9))
                for _ in range(20):
                    CMap.open("Identity-H").close()
        finally:
            signal.setitimer(signal.ITIMER_REAL, 0)
            signal.signal(signal.SIGALRM, before)
        self.assertEqual({it.cid(5, 2) for it in opened}, {5})

    def test_a_callable_that_raises(self):
        def files(name):
            if name == b"B":
                raise KeyError(name)
            return WRONG

        with freed_handles() as were_full:
            self.assertRaises(KeyError, CMap.salvage, uses(b"A"), files)
        self.assertEqual(sum(were_full), 1)

    def test_a_bundle_that_is_closed_meanwhile(self):
        bundle = Bundle.open(BUNDLE)

        def files(name):
            if name == b"B":
                bundle.close()
                return SMALL
            return WRONG

        with freed_handles() as were_full:
            self.assertRaises(ValueError, CMap.salvage, uses(b"A"), files, bundle=bundle)
        self.assertEqual(sum(were_full), 1)

    def test_faults_that_cannot_be_told(self):
        with freed_handles() as were_full, unittest.mock.patch.object(_reading, "refusal", side_effect=MemoryError):
            self.assertRaises(MemoryError, CMap.salvage, WRONG)
        self.assertEqual(sum(were_full), 1)

    def test_shared_after_close(self):
        cmap = CMap.parse(SMALL)
        other = cmap.share()
        cmap.close()
        self.assertEqual(other.cid(0x41, 1), 34)
        other.close()
        bundle = Bundle.open(BUNDLE)
        other = bundle.share()
        bundle.close()
        self.assertEqual(other.file(FIRST), BINARY)
        other.close()

    def test_last_reference(self):
        """Maps that nobody closes are freed: a cycle of them, and one that was never made."""
        cmap = CMap.parse(SMALL)
        cmap.itself = cmap
        freed = CMap._free
        handles = []
        CMap._free = staticmethod(lambda handle: (handles.append(handle.full), freed(handle)))
        try:
            del cmap
            gc.collect()
        finally:
            CMap._free = freed
        self.assertEqual(handles, [True])
        CMap.__new__(CMap).__del__()

    def test_no_copies(self):
        with CMap.parse(SMALL) as cmap, Bundle.open(BUNDLE) as bundle:
            for it in [cmap, bundle]:
                for call in [copy.copy, copy.deepcopy, pickle.dumps]:
                    self.assertRaises(TypeError, call, it)


class Threads(unittest.TestCase):
    def in_threads(self, work):
        """What threads that begin together give."""
        begin = threading.Barrier(THREADS)

        def run(number):
            begin.wait()
            return work(number)

        with ThreadPoolExecutor(THREADS) as pool:
            return list(pool.map(run, range(THREADS)))

    def test_one_map(self):
        with CMap.parse(SMALL) as cmap:
            codes = [cmap.decode(b"A\x81\x40")] * THREADS
            found = self.in_threads(lambda _: [(cmap.cid(0x41, 1), cmap.decode(b"A\x81\x40")) for _ in range(ROUNDS)])
        self.assertEqual(found, [[(34, codes[0])] * ROUNDS] * THREADS)

    def test_a_map_for_each(self):
        with CMap.parse(SMALL) as cmap:

            def work(_):
                with cmap.share() as own:
                    return [own.cid(code % 96 + 0x1F, 1) for code in range(ROUNDS)]

            found = self.in_threads(work)
        self.assertEqual(found, [[code % 96 or None for code in range(ROUNDS)]] * THREADS)

    def test_one_bundle(self):
        with Bundle.open(BUNDLE) as bundle:

            def work(_):
                with CMap.parse(uses(FIRST), bundle=bundle) as cmap:
                    return cmap.cid(0x21, 2)

            self.assertEqual(self.in_threads(work), [6] * THREADS)

    def test_closed_by_another(self):
        """A map that one thread closes gives the others answers or ValueErrors, and nothing else."""
        cmap = CMap.parse(SMALL)

        def work(number):
            if number == 0:
                cmap.close()
                return {34}
            found = set()
            for _ in range(ROUNDS):
                try:
                    found.add(cmap.cid(0x41, 1))
                except ValueError:
                    break
            return found

        for found in self.in_threads(work):
            self.assertLessEqual(found, {34})
        self.assertRaises(ValueError, cmap.cid, 0x41, 1)


if __name__ == "__main__":
    unittest.main()
