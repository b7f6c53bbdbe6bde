"""Threads that share a store: each call has it to itself, and what a desk reports does not depend on its neighbours."""

import sys
import time
import unittest
from array import array
from concurrent.futures import ThreadPoolExecutor
from random import Random
from threading import Barrier, Lock
from unittest.mock import patch

from sobumikeyo import PLAIN_WEIGHT, Context, Sample, Store
from sobumikeyo.library import calls

DESKS = 4
ROOM = 400
SECONDS = 2
LATER = 1e-6  # how soon Python may turn to another thread


def sitting(store, desk, drawn):
    """One sitting at a desk of a store, from its opening to its closing; its report."""
    store.open(desk, alphabet=3, depth=3, weight=PLAIN_WEIGHT, reservation=ROOM // DESKS)
    for sample in Sample:
        store.feed_all(desk, sample, drawn.choices(range(3), k=50))
        for symbol in drawn.choices(range(3), k=10):
            store.feed(desk, sample, symbol)
    report = store.report(desk)
    store.close(desk)
    return report


class Threads(unittest.TestCase):
    def setUp(self):
        self.addCleanup(sys.setswitchinterval, sys.getswitchinterval())
        sys.setswitchinterval(LATER)

    def test_four_desks_of_one_store(self):
        """Each report is the one that its sitting has in a store of its own."""
        store, begin = Store(ROOM), Barrier(DESKS)

        def sit(desk):
            begin.wait()  # the seconds are counted from when all threads are there, so that none comes too late for its first sitting
            end, place = time.monotonic() + SECONDS, 0
            while time.monotonic() < end:
                seed = f"{desk} {place}"
                self.assertEqual(sitting(store, desk, Random(seed)), sitting(Store(ROOM), desk, Random(seed)))
                place += 1
            return place

        with ThreadPoolExecutor(DESKS) as threads:
            self.assertGreater(min(threads.map(sit, range(DESKS))), 0)
        self.assertEqual(store.room_left(), ROOM)

    def test_numbers_are_those_between_two_calls(self):
        store, end = Store(ROOM), time.monotonic() + SECONDS / 2

        def sit(desk):
            while time.monotonic() < end:
                sitting(store, desk, Random(desk))

        def keep(_):
            while time.monotonic() < end:
                self.assertTrue(Store.of_numbers(store.numbers()).is_sound())

        with ThreadPoolExecutor(DESKS) as threads:
            desks = [threads.submit(sit, desk) for desk in range(DESKS - 1)]
            for done in [*desks, threads.submit(keep, None)]:
                done.result()

    def test_a_store_has_one_call_at_a_time(self):
        """Also where a call lets other threads in, as all do on a Python without an interpreter's lock."""
        store, busy = Store(ROOM), Lock()

        def slow(*lent):
            self.assertTrue(busy.acquire(blocking=False), "no other call is at this store")
            time.sleep(0.001)
            busy.release()
            return 0

        def call(desk):
            for _ in range(5):
                store.open(desk, 3, 3, PLAIN_WEIGHT, 1)
                store.feed(desk, Sample.FIRST, 0)
                store.feed_all(desk, Sample.FIRST, [0])
                store.chart(desk, Context.of([]), 0)
                store.report_on(desk, array("I"), 0)
                store.room_left()
                store.is_sound()
                store.make(1)
                store.close(desk)

        self.every_call(slow, call)

    def test_stores_do_not_wait_for_each_other(self):
        """Each of two calls ends only after the other has begun."""
        met = Barrier(2)

        def slow(*lent):
            met.wait(timeout=20)
            return 0

        self.every_call(slow, lambda room: Store.of_numbers([]).room_left(), threads=2)

    def every_call(self, function, job, threads=DESKS):
        """Runs the job in threads, with that function in the place of each of the library's."""
        with patch.dict(calls(), dict.fromkeys(calls(), function)), ThreadPoolExecutor(threads) as pool:
            list(pool.map(job, range(threads)))


if __name__ == "__main__":
    unittest.main()
