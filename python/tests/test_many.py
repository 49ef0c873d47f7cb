"""Many texts at once: threads over one handle on tables, processes, Dask if it is installed."""
import concurrent.futures
import copy
import logging
import pickle
import unittest

import bidi_proved as bidi

from . import small_tables

ALEF, BET = "\u05d0\u05d1"
WORDS = ["ab ", f"{ALEF}{BET} ", "12, ", f"({ALEF}b) ", "x\n", f"{BET}-3 "]
TEXTS = ["".join(WORDS[(k * i) % 6] for i in range(k % 23)) for k in range(400)]


def shown_by(tables, text):
    return bidi.display(text, tables)


class Many(unittest.TestCase):
    def setUp(self):
        self.tables = small_tables()
        self.expected = [shown_by(self.tables, text) for text in TEXTS]

    def test_threads_with_one_handle(self):
        with concurrent.futures.ThreadPoolExecutor(8) as pool:
            self.assertEqual(list(pool.map(lambda text: shown_by(self.tables, text), TEXTS)), self.expected)

    def test_threads_with_one_room(self):
        room = bidi.Room(100)

        def levels(text):
            try:
                return room.lay_out(text, self.tables).levels
            except bidi.StaleLayout:
                return None

        with concurrent.futures.ThreadPoolExecutor(8) as pool:
            for text, found in zip(TEXTS, pool.map(levels, TEXTS)):
                self.assertIn(found, (None, bidi.lay_out(text, self.tables).levels))

    def test_processes(self):
        with concurrent.futures.ProcessPoolExecutor(2) as pool:
            made = pool.map(shown_by, [self.tables] * 8, TEXTS[:8])
            self.assertEqual(list(made), self.expected[:8])

    def test_pickled(self):
        for made in (pickle.loads(pickle.dumps(self.tables)), copy.copy(self.tables)):
            self.assertEqual([shown_by(made, text) for text in TEXTS], self.expected)
        fault = pickle.loads(pickle.dumps(bidi.NoCharacter(7)))
        self.assertEqual((type(fault), fault.place), (bidi.NoCharacter, 7))

    def test_dask(self):
        try:
            from distributed import Client
        except ImportError:
            self.skipTest("no Dask (package python3-distributed)")
        with Client(n_workers=2, processes=False, dashboard_address=None, silence_logs=logging.CRITICAL) as client:
            made = client.gather(client.map(shown_by, [self.tables] * len(TEXTS), TEXTS, batch_size=50))
        self.assertEqual(made, self.expected)
