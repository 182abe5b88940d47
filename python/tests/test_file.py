"""Problem files: what is written is read back, every NaN with its bits, and a damaged file is refused with its place."""
import dataclasses
import pathlib
import struct
import tempfile
import unittest

import numpy

from tejiwakpa import Columns, Cone, Problem, Refusal, Route, cut, generate
from tejiwakpa.file import fault_of_file

SAMPLES = pathlib.Path(__file__).resolve().parents[2] / "crates" / "cut_samples" / "data"


def every_table():
    """Returns three projectors behind a Power cone, with a quadratic cost, so that no table is empty."""
    plain = Problem.three_projectors()
    return dataclasses.replace(
        plain, m=9, b=[0.5] * 3 + plain.b, p=Columns([0, 1], [0], [2.0]), cones=[Cone.power(0.5), *plain.cones],
        a=dataclasses.replace(plain.a, rows=[row + 3 for row in plain.a.rows]),
        patterns=[dataclasses.replace(plain.patterns[0], orig_index=1)],
    )


class Files(unittest.TestCase):
    def refused(self, number, data, where):
        with self.assertRaises(Refusal) as caught:
            Problem.from_bytes(data)
        self.assertEqual(caught.exception.number, number)
        self.assertIn(where, caught.exception.where)

    def test_read_back(self):
        problem = every_table()
        with tempfile.TemporaryDirectory() as folder:
            path = pathlib.Path(folder) / "problem.bin"
            problem.to_file(path)
            read = Problem.from_file(path)
            self.assertEqual(read.to_bytes(), path.read_bytes())
        self.assertEqual((read.n, read.m, read.cones), (1, 9, problem.cones))
        self.assertEqual(read.patterns[0].words(), problem.patterns[0].words())
        self.assertEqual((read.b.tolist(), read.p.values.tolist()), (problem.b, [2.0]))
        header = struct.unpack("<20I", problem.to_bytes()[:80])
        self.assertEqual(header[:8], (1, 9, 1, 5, 2, 1, 1, 16))
        self.assertEqual(header[8:19], (80, 88, 96, 104, 112, 120, 144, 184, 256, 280, 288))

    def test_every_nan_keeps_its_bits(self):
        nans = numpy.array([0x7FF8000000000000, 0xFFF8000000000001, 0x7FF00000DEADBEEF], dtype=numpy.uint64).view(float)
        problem = dataclasses.replace(every_table(), q=nans[:1], b=numpy.concatenate([nans, every_table().b[3:]]))
        data = problem.to_bytes()
        read = Problem.from_bytes(data)
        self.assertEqual(read.b[:3].tobytes(), nans.tobytes())
        self.assertEqual(read.to_bytes(), data)

    def test_the_sample_files(self):
        for name in ("three_projectors", "load"):
            problem = Problem.from_file(SAMPLES / f"{name}.bin")
            self.assertEqual(problem.to_bytes(), (SAMPLES / f"{name}.bin").read_bytes())
            compact = cut(Route.COMPACT, problem).problem
            self.assertEqual(compact.to_bytes(), (SAMPLES / f"{name}.compact.bin").read_bytes())
        self.assertEqual(generate(2026, 12, 3, 4).to_bytes(), (SAMPLES / "load.bin").read_bytes())

    def test_other_bytes_are_refused(self):
        data = every_table().to_bytes()

        def changed(word, value):
            return data[: 4 * word] + struct.pack("<I", value) + data[4 * word + 4 :]

        self.refused(13, b"", "0 bytes")
        self.refused(13, data[:79], "79 bytes")
        self.refused(13, data[:-1], f"the header says {len(data)} bytes")
        self.refused(14, changed(13, 116), "A rows begin at byte 120")
        self.refused(14, changed(23, 1), "the gap before P values, bytes 92 to 95")
        self.refused(14, changed(19, len(data) + 8) + bytes(8), f"ends at byte {len(data)}")
        # 8 times this count would be right if products wrapped at 32 bits
        self.refused(14, changed(5, 0x20000001), "α end at byte")
        self.refused(14, changed(0, 0xFFFFFFFF), "P starts end at byte")
        self.refused(2, changed(20, 1), "P's first start is 1")
        self.refused(5, changed(6, 2), "the pattern words end early")

    def test_a_refused_problem_writes_no_file(self):
        wrong = dataclasses.replace(every_table(), b=[0.0] * 8)
        with tempfile.TemporaryDirectory() as folder:
            path = pathlib.Path(folder) / "problem.bin"
            with self.assertRaises(Refusal) as caught:
                wrong.to_file(path)
            self.assertEqual(caught.exception.number, 4)
            self.assertFalse(path.exists())

    def test_the_diagnosis_beside_the_calls(self):
        draws, data = numpy.random.default_rng(3), every_table().to_bytes()
        told = 0
        for _ in range(3000):
            damaged = bytearray(data)
            for _ in range(draws.integers(1, 3)):
                damaged[draws.integers(len(data))] = draws.integers(256)
            if draws.integers(8) == 0:
                damaged = damaged[: draws.integers(len(data))]
            try:
                Problem.from_bytes(bytes(damaged))
            except Refusal as refused:
                found = fault_of_file(bytes(damaged))
                told += found is not None
                if found is not None:
                    self.assertEqual(found.number, refused.number)
            else:
                self.assertIsNone(fault_of_file(bytes(damaged)))
        self.assertGreater(told, 500)


if __name__ == "__main__":
    unittest.main()
