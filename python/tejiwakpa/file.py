"""Problem files: docs/FILE.md has the format. `Problem.from_file` and `to_file` use these functions."""
import ctypes

import numpy

from . import door
from .calls import _done, _problem, _room, _tables
from .diagnosis import Fault, fault
from .types import Pattern

HEADER, STEP = 80, 8
NAMES = ("P starts", "P rows", "P values", "q", "A starts", "A rows", "A values", "b", "cone records", "α", "pattern words")
WIDTHS = (4, 4, 8, 8, 4, 4, 8, 8, 4, 8, 4)
ENDS = Fault(5, "the pattern words end early or late")


def lengths(counts):
    """Returns the lengths of a file's tables, from the eight counts of its header."""
    n, m, p, a, cones, alphas, _, words = (int(count) for count in counts)
    return [n + 1, p, p, n, n + 1, a, a, m, 3 * cones, alphas, words]


def offsets(sizes):
    """Returns where the tables of these lengths begin, and where the last ends."""
    begins, end = [], HEADER
    for size, width in zip(sizes, WIDTHS):
        begins.append(-(-end // STEP) * STEP)
        end = begins[-1] + size * width
    return begins, end


def from_bytes(data):
    """Returns the problem of a file's bytes. A problem that is read passes checks 1 to 7; a cut may still refuse it."""
    data = numpy.frombuffer(data, dtype=numpy.uint8)
    words = _room(data.size // 4, numpy.uint32)
    _done(door.call("chordal_file_words", data, words))
    # no table of an accepted file is longer than the file, so larger counts need no larger outputs
    counts = numpy.minimum(numpy.resize(words, 8) if words.size >= 8 else _room(8, numpy.uint32), words.size)
    read, tables = _room(8, numpy.uint32), _tables(lengths(counts))
    number = door.call("chordal_read_file", words, ctypes.c_size_t(data.size), read, *tables)
    _done(number, lambda: fault_of_file(data.tobytes()))
    return _problem(int(read[0]), int(read[1]), int(read[6]), tables)


def to_bytes(problem):
    """Returns the bytes of the problem's file, if it passes checks 1 to 7."""
    tables = problem.tables()
    _, end = offsets([len(table) for table in tables if isinstance(table, numpy.ndarray)])
    out = _room(end, numpy.uint8)
    _done(door.call("chordal_write_file", *tables, out), lambda: fault(problem))
    return out.tobytes()


def _shape(data):
    # the first of checks 13 and 14 that fails
    if len(data) < HEADER:
        return Fault(13, f"the file has {len(data)} bytes, fewer than its header's {HEADER}")
    header = numpy.frombuffer(data[:HEADER], dtype="<u4").tolist()
    if header[19] != len(data):
        return Fault(13, f"the header says {header[19]} bytes, and the file has {len(data)}")
    sizes = lengths(header[:8])
    begins, end = offsets(sizes)
    gap = HEADER
    for name, told, begin, size, width in zip(NAMES, header[8:19], begins, sizes, WIDTHS):
        if told != begin:
            return Fault(14, f"{name} begin at byte {begin} by the counts, and the header says {told}")
        if begin + size * width > len(data):
            return Fault(14, f"{name} end at byte {begin + size * width} by the counts, and the file has {len(data)}")
        if any(data[gap:begin]):
            return Fault(14, f"the gap before {name}, bytes {gap} to {begin - 1}, is not zero")
        gap = begin + size * width
    if end != len(data):
        return Fault(14, f"the last table ends at byte {end}, and the file has {len(data)}")
    return None


def fault_of_file(data):
    """Finds the first place at fault in a file's bytes, as `fault` does in a problem. Returns None if it finds nothing."""
    found = _shape(data)
    if found is not None:
        return found
    header = numpy.frombuffer(data[:HEADER], dtype="<u4").tolist()
    kinds = {4: "<u4", 8: "<f8"}
    tables = [numpy.frombuffer(data, kinds[width], size, begin)
              for size, begin, width in zip(lengths(header[:8]), header[8:19], WIDTHS)]
    try:
        problem = _problem(header[0], header[1], 0, tables)
    except ValueError:
        # a cone of an unknown kind
        return None
    found = fault(problem)
    if found is not None:
        return found
    try:
        problem.patterns = Pattern.all_from_words(header[6], tables[-1])
    except ValueError:
        return ENDS
    return fault(problem) if numpy.array_equal(problem.pattern_words(), tables[-1]) else ENDS
