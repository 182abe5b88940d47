"""The door: the calls of libdoor.a over numpy arrays. Only the calls check arguments."""
import ctypes
import os
import pathlib

import numpy

NONE = 4_294_967_295
_SHARED = pathlib.Path(__file__).resolve().parents[2] / "target" / "python" / "libchordal.so"
_library = None


def library():
    """Returns the shared library: the file that CHORDAL_LIBRARY names, or else the one that python/setup has linked."""
    global _library
    if _library is None:
        path = os.environ.get("CHORDAL_LIBRARY", str(_SHARED))
        try:
            _library = ctypes.CDLL(path)
        except OSError as error:
            raise OSError(f"{path}: {error}; python/setup makes it") from error
    return _library


def words(values):
    """Returns the values as a table of u32. A number that does not fit becomes the largest u32, which the checks refuse."""
    if isinstance(values, numpy.ndarray) and values.dtype == numpy.uint32 and values.flags.c_contiguous:
        return values
    wide = numpy.asarray(values, dtype=numpy.int64).reshape(-1)
    return numpy.where((wide < 0) | (wide > NONE), NONE, wide).astype(numpy.uint32)


def word(value):
    """Returns the value as a u32; one that does not fit becomes the largest u32."""
    return int(value) if 0 <= value <= NONE else NONE


def numbered(number):
    """Returns the word of a parent's or pattern's number, and the mark for None. A number that equals the mark or does not fit
    becomes the largest word that is not the mark, which is refused."""
    return NONE if number is None else int(number) if 0 <= number < NONE else NONE - 1


def doubles(values):
    """Returns the values as a table of f64."""
    return numpy.ascontiguousarray(values, dtype=numpy.float64).reshape(-1)


def call(name, *arguments):
    """Calls `name`: passes an array as pointer and length, an int as u32, a float as double, and a ctypes value as it is.
    Returns the refusal number."""
    passed, kept = [], []
    for argument in arguments:
        if isinstance(argument, numpy.ndarray):
            if argument.size == 0:
                # the calls take no null pointer
                argument = numpy.zeros(1, dtype=argument.dtype)
                length = 0
            else:
                length = argument.size
            kept.append(argument)
            passed += [ctypes.c_void_p(argument.ctypes.data), ctypes.c_size_t(length)]
        elif isinstance(argument, float):
            passed.append(ctypes.c_double(argument))
        elif isinstance(argument, (ctypes.c_uint64, ctypes.c_size_t)):
            passed.append(argument)
        else:
            passed.append(ctypes.c_uint32(argument))
    function = getattr(library(), name)
    function.restype = ctypes.c_uint32
    return function(*passed)
