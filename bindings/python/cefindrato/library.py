"""The checks of texts in memory, by ctypes over the shared library.

CEFINDRATO_LIBRARY may name the library; otherwise it is the one beside this file, or else `libcefindrato.so` is looked for where
the system has its libraries. A text is bytes, or anything with the same bytes behind it, such as a bytearray, a memoryview or an
mmap; it is not copied. While a check runs other threads run too.
"""

import ctypes
import os
from contextlib import contextmanager
from functools import lru_cache
from mmap import mmap
from typing import Iterator, NamedTuple, Optional, Tuple, Union

from .faults import Fault, OutOfMemory

Text = Union[bytes, bytearray, memoryview, mmap]
VERIFIED, FAULT, NOT_RUN, NOT_VERIFIED, OUT_OF_MEMORY = range(5)
FORMATS = {"detected": 0, "drat": 1, "frat": 2, "lpr": 3}
_FORMER = {"told": "detected"}
_TEXT_SIZE = 512


class Checked(NamedTuple):
    """What a check of a DRAT or FRAT proof answers."""

    verified: bool
    lrat: Optional[bytes]
    core: Optional[bytes]


class Model(NamedTuple):
    """What a check of a solver's answer answers. Where it is not verified this is the first clause that has no literal of the
    answer, counted from 1, and the line on which it ends."""

    verified: bool
    clause: Optional[int]
    line: Optional[int]


class _Placed(ctypes.Structure):
    _fields_ = [("len", ctypes.c_size_t), ("whole", ctypes.c_size_t)]


class _LratAnswer(ctypes.Structure):
    _fields_ = [("status", ctypes.c_uint8), ("text", _Placed)]


class _DratAnswer(ctypes.Structure):
    _fields_ = [("status", ctypes.c_uint8), ("lrat", _Placed), ("core", _Placed), ("text", _Placed)]


class _ModelAnswer(ctypes.Structure):
    _fields_ = [("status", ctypes.c_uint8), ("text", _Placed), ("clause", ctypes.c_uint64), ("line", ctypes.c_uint64)]


class _Options(ctypes.Structure):
    _fields_ = [("format", ctypes.c_uint8), ("lrat", ctypes.c_bool), ("core", ctypes.c_bool)]


class _Buffer(ctypes.Structure):
    """Python's `Py_buffer`."""

    _fields_ = [
        ("buf", ctypes.c_void_p),
        ("obj", ctypes.py_object),
        ("len", ctypes.c_ssize_t),
        ("itemsize", ctypes.c_ssize_t),
        ("readonly", ctypes.c_int),
        ("ndim", ctypes.c_int),
        ("format", ctypes.c_char_p),
        ("shape", ctypes.c_void_p),
        ("strides", ctypes.c_void_p),
        ("suboffsets", ctypes.c_void_p),
        ("internal", ctypes.c_void_p),
    ]


_pointer = [ctypes.c_void_p, ctypes.c_size_t]
_nothing = ctypes.create_string_buffer(1)
_get_buffer = ctypes.pythonapi.PyObject_GetBuffer
_get_buffer.argtypes = [ctypes.py_object, ctypes.POINTER(_Buffer), ctypes.c_int]
_release_buffer = ctypes.pythonapi.PyBuffer_Release
_release_buffer.argtypes = [ctypes.POINTER(_Buffer)]
_release_buffer.restype = None


@lru_cache(maxsize=None)
def loaded() -> ctypes.CDLL:
    beside = os.path.join(os.path.dirname(os.path.abspath(__file__)), "libcefindrato.so")
    library = ctypes.CDLL(os.environ.get("CEFINDRATO_LIBRARY") or (beside if os.path.isfile(beside) else "libcefindrato.so"))
    library.cefindrato_lrat_check.argtypes = _pointer * 3
    library.cefindrato_lrat_check.restype = _LratAnswer
    library.cefindrato_drat_check.argtypes = _pointer * 2 + [_Options] + _pointer * 3
    library.cefindrato_drat_check.restype = _DratAnswer
    library.cefindrato_model_check.argtypes = _pointer * 3
    library.cefindrato_model_check.restype = _ModelAnswer
    library.cefindrato_version.argtypes = []
    library.cefindrato_version.restype = ctypes.c_uint32
    return library


@contextmanager
def _held(text: Text) -> Iterator[Tuple[int, int]]:
    """The address and the length of a text, which can't be resized or closed meanwhile."""
    buffer = _Buffer()
    _get_buffer(text, ctypes.byref(buffer), 0)
    try:
        yield buffer.buf or ctypes.addressof(_nothing), buffer.len
    finally:
        _release_buffer(ctypes.byref(buffer))


def _is_verified(answer, text) -> bool:
    if answer.status in (VERIFIED, NOT_VERIFIED):
        return answer.status == VERIFIED
    why = text.raw[: answer.text.len].decode(errors="replace")
    raise OutOfMemory(why) if answer.status == OUT_OF_MEMORY else Fault(why)


def check(cnf: Text, proof: Text) -> bool:
    """Whether the LRAT proof, text or binary, shows that no assignment satisfies the formula; a Fault where it is rejected."""
    text = ctypes.create_string_buffer(_TEXT_SIZE)
    with _held(cnf) as formula, _held(proof) as lines:
        answer = loaded().cefindrato_lrat_check(*formula, *lines, ctypes.addressof(text), _TEXT_SIZE)
    return _is_verified(answer, text)


def check_drat(cnf: Text, proof: Text, format: str = "detected", lrat: bool = False, core: bool = False) -> Checked:
    """What the DRAT, DPR or FRAT proof, text or binary, or the LPR text, shows of the formula; a Fault where it is rejected.

    The format is `drat`, `frat` or `lpr`, or `detected` from the first bytes of the proof, whose
    deprecated name is `told`. Where the proof is verified there are also what is wanted of `lrat`,
    the proof as LRAT text, and `core`, the clauses that it uses as DIMACS text. LRAT text that is
    longer than eight times the proof and a megabyte has the proof checked twice.
    """
    format = _FORMER.get(format, format)
    if format not in FORMATS:
        raise ValueError(f"no format of a proof: {format!r}; there are {', '.join(FORMATS)}")
    options = _Options(FORMATS[format], lrat, core)
    text = ctypes.create_string_buffer(_TEXT_SIZE)
    with _held(cnf) as formula, _held(proof) as steps:
        used = ctypes.create_string_buffer(formula[1] + 64 if core else 1)
        size = 8 * steps[1] + (1 << 20) if lrat else 1
        while True:
            lines = ctypes.create_string_buffer(size)
            buffers = [argument for it in (lines, used, text) for argument in (ctypes.addressof(it), len(it))]
            answer = loaded().cefindrato_drat_check(*formula, *steps, options, *buffers)
            if answer.lrat.len == answer.lrat.whole:
                break
            size = answer.lrat.whole
    verified = _is_verified(answer, text)
    return Checked(
        verified,
        ctypes.string_at(lines, answer.lrat.len) if verified and lrat else None,
        ctypes.string_at(used, answer.core.len) if verified and core else None,
    )


def check_model(cnf: Text, answer: Text) -> Model:
    """Whether every assignment that agrees with the solver's answer satisfies the formula, and there is one; a Fault where a text is
    rejected."""
    text = ctypes.create_string_buffer(_TEXT_SIZE)
    with _held(cnf) as formula, _held(answer) as literals:
        result = loaded().cefindrato_model_check(*formula, *literals, ctypes.addressof(text), _TEXT_SIZE)
    if _is_verified(result, text):
        return Model(True, None, None)
    return Model(False, result.clause, result.line)


def version() -> str:
    """The version of the library."""
    number = loaded().cefindrato_version()
    return f"{number // 10000}.{number // 100 % 100}.{number % 100}"
