"""The types of the engine's parameters for ctypes."""
import ctypes
from typing import Any, NamedTuple

U8, U64, I64, SIZE, F64, BOOL = ctypes.c_uint8, ctypes.c_uint64, ctypes.c_int64, ctypes.c_size_t, ctypes.c_double, ctypes.c_bool


class SliceOf(NamedTuple):
    """Memory of any length: an address, followed by its count of elements."""

    element: Any


class PointerTo(NamedTuple):
    """Memory of the length that its type has: an address alone."""

    target: Any
