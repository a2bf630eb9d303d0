"""Arguments of calls: numbers that fit their parameters, and slices of memory, lent where they may be and copied where not.

Nothing is judged here but what would make a call unsafe: ctypes would cut a number to its width in silence."""
import ctypes
import operator
from array import array
from collections.abc import Mapping, Set
from typing import Any, Callable, Dict, Iterable, Iterator, List, Optional, Sequence, Tuple

from ._types import F64, U8, U64
from .amounts import Amount, billionths, shown

ELEMENTS: Dict[str, Any] = {"B": U8, "Q": U64, "d": F64}
SIZES = {code: ctypes.sizeof(kind) for code, kind in ELEMENTS.items()}
FORMATS = {"B": "B", "Q": "QLN", "d": "d"}
ORDERS = ("", "@", "=", "<")
POINT = "Point(row, kind, figure)"
Convert = Callable[[str, Any], Any]


class Slice:
    """Numbers in memory that a call may be handed; lent where someone else may write them meanwhile. values keeps them alive."""

    __slots__ = ("values", "code", "address", "count", "lent")

    def __init__(self, values: Any, code: str, address: int, count: int, lent: bool = False) -> None:
        self.values, self.code, self.address, self.count, self.lent = values, code, address, count, lent

    def __iter__(self) -> Iterator[int]:
        return iter(self.values)

    def first(self, count: int) -> "Slice":
        """The first so many of the numbers."""
        return Slice(self.values, self.code, self.address, count, self.lent)

    def overlaps(self, other: "Slice") -> bool:
        """Whether both have bytes in common."""
        return self.address < other._end() and other.address < self._end()

    def _end(self) -> int:
        return self.address + self.count * SIZES[self.code]


class Memory(Slice):
    """Numbers of the count that their parameter fixes, handed over by their address alone."""

    __slots__ = ()


def whole(name: str, number: int, low: int, high: int) -> int:
    """The number where it is a whole one within the bits of its parameter."""
    try:
        number = operator.index(number)
    except TypeError:
        raise TypeError(f"{name}: {shown(number)} is no whole number") from None
    if not low <= number <= high:
        raise OverflowError(f"{name}: {shown(number)} does not fit its parameter")
    return number


def u8(name: str, number: int) -> int:
    """A whole number of 8 bits."""
    return whole(name, number, 0, 255)


def u64(name: str, number: int) -> int:
    """A whole number of 64 bits."""
    return whole(name, number, 0, 2**64 - 1)


def amount(name: str, given: Amount) -> int:
    """An amount in billionths, as 64 bits."""
    return u64(name, billionths(given, name))


def own_memory(count: int, code: str = "Q") -> Slice:
    """Zeros that nobody else knows of."""
    elements = (ELEMENTS[code] * count)()
    return Slice(memoryview(elements).cast("B").cast(code), code, ctypes.addressof(elements), count)


def kept_memory(count: int) -> Memory:
    """Zeros for a parameter that is a pointer to so many numbers."""
    own = own_memory(count)
    return Memory(own.values, own.code, own.address, own.count)


def amounts(name: str, values: Iterable[Amount]) -> Slice:
    """A slice of amounts that is only read."""
    return _lent(name, "Q", values) or _copied(name, "Q", values, amount)


def numbers(name: str, values: Iterable[int]) -> Slice:
    """A slice of whole numbers that is only read."""
    return _lent(name, "Q", values) or _copied(name, "Q", values, u64)


def dates(name: str, values: Iterable[int]) -> Slice:
    """A slice of rows of 8 bits that is only read."""
    return _lent(name, "B", values) or _copied(name, "B", values, u8)


def _bytes(name: str, what: str, given: Any) -> Slice:
    """The bytes of any buffer, only read."""
    try:
        view = memoryview(given)
    except TypeError:
        raise TypeError(f"{name}: {what} is bytes, or another buffer of them") from None
    return _lent(name, "B", given) or _copied(name, "B", bytes(view), u8)


def job_bytes(name: str, job: Any) -> Slice:
    """The bytes of a job."""
    return _bytes(name, "a job", job)


def book_bytes(name: str, book: Any) -> Slice:
    """The bytes of a book of jobs."""
    return _bytes(name, "a book", book)


def jobs_listed(name: str, jobs: Iterable[Any]) -> List[bytes]:
    """The bytes of each job of a list."""
    return [bytes(job_bytes(f"{name}[{place}]", job).values) for place, job in enumerate(_listed(name, jobs, "jobs"))]


def apart(**memories: Slice) -> None:
    """Two slices of which the engine may write one."""
    (name, first), (other_name, second) = memories.items()
    if first.overlaps(second):
        raise ValueError(f"{name} and {other_name} need memories of their own")


def memory(name: str, code: str, values: Any) -> Slice:
    """A slice that the engine may write."""
    found = _lent(name, code, values)
    if found is None or found.values.readonly:
        raise TypeError(f"{name}: memory for the engine to write is a writable, contiguous buffer such as array({code!r})")
    return found


def columns(name: str, form: str, records: Iterable[Any], fields: Sequence[Tuple[str, Convert]]) -> List[Slice]:
    """The fields of records as columns of one length, each with its type and what converts it; form tells what a record is."""
    listed = _listed(name, records)
    if not all(isinstance(each, tuple) and len(each) == len(fields) for each in listed):
        listed = [record(f"{name}[{place}]", form, each, len(fields)) for place, each in enumerate(listed)]
    found: Iterable[Sequence[Any]] = zip(*listed) if listed else [()] * len(fields)
    return [_copied(name, code, column, convert) for column, (code, convert) in zip(found, fields)]


def record(name: str, form: str, given: Any, count: int) -> Tuple[Any, ...]:
    """The fields of one record."""
    if isinstance(given, (str, bytes, Mapping, Set)) or not hasattr(given, "__len__") or len(given) != count:
        raise TypeError(f"{name}: {shown(given)} is no {form}")
    return tuple(given)


def quotes(points: Iterable[Any]) -> Tuple[Slice, Slice, Slice]:
    """Rows, kinds and figures of points."""
    rows, kinds, figures = columns("points", POINT, points, (("Q", u64), ("B", u8), ("d", _figure)))
    return rows, kinds, figures


def point(name: str, given: Any) -> Tuple[Any, Any, Any]:
    """Row, kind and figure of a point."""
    row, kind, figure = record(name, POINT, given, 3)
    return row, kind, figure


def _figure(name: str, figure: float) -> float:
    try:
        return array("d", [figure])[0]
    except TypeError:
        raise TypeError(f"{name}: {shown(figure)} is no float") from None


def _copied(name: str, code: str, values: Iterable[Any], convert: Convert) -> Slice:
    """A slice of the call's own; convert is asked where array itself does not take the numbers, and names the one at fault."""
    listed = _listed(name, values)
    try:
        kept = array(code, listed)
    except (TypeError, OverflowError):
        kept = array(code, [convert(f"{name}[{place}]", value) for place, value in enumerate(listed)])
    return Slice(kept, code, *kept.buffer_info())


def _listed(name: str, values: Iterable[Any], of: str = "numbers") -> Sequence[Any]:
    """The values as a list, where they are one: no text, and nothing without an order or with more than its numbers."""
    if isinstance(values, (list, tuple)):
        return values
    if isinstance(values, (str, Mapping, Set)):
        raise TypeError(f"{name}: a {type(values).__name__} is not a list of {of}")
    _unmasked(name, values)
    try:
        return list(values)
    except TypeError:
        raise TypeError(f"{name}: {shown(values)} is not a list of {of}") from None


def _unmasked(name: str, values: Any) -> None:
    """Refuses an array of numpy's some of whose numbers are masked: its memory has numbers there that nobody means."""
    mask = getattr(values, "mask", None)
    if mask is not None and hasattr(values, "filled") and mask.any():
        raise TypeError(f"{name}: some numbers of the array are masked; fill or leave them out")


def _lent(name: str, code: str, values: Any) -> Optional[Slice]:
    """The caller's own memory as a slice, where its type and layout fit. It cannot be resized while the slice lives."""
    if isinstance(values, Slice):
        return values
    if isinstance(values, (list, tuple, range)):
        return None
    try:
        view = memoryview(values)
    except TypeError:
        return None
    _unmasked(name, values)
    order, kind = view.format[:-1], view.format[-1]
    if view.ndim != 1 or not view.c_contiguous or order not in ORDERS or kind not in FORMATS[code] or view.itemsize != SIZES[code]:
        return None
    address = _address(view) if view.nbytes else 0
    if address % SIZES[code]:
        return None
    return Slice(view, code, address, len(view), not isinstance(view.obj, bytes))


class _Buffer(ctypes.Structure):
    """Python's own record of a buffer, of which the first field is wanted: ctypes tells the address of writable ones alone."""
    _fields_ = [("address", ctypes.c_void_p), ("object", ctypes.c_void_p), ("length", ctypes.c_ssize_t), ("itemsize", ctypes.c_ssize_t),
                ("readonly", ctypes.c_int), ("ndim", ctypes.c_int), ("format", ctypes.c_void_p), ("shape", ctypes.c_void_p),
                ("strides", ctypes.c_void_p), ("suboffsets", ctypes.c_void_p), ("internal", ctypes.c_void_p)]


def _address(view: memoryview) -> int:
    buffer = _Buffer()
    ctypes.pythonapi.PyObject_GetBuffer(ctypes.py_object(view), ctypes.byref(buffer), ctypes.c_int(0))
    ctypes.pythonapi.PyBuffer_Release(ctypes.byref(buffer))
    return buffer.address or 0
