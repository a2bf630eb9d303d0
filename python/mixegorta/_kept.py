"""A struct of the engine's with the memory that it describes."""
import ctypes
import threading
from typing import Any, Tuple

from ._arguments import Memory, kept_memory
from ._faults import accepted, call


class Kept:
    """Both are handed over, copied and kept together, since neither means anything without the other. A call changes a copy, which takes the
    place of both at once: a thread that reads sees all of a change or nothing, and so does a program that is interrupted."""

    def __init__(self, state: ctypes.Structure, count: int) -> None:
        self._both, self._turn = (state, kept_memory(count)), threading.Lock()

    @property
    def both(self) -> Tuple[Any, Memory]:
        """Struct and memory as the last change left them; neither is written again."""
        return self._both

    def change(self, name: str, field: str, *given: Any) -> None:
        """A call that may change both: its answer has a number, and in a field the struct after the call. A refusal is raised. Threads that
        change take turns."""
        with self._turn:
            before = self._both
            memory = kept_memory(before[1].count)
            memory.values[:] = before[1].values
            answer = call(name, before[0], memory, *given)
            self._both = type(before[0]).from_buffer_copy(getattr(answer, field)), memory
        accepted(answer.number, name, (*before, *given))

    def __getstate__(self) -> Tuple[Any, bytes, bytes]:
        state, memory = self._both
        return type(state), bytes(state), bytes(memory.values)

    def __setstate__(self, kept: Any) -> None:
        kind, state, memory = kept
        Kept.__init__(self, kind.from_buffer_copy(state), len(memory) // 8)
        self._both[1].values[:] = memoryview(memory).cast("Q")
