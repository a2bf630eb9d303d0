"""The proved shared object, and calls of it with or without the interpreter's lock."""
import ctypes
import os
from typing import Any, Dict, List, Optional, Set, Tuple

from . import __version__
from ._declarations import DECLARATIONS
from ._types import SIZE, U64, PointerTo, SliceOf

# The file of the engine beside this module.
FILE = "mixegorta.dll" if os.name == "nt" else "libmixegorta.so"


def _crates(root: str) -> Set[str]:
    """The crates that the library is made from, as crates.txt tells what each needs."""
    below: Dict[str, List[str]] = {}
    with open(os.path.join(root, "crates.txt"), encoding="utf-8") as file:
        for line in file:
            name, colon, needed = line.partition(":")
            if colon:
                # A static library has a word beside its name.
                below[name.split()[0]] = needed.split()
    found: Set[str] = set()
    left = ["capi"]
    while left:
        crate = left.pop()
        if crate not in found:
            found.add(crate)
            left += below.get(crate, [])
    return found


def _newer(root: str, than: float) -> Optional[str]:
    """A file of these crates that was changed after a time; wrong edits of a crate, and what the kit leaves in its folder, are not part of the library."""
    for crate in sorted(_crates(root)):
        for place, folders, files in os.walk(os.path.join(root, "crates", crate)):
            folders[:] = [name for name in folders if name not in ("must-fail", "out")]
            for path in (os.path.join(place, name) for name in files):
                if os.path.getmtime(path) > than:
                    return path
    return None


def _path() -> Tuple[str, str]:
    """The shared object, the one that is named, else that of the package, else that of the source folder; and what to do if it is wrong."""
    named = os.environ.get("MIXEGORTA_LIBRARY")
    if named:
        return named, "correct or unset MIXEGORTA_LIBRARY, which names it"
    folder = os.path.dirname(os.path.abspath(__file__))
    path = os.path.join(folder, FILE)
    if os.path.exists(path):
        return path, "install the package anew"
    root = os.path.dirname(os.path.dirname(folder))
    path = os.path.join(root, "target", FILE)
    if not os.path.exists(path):
        raise ImportError(f"mixegorta finds no {FILE}: run tools/library, or pip install ./python, or set MIXEGORTA_LIBRARY to its path")
    newer = _newer(root, os.path.getmtime(path))
    if newer:
        raise ImportError(f"{path} is older than {newer}: run tools/library, or set MIXEGORTA_LIBRARY to take a library as it is")
    return path, "run tools/library"


def _loaded(path: str, remedy: str) -> Any:
    """The shared object, where it is of the package's own version."""
    try:
        library = ctypes.CDLL(path)
        library.mixegorta_version.restype, library.mixegorta_version.argtypes = U64, []
        number = library.mixegorta_version()
    except OSError as error:
        raise ImportError(f"mixegorta cannot load {path} ({error}): {remedy}") from None
    except AttributeError:
        raise ImportError(f"{path} tells no version, and this is mixegorta {__version__}: {remedy}") from None
    told = f"{number // 1_000_000}.{number // 1_000 % 1_000}.{number % 1_000}"
    if told != __version__:
        raise ImportError(f"{path} is of version {told}, and this is mixegorta {__version__}: {remedy}")
    return library


def _parameter_types(parameters: Dict[str, Any]) -> List[Any]:
    """The types that ctypes is told: a pointer is an address."""
    types: List[Any] = []
    for kind in parameters.values():
        if isinstance(kind, SliceOf):
            types += ctypes.c_void_p, SIZE
        else:
            types.append(ctypes.c_void_p if isinstance(kind, PointerTo) else kind)
    return types


def _functions(library: Any) -> Dict[str, Any]:
    functions = {}
    for name, (result, parameters) in DECLARATIONS.items():
        functions[name] = getattr(library, "mixegorta_" + name)
        functions[name].restype, functions[name].argtypes = result, _parameter_types(parameters)
    return functions


PATH, _REMEDY = _path()
UNLOCKED = _functions(_loaded(PATH, _REMEDY))
LOCKED = _functions(ctypes.PyDLL(PATH))
