"""Finds the library for C, and declares its calls (yimarotu.h) for ctypes.

It is looked for in this order; the first that is there is taken, and the others are not tried:

1. the file that the environment variable YIMAROTU_LIBRARY names;
2. embed/out/libyimarotu.so of the checkout that this package lies in, where it lies in one;
3. by its soname, libyimarotu.so.0, as the system's loader finds it (LD_LIBRARY_PATH, ldconfig);
4. in the folder that `pkg-config --variable=libdir yimarotu` says;
5. in lib below the prefix of this Python, and in /usr/local/lib.

The calls are made under the interpreter's lock: each takes microseconds, and waits for nothing.
"""
from __future__ import annotations

import ctypes
import os
import subprocess
import sys
from pathlib import Path
from typing import Any, Dict, Iterator, List, Optional, Tuple

SONAME = "libyimarotu.so.0"
# The version of the header that is declared here, and the first that has other calls.
LEAST, BEHIND = 0x000100, 0x000200

_U8, _U16, _U32, _U64, _SIZE, _BOOL = (
    ctypes.c_uint8, ctypes.c_uint16, ctypes.c_uint32, ctypes.c_uint64, ctypes.c_size_t, ctypes.c_bool
)
# Octets that are read: bytes. A room that is written: its address, or a buffer.
_BYTES, _ROOM = [ctypes.c_char_p, _SIZE], [ctypes.c_void_p, _SIZE]
_AT = [ctypes.c_void_p]


def _struct(name: str, *fields: Any) -> Any:
    return type(name, (ctypes.Structure,), {"_fields_": list(fields)})


SessionStruct = _struct("SessionStruct", ("is_open", _BOOL), ("inside", ctypes.c_void_p))
_Written = _struct("_Written", ("status", _U8), ("fault", _U8), ("length", _SIZE))
_Opened = _struct("_Opened", ("status", _U8), ("line", _SIZE))
_Action = _struct(
    "_Action", ("status", _U8), ("kind", _U8), ("protocol", _U8), ("family", _U8), ("port", _U16), ("channel", _U64),
    ("number", _U64), ("length", _SIZE),
)
_Waits = _struct("_Waits", ("status", _U8), ("has_deadline", _BOOL), ("milliseconds", _U64))
_Statistics = _struct(
    "_Statistics", ("status", _U8), ("is_bounded", _BOOL), ("started", _U64), ("done_at_once", _U64), ("sent", _U64),
    ("timed_out", _U64), ("entries", _U64), ("octets", _U64),
)
_Progress = _struct("_Progress", ("status", _U8), ("fault", _U8), ("waits", _BOOL))
_Answered = _struct(
    "_Answered", ("status", _U8), ("error", _U8), ("fault", _U8), ("has_ttl", _BOOL), ("code", _U16), ("ttl", _U32),
    ("until", _U64), ("length", _SIZE),
)
_Found = _struct("_Found", ("status", _U8), ("error", _U8), ("code", _U16), ("ttl", _U64), ("count", _SIZE))
_Asked = _struct("_Asked", ("status", _U8), ("fault", _U8), ("mixed", _BOOL), ("length", _SIZE))
_Sized = _struct("_Sized", ("status", _U8), ("length", _SIZE))
_Replayed = _struct("_Replayed", ("status", _U8), ("length", _SIZE), ("line", _SIZE))

CALLS: Dict[str, Tuple[Any, List[Any]]] = {
    "version": (_U32, []),
    "rewrite": (_Written, [*_BYTES, _SIZE, *_ROOM]),
    "open": (_Opened, [*_AT, *_BYTES, *_BYTES, *_BYTES, *_BYTES, *_BYTES, _U64]),
    "close": (None, _AT),
    "next": (_Action, [*_AT, *_ROOM]),
    "came": (_U8, [*_AT, _U64, *_BYTES, _U64]),
    "failed": (_U8, [*_AT, _U64, _U8, _U64]),
    "tick": (_U8, [*_AT, _U64]),
    "wait": (_Waits, [*_AT, _U64]),
    "servers": (_U8, [*_AT, *_BYTES, _BOOL]),
    "statistics": (_Statistics, _AT),
    "start": (_Progress, [*_AT, _U64, *_BYTES, _U16, _U64]),
    "start_ip": (_Progress, [*_AT, _U64, *_BYTES, _U64]),
    "answer": (_Answered, [*_AT, _U64, _SIZE, *_ROOM]),
    "addresses": (_Found, [*_AT, _U64, _U64, *_ROOM]),
    "cancel": (_U8, [*_AT, _U64, _U64]),
    "clear_name": (_U8, [*_AT, *_BYTES, _U16]),
    "clear": (_U8, _AT),
    "open_fed": (_Opened, [*_AT, *_BYTES, *_BYTES, _U64]),
    "open_fed_with": (_Opened, [*_AT, *_BYTES, *_BYTES, *_BYTES, *_BYTES, _U64]),
    "question": (_Asked, [*_AT, _U64, *_ROOM]),
    "feed": (_Progress, [*_AT, _U64, *_BYTES]),
    "fail": (_Progress, [*_AT, _U64, _U8]),
    "read_servers": (_Sized, [*_BYTES, *_ROOM]),
    "replay": (_Replayed, [*_BYTES, *_BYTES, *_ROOM]),
}


def _in_checkout() -> Optional[Path]:
    """The library of the checkout that this package lies in."""
    embed = Path(__file__).resolve().parents[2]
    return embed / "out/libyimarotu.so" if (embed / "c/yimarotu.h").exists() else None


def _libdir() -> Optional[Path]:
    """The folder that pkg-config says, where it is there and knows the library."""
    words = ["pkg-config", "--variable=libdir", "yimarotu"]
    try:
        told = subprocess.run(words, stdin=subprocess.DEVNULL, capture_output=True, text=True, timeout=10, check=False)
    except (OSError, subprocess.SubprocessError):
        return None
    return Path(told.stdout.strip()) if told.returncode == 0 and told.stdout.strip() else None


def _places() -> Iterator[str]:
    """Where the library may be, in order."""
    named = os.environ.get("YIMAROTU_LIBRARY")
    if named:
        yield named
        return
    built = _in_checkout()
    if built is not None and built.exists():
        yield str(built)
    yield SONAME
    for folder in (_libdir(), Path(sys.prefix, "lib"), Path("/usr/local/lib")):
        if folder is not None and (folder / SONAME).exists():
            yield str(folder / SONAME)


def _load() -> ctypes.PyDLL:
    tried: List[str] = []
    for place in _places():
        try:
            return _declared(ctypes.PyDLL(place), place)
        except OSError as error:
            tried.append(f"{place} ({error})")
    raise ImportError(
        f"the library {SONAME} was not found; tried: {'; '.join(tried)}. `make -C embed install` builds and installs "
        "it, and the environment variable YIMAROTU_LIBRARY may name the file"
    )


def _declared(library: ctypes.PyDLL, place: str) -> ctypes.PyDLL:
    try:
        for name, (result, words) in CALLS.items():
            call = getattr(library, "yimarotu_" + name)
            call.restype, call.argtypes = result, words
    except AttributeError as error:
        raise ImportError(f"{place} lacks a call: {error}") from error
    version = library.yimarotu_version()
    if not LEAST <= version < BEHIND:
        raise ImportError(f"{place} has the version {version_text(version)}, which is none that this package knows")
    return library


def version_text(version: int) -> str:
    """
    >>> version_text(0x000100)
    '0.1.0'
    """
    return f"{version >> 16}.{version >> 8 & 255}.{version & 255}"


library = _load()
