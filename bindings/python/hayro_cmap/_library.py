"""The C library: its location, and the types of its calls."""

import ctypes
import os
import site
import sys
from ctypes import (
    POINTER,
    Structure,
    c_bool,
    c_char_p,
    c_int,
    c_int32,
    c_size_t,
    c_uint8,
    c_uint16,
    c_uint32,
    c_uint64,
    c_void_p,
)
from pathlib import Path

#: The name of the system's library, which has the major version except on Windows; and the name of the file that a
#: wheel installs in the package's folder.
SONAME, IN_PACKAGE = {
    "win32": ("hayro_cmap.dll", "hayro_cmap.dll"),
    "darwin": ("libhayro_cmap.1.dylib", "libhayro_cmap.dylib"),
}.get(sys.platform, ("libhayro_cmap.so.1", "libhayro_cmap.so"))

# hayro_cmap_status
OK, REFUSED, NO_MEMORY, OVER_BUDGET, NOT_A_BUNDLE, ABSENT, NO_ROOM = range(7)

# a hayro_cmap_mode
NO_MODE = 2

# hayro_cmap_kind
CODESPACE_RANGE, CID_RANGE, NOTDEF_RANGE, TEXT_RANGE = range(4)

# hayro_cmap_place
IN_FILE, AT_CODE, AT_RANGE, AT_NAME, AT_OFFSET = range(5)

NO_BUDGET = 2**64 - 1
MOST_NAMES = 16


class Handle(Structure):
    """A hayro_cmap, a hayro_cmap_bundle, a hayro_cmap_encoder or a hayro_cmap_loader."""

    _fields_ = [("full", c_bool), ("owned", c_void_p)]


class File(Structure):
    """A hayro_cmap_file."""

    _fields_ = [("name", c_char_p), ("name_len", c_size_t), ("bytes", c_char_p), ("bytes_len", c_size_t)]


class CodeInString(Structure):
    """A hayro_cmap_code."""

    _fields_ = [
        ("code", c_uint32),
        ("cid", c_uint32),
        ("byte_len", c_uint8),
        ("in_codespace", c_uint8),
        ("has_cid", c_uint8),
        ("cut_short", c_uint8),
    ]


class CharacterInString(Structure):
    """A hayro_cmap_character."""

    _fields_ = [("code", CodeInString), ("has_text", c_uint32), ("text_start", c_size_t), ("text_len", c_size_t)]


class Extracted(Structure):
    """A hayro_cmap_extracted."""

    _fields_ = [("made", c_size_t), ("taken", c_size_t), ("used", c_size_t)]


class EncodedPiece(Structure):
    """A hayro_cmap_piece."""

    _fields_ = [("text_len", c_size_t), ("code_len", c_uint32), ("grade", c_uint32)]


class CodespaceRange(Structure):
    """A hayro_cmap_codespace."""

    _fields_ = [("low", c_uint32), ("high", c_uint32), ("byte_len", c_uint32)]


class DeclaredCids(Structure):
    """A hayro_cmap_cid_range."""

    _fields_ = [("first", c_uint32), ("last", c_uint32), ("cid", c_uint32)]


class DeclaredTexts(Structure):
    """A hayro_cmap_text_range."""

    _fields_ = [("first", c_uint32), ("last", c_uint32), ("units", c_size_t)]


class CodesInRow(Structure):
    """A hayro_cmap_code_range."""

    _fields_ = [("first", c_uint32), ("last", c_uint32)]


class ChosenCodes(Structure):
    """A hayro_cmap_codes."""

    _fields_ = [("first", c_uint32), ("last", c_uint32), ("byte_len", c_uint32)]


class Declaration(Structure):
    """A hayro_cmap_declaration."""

    _fields_ = [
        ("kind", c_uint16),
        ("byte_len", c_uint16),
        ("first", c_uint32),
        ("last", c_uint32),
        ("cid", c_uint32),
        ("text", c_char_p),
        ("text_len", c_size_t),
    ]


class Facts(Structure):
    """A hayro_cmap_facts."""

    _fields_ = [
        ("name", c_char_p),
        ("name_len", c_size_t),
        ("registry", c_char_p),
        ("registry_len", c_size_t),
        ("ordering", c_char_p),
        ("ordering_len", c_size_t),
        ("supplement", c_int32),
        ("has_name", c_uint8),
        ("has_collection", c_uint8),
        ("writing_mode", c_uint16),
    ]


class Fault(Structure):
    """A hayro_cmap_fault."""

    _fields_ = [
        ("cause", c_uint32),
        ("reason", c_uint16),
        ("segment", c_uint16),
        ("offset", c_size_t),
        ("names", c_size_t),
        ("name_lens", c_size_t * MOST_NAMES),
    ]


class Found(Structure):
    """A hayro_cmap_finding."""

    _fields_ = [
        ("count", c_uint64),
        ("shown", c_size_t),
        ("offset", c_size_t),
        ("warning", c_uint32),
        ("place", c_uint32),
        ("first", c_uint32),
        ("last", c_uint32),
        ("byte_len", c_uint32),
        ("first_shown", c_uint32),
    ]


HANDLE, SIZE = POINTER(Handle), POINTER(c_size_t)
DATA, FILES = [c_char_p, c_size_t], [POINTER(File), c_size_t]
ROOM = [c_char_p, c_size_t, SIZE]
OVER_FILES = [HANDLE, *FILES, c_uint64]
CODE = [HANDLE, c_uint32, c_uint8]
CHARACTERS = [POINTER(CharacterInString), c_size_t]

CALLS = {
    "hayro_cmap_bundle_file": (c_int, [HANDLE, *DATA, *ROOM]),
    "hayro_cmap_bundle_free": (None, [HANDLE]),
    "hayro_cmap_bundle_open": (c_int, [HANDLE, *DATA]),
    "hayro_cmap_bundle_share": (c_int, [HANDLE, HANDLE]),
    "hayro_cmap_cid": (c_bool, [*CODE, POINTER(c_uint32)]),
    "hayro_cmap_cid_strict": (c_bool, [*CODE, POINTER(c_uint32)]),
    "hayro_cmap_cid_ranges": (c_int, [HANDLE, c_size_t, c_uint8, POINTER(DeclaredCids), c_size_t, SIZE]),
    "hayro_cmap_cids": (c_bool, [*CODE, c_uint32, POINTER(c_uint32), c_size_t]),
    "hayro_cmap_codes_of_cid": (c_int, [*CODE, POINTER(CodesInRow), c_size_t, SIZE]),
    "hayro_cmap_codespaces": (c_int, [HANDLE, c_size_t, POINTER(CodespaceRange), c_size_t, SIZE]),
    "hayro_cmap_decode": (c_int, [HANDLE, *DATA, POINTER(CodeInString), c_size_t, SIZE, SIZE]),
    "hayro_cmap_encode": (c_int, [HANDLE, *DATA, *ROOM, SIZE]),
    "hayro_cmap_encode_lossy": (c_int, [HANDLE, *DATA, *DATA, *ROOM]),
    "hayro_cmap_encode_pieces": (c_int, [HANDLE, *DATA, POINTER(EncodedPiece), c_size_t, SIZE, SIZE]),
    "hayro_cmap_encoder_build_with": (c_int, [HANDLE, HANDLE, HANDLE, HANDLE, HANDLE, c_bool]),
    "hayro_cmap_encoder_free": (None, [HANDLE]),
    "hayro_cmap_encoder_share": (c_int, [HANDLE, HANDLE]),
    "hayro_cmap_extract": (c_int, [HANDLE, HANDLE, HANDLE, *DATA, *CHARACTERS, c_char_p, c_size_t, POINTER(Extracted)]),
    "hayro_cmap_finish": (c_int, [HANDLE, HANDLE, POINTER(Fault), *ROOM]),
    "hayro_cmap_fold": (c_int, [*DATA, *ROOM, SIZE]),
    "hayro_cmap_found_faults": (c_int, [HANDLE, POINTER(Fault), c_size_t, SIZE, *ROOM]),
    "hayro_cmap_free": (None, [HANDLE]),
    "hayro_cmap_identity": (c_int, [HANDLE, c_bool]),
    "hayro_cmap_layer_name": (c_int, [HANDLE, c_size_t, *ROOM]),
    "hayro_cmap_layer_ordering": (c_int, [HANDLE, c_size_t, *ROOM]),
    "hayro_cmap_layer_registry": (c_int, [HANDLE, c_size_t, *ROOM]),
    "hayro_cmap_layer_supplement": (c_bool, [HANDLE, c_size_t, POINTER(c_int32)]),
    "hayro_cmap_layer_writing_mode": (c_int, [HANDLE, c_size_t]),
    "hayro_cmap_layers": (c_size_t, [HANDLE]),
    "hayro_cmap_lint": (
        c_int,
        [HANDLE, *DATA, c_bool, POINTER(c_uint32), c_size_t, POINTER(Found), c_size_t, SIZE],
    ),
    "hayro_cmap_load": (c_int, [HANDLE, *DATA, HANDLE, c_uint64]),
    "hayro_cmap_load_past_faults": (c_int, [HANDLE, *DATA, HANDLE, c_uint64]),
    "hayro_cmap_loader_free": (None, [HANDLE]),
    "hayro_cmap_make": (c_int, [POINTER(Facts), POINTER(Declaration), c_size_t, *ROOM]),
    "hayro_cmap_message": (c_int, [POINTER(Fault), *ROOM]),
    "hayro_cmap_notdef_ranges": (c_int, [HANDLE, c_size_t, c_uint8, POINTER(DeclaredCids), c_size_t, SIZE]),
    "hayro_cmap_open": (c_int, [HANDLE, *DATA, *OVER_FILES]),
    "hayro_cmap_read_as": (c_int, [POINTER(Fault), *DATA]),
    "hayro_cmap_share": (c_int, [HANDLE, HANDLE]),
    "hayro_cmap_supply": (c_int, [HANDLE, HANDLE, c_uint32, *DATA]),
    "hayro_cmap_text": (c_int, [HANDLE, c_uint32, *ROOM]),
    "hayro_cmap_text_ranges": (c_int, [HANDLE, c_size_t, POINTER(DeclaredTexts), c_size_t, SIZE]),
    "hayro_cmap_text_units": (c_int, [HANDLE, c_size_t, c_size_t, POINTER(c_uint16), c_size_t, SIZE]),
    "hayro_cmap_unicode_name": (c_int, [*DATA, c_uint32, *ROOM]),
    "hayro_cmap_uses": (c_int, [*DATA, HANDLE, SIZE, c_size_t, SIZE, *ROOM]),
    "hayro_cmap_version": (c_int, ROOM),
    "hayro_cmap_wanted": (c_int, [HANDLE, *ROOM]),
    "hayro_cmap_warning_name": (c_int, [c_uint32, *ROOM]),
    "hayro_cmap_write": (c_int, [HANDLE, POINTER(ChosenCodes), c_size_t, *ROOM]),
}


def places():
    """The paths at which the library is looked up, in this order."""
    asked = os.environ.get("HAYRO_CMAP_LIBRARY")
    if asked:
        return [asked]
    beside = Path(__file__).with_name(IN_PACKAGE)
    if beside.exists():
        return [str(beside)]
    folders = [sys.prefix, site.getuserbase(), "/usr/local"]
    return [SONAME, *(str(Path(folder, "lib", SONAME)) for folder in folders)]


def load():
    """Loads the library and sets the types of its calls. Raises ImportError if no library is found that has all
    calls."""
    faults = []
    for path in places():
        try:
            return typed(ctypes.CDLL(path))
        except (OSError, AttributeError) as fault:
            faults.append(str(fault))
    # imported here, so that this file can also be loaded without the package
    from ._run import missing

    raise missing("the C library of hayro_cmap isn't found: " + "; ".join(faults))


def typed(library):
    """The library, after the types of its calls are set."""
    for name, (result, parameters) in CALLS.items():
        call = getattr(library, name)
        call.restype, call.argtypes = result, parameters
    return library
