"""Bundles: predefined CMap files, and the tables of the binary form."""

import contextlib
from typing import ContextManager, Optional

from ._faults import NotABundle
from ._library import NOT_A_BUNDLE, Handle
from ._owned import Shared, checked, library, put
from ._values import Buffer, Name, bytes_of, name_of


class Bundle(Shared):
    """A bundle, opened once for any number of maps. It is freed by `close`, at the end of `with`, or with the last
    reference.

    Several threads may use one bundle, one at a time. With `share`, each thread has its own handle of the bundle.
    """

    _what = "the bundle"
    _made_by = "Bundle.open"
    _free = staticmethod(library.hayro_cmap_bundle_free)
    _share = staticmethod(library.hayro_cmap_bundle_share)

    @classmethod
    def open(cls, data: Buffer) -> "Bundle":
        """Opens a bundle, and copies its files. Raises NotABundle if the bytes are invalid."""
        data, handle = bytes_of(data), Handle()
        if checked(library.hayro_cmap_bundle_open(handle, data, len(data))) == NOT_A_BUNDLE:
            raise NotABundle("the bytes are not a bundle")
        return cls(handle)

    def __repr__(self) -> str:
        return "<Bundle, closed>" if self._handle is None else "<Bundle>"

    def file(self, name: Name) -> Optional[bytes]:
        """The bytes of the file with this name, or None."""
        name = name_of(name)
        with self._held() as handle:
            return put(library.hayro_cmap_bundle_file, handle, name, len(name))


def held(bundle: Optional[Bundle]) -> ContextManager[Handle]:
    """The handle of a bundle; an empty handle if there is no bundle."""
    if bundle is None:
        return contextlib.nullcontext(Handle())
    if isinstance(bundle, Bundle):
        return bundle._held()
    raise TypeError(f"a bundle is a Bundle or None, and not of type {type(bundle).__name__}")
