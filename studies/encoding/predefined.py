"""The maps that belong to a predefined CMap, from the folder of poppler-data or of Adobe's CMap resources."""

import glob
import os
from typing import Dict

import model
import resources

MAPS = {"Japan1": ("UniJIS-UTF16", "Adobe-Japan1-UCS2"), "GB1": ("UniGB-UTF16", "Adobe-GB1-UCS2"), "CNS1": ("UniCNS-UTF16", "Adobe-CNS1-UCS2"),
        "Korea1": ("UniKS-UTF16", "Adobe-Korea1-UCS2"), "KR": ("UniAKR-UTF16", "Adobe-KR-UCS2"), "Japan2": ("UniHojo-UTF16", None)}


class Folder:
    def __init__(self, path):
        self.path, self.parsed = path, {}

    def names(self):
        return sorted(os.path.basename(path) for path in glob.glob(os.path.join(self.path, "*", "*")))

    def data(self, name):
        for path in [os.path.join(self.path, name), *glob.glob(os.path.join(self.path, "*", name))]:
            if os.path.isfile(path):
                with open(path, "rb") as file:
                    return file.read()
        return None

    def layers(self, name):
        if name not in self.parsed:
            data = self.data(name)
            self.parsed[name] = None if data is None else resources.parse(data, self.data)
        return self.parsed[name]

    def cids(self, name: str) -> Dict[bytes, int]:
        """The CIDs of the codes of a CMap."""
        layers = self.layers(name)
        return model.glyphs(model.split(layers), layers)

    def texts(self, collection: str) -> Dict[int, str]:
        """The texts of the CIDs of a collection."""
        name = MAPS[collection][1]
        return model.texts(self.layers(name)) if name else {}

    def collection(self, name):
        return next((layer.ordering.decode() for layer in self.layers(name) if layer.ordering is not None), None)

    def unicode_name(self, name, collection):
        """A CMap from Unicode is its own map; another one has that of its collection and writing mode."""
        if name.startswith("Uni"):
            return name
        base = MAPS[collection][0]
        is_vertical = self.layers(name)[0].wmode == 1 and self.data(base + "-V") is not None
        return base + ("-V" if is_vertical else "-H")

    def font(self, name, collection=None, exact=False):
        """The font of the model, with its collection's maps; None where the collection has none."""
        collection = collection or self.collection(name)
        if collection not in MAPS:
            return None
        to_unicode = MAPS[collection][1]
        return model.Font(self.layers(name), None, self.layers(to_unicode) if to_unicode else None,
                          self.layers(self.unicode_name(name, collection)), exact)
