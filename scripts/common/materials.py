"""The bill of materials of the installed files, in SPDX 2.3: the project and the crates that are compiled in."""

import hashlib
import json
from pathlib import Path

TOP = Path(__file__).resolve().parents[2]
VERSION = (TOP / "VERSION").read_text().strip()
OWN_LICENCE = "MIT OR Apache-2.0"
# the licence of plain Rust, which has a table of the Unicode Character Database
PLAIN_LICENCE = f"({OWN_LICENCE}) AND Unicode-3.0"
UNSTATED = "NOASSERTION"
# the licences of crates, by the names of their files
LICENCES = {
    (): UNSTATED,
    ("LICENSE-APACHE", "LICENSE-MIT"): "MIT OR Apache-2.0",
    ("LICENSE-UNICODE",): "Unicode-3.0",
}
# the licences of crates whose files don't show them
OF_CRATES = {name: "MIT" for name in ("fast_float", "itoa", "simdutf8", "strsim")} | {"ryu": "Apache-2.0 AND MIT"}


def licence_of(crate, files):
    """The licence of a crate of the kit, which has these files of licences."""
    return OF_CRATES[crate] if crate in OF_CRATES else LICENCES[tuple(sorted(files))]


def package(name, version, licence):
    """The entry of a package."""
    entry = {
        "SPDXID": f"SPDXRef-{name.replace('_', '-')}",
        "name": name,
        "downloadLocation": "NOASSERTION",
        "filesAnalyzed": False,
        "licenseConcluded": licence,
        "licenseDeclared": licence,
        "copyrightText": "NOASSERTION",
    }
    return entry | ({"versionInfo": version} if version else {})


def of_kit(crates, kit):
    """The entries of crates of the kit, with the files of their licences; `kit` is its version."""
    return [package(name, kit, licence_of(name, files)) for name, files in crates.items()]


def names_of(bill):
    """The names of the contained crates, from the text of a bill."""
    return [it["name"] for it in json.loads(bill)["packages"][1:]]


def bill(others, created, licence=OWN_LICENCE):
    """The text of the bill; `others` are the entries of the contained crates."""
    own = package("hayro_cmap", VERSION, licence)
    contained = [
        {"spdxElementId": own["SPDXID"], "relationshipType": "CONTAINS", "relatedSpdxElement": it["SPDXID"]}
        for it in others
    ]
    described = {"spdxElementId": "SPDXRef-DOCUMENT", "relationshipType": "DESCRIBES", "relatedSpdxElement": own["SPDXID"]}
    document = {
        "spdxVersion": "SPDX-2.3",
        "dataLicense": "CC0-1.0",
        "SPDXID": "SPDXRef-DOCUMENT",
        "name": f"hayro_cmap-{VERSION}",
        "creationInfo": {"created": created, "creators": ["Tool: hayro_cmap-scripts-install"]},
        "packages": [own, *others],
        "relationships": [described, *contained],
    }
    number = hashlib.sha256(json.dumps(document).encode()).hexdigest()
    document["documentNamespace"] = f"urn:hayro-cmap:spdx:{VERSION}:{number}"
    return json.dumps(document, indent=1) + "\n"
