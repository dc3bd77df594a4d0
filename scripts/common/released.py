"""When the version was released, by the first entry of the Debian changelog."""

import email.utils
import re
from pathlib import Path

CHANGELOG = Path(__file__).resolve().parents[2] / "packaging" / "debian" / "changelog"


def released():
    """The time, which all files of packages have."""
    stamp = re.search(r"^ -- .*>  (.*)$", CHANGELOG.read_text(), re.M)[1]
    return email.utils.parsedate_to_datetime(stamp)
