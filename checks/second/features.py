"""What of the extensions of docs/profile.md the program has: the one place that says so. The grammar, the rows, the bundles and the
command line have those of HAS, and so have the scripts that are made and all that is to be reached; the rest is as the profile
says of what isn't built. With TDX_PROFILE=whole they have all, and with names of it, between commas, these: so the model is tried
on what isn't built yet."""

import os

LISTS = "lists of pages"  # COUNT of EXPORT.MEM and IMPORT.MEM, and bundles of version 2
LATE_PAGES = "late pages"  # pages that go out and come in behind the start token
PAIRS = "pairs"  # `pair`: two modules that hand each other bundles
CHAINS = "chains"  # `chain`: two to eight modules that do, with keys of each link

ALL = (LISTS, LATE_PAGES, PAIRS, CHAINS)
BUILT = ()
ASKED = os.environ.get("TDX_PROFILE", ",".join(BUILT))
HAS = ALL if ASKED == "whole" else [name for name in ASKED.split(",") if name]


def has(*features):
    """Whether all these are there."""
    return all(feature in HAS for feature in features)
