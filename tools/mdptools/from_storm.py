"""Prints a model that bin/mdp reads, from a DRN file of Storm that it refuses.

    tools/from_storm MODEL > OUT.drn

Placeholders (`@placeholders`, and `$0` in the place of a value) are put in, and a file that is compressed by gzip is unpacked; all other lines stay as
they are. What can't be mended, as rates, observations, intervals and infinite rewards, is refused with its line, and with what to do; status 2. The forms
are those of Storm's format from memory: no version of Storm was run.
"""

import sys

from . import drn, storm


def main(words):
    if len(words) != 1 or words[0] in ("-h", "--help"):
        print(__doc__.strip())
        sys.exit(0 if words in (["-h"], ["--help"]) else 2)
    try:
        text = "\n".join(storm.mended(words[0]))
    except drn.Unclear as unclear:
        sys.stderr.write(f"tools/from_storm: {unclear}\n")
        sys.exit(2)
    sys.stdout.reconfigure(encoding="utf-8", errors="surrogateescape")
    sys.stdout.write(text)
