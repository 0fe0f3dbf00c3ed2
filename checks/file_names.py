#!/usr/bin/env python3
"""Fails if a file in src/ or specs/ is named by a word in -ing.

A file is named by its subject, a noun or a pair of nouns: `wait_queues.rt`, and not `waiting.rt`. KEPT has the files
whose word in -ing is the noun for what they hold, at most ten. One of them that is gone is a fault too.
"""

import re
import sys

from shared import CRATES, Words, ended

MOST = 10
KEPT = (
    "golf_code_targets/src/nesting.rt",
    "golf_command/src/meaning.rt",
    "golf_lex_tokens/specs/Spelling.antt",
    "golf_meaning_source/specs/ExpressionMeaning.antt",
    "golf_ring/src/ring.rt",
    "golf_syntax_expressions/src/pending.rt",
    "golf_syntax_statements/src/pending.rt",
    "golf_tests_collector/src/marking.rt",
)


def main():
    Words(__doc__).parse_args()
    files = [*CRATES.glob("*/src/**/*.rt"), *CRATES.glob("*/specs/**/*.antt")]
    found = sorted(str(path.relative_to(CRATES)) for path in files if re.search(r"ing$", path.stem))
    faults = [f"crates/{name}: named by a word in -ing" for name in found if name not in KEPT]
    faults += [f"crates/{name}: it is gone, and KEPT names it" for name in KEPT if name not in found]
    faults += [f"KEPT has {len(KEPT)} files, and may have {MOST}"] if len(KEPT) > MOST else []
    return ended(f"names of files: {len(files)} files", faults)


if __name__ == "__main__":
    sys.exit(main())
