#!/usr/bin/env python3
"""Prints the crates above a crate, in the order in which to check them.

These are the crates that depend on it, over any number of steps.
"""

import sys

from shared import Words, below, crates


def main():
    options = Words(__doc__)
    options.add_argument("crate")
    options.add_argument("--next", action="store_true", help="only those that name it")
    given, known = options.parse_args(), crates()
    if given.crate not in known:
        options.error(f"no crate {given.crate}")
    for name, crate in known.items():
        if given.crate in (crate.uses if given.next else below(name, known)):
            print(name)
    return 0


if __name__ == "__main__":
    sys.exit(main())
