"""Where the files beside this tool are: in a clone of the repository, or where ./install put them."""

import os

HERE = os.path.dirname(os.path.realpath(__file__))
ABOVE = os.path.dirname(HERE)
ROOT = os.path.dirname(ABOVE)
# ./install puts BUILD beside the folder of this tool.
INSTALLED = os.path.exists(os.path.join(ABOVE, "BUILD"))
BUILD = os.path.join(ABOVE, "BUILD") if INSTALLED else os.path.join(ROOT, "release", "BUILD")
LANGUAGE = os.path.join(ABOVE, "LANGUAGE.md") if INSTALLED else os.path.join(ROOT, "docs", "LANGUAGE.md")
PROGRAMS = os.path.join(os.path.dirname(ROOT), "bin") if INSTALLED else ROOT


def version():
    """Returns the number of the release, and for each program its day, its toolchain and its sums."""
    said = {}
    with open(BUILD, encoding="utf-8") as file:
        for line in file:
            name, key, value = line.rstrip("\n").split(" ", 2)
            said.setdefault(name, {})[key] = value
    lines = ["golf-page " + said.pop("release", {}).get("number", "without a number")]
    for name, keys in said.items():
        lines.append(f"{name}: {keys.get('day')}, {keys.get('toolchain')}")
        lines += [f"  {key} {keys[key]}" for key in ("program", "sources") if key in keys]
    return "\n".join(lines)
