"""What the scripts of this folder share with those of `checks/`: the module `checks/shared.py`, under this name."""

import importlib.util
import sys
from pathlib import Path

_SPEC = importlib.util.spec_from_file_location(__name__, Path(__file__).resolve().parents[1] / "checks" / "shared.py")
sys.modules[__name__] = importlib.util.module_from_spec(_SPEC)
_SPEC.loader.exec_module(sys.modules[__name__])
