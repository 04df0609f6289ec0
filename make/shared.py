"""The modules of gate/shared, as a package of this folder: `from shared.gate import REPOSITORY`."""

from pathlib import Path

__path__ = [str(Path(__file__).resolve().parent.parent / "gate" / "shared")]
