"""Lets `python3 tools/mutants` find its own package, whose command line is that of driver.py."""
import sys
from pathlib import Path

sys.path[0] = str(Path(__file__).resolve().parents[1])

from mutants.driver import main  # noqa: E402

sys.exit(main())
