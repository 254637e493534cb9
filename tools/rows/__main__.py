"""Lets `python3 tools/rows` find its own package, whose command line is that of driver.py."""
import sys
from pathlib import Path

sys.path[0] = str(Path(__file__).resolve().parents[1])

from rows.driver import main  # noqa: E402

sys.exit(main())
