"""The rows of the packages, a module for each; `tools/test_packages.py` runs them."""
