"""The pictures of bench/README.md: the file of each, and what draws it."""
import curves
import ratios

PICTURES = {"bench/ratios.svg": ratios.picture, "bench/growth.svg": curves.picture}
