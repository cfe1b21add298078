"""The checks that tools/pages.py makes of this repository's pages."""
