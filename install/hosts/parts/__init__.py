"""The parts of which configure.py consists."""
