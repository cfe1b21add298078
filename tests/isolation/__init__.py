"""Pairs of days that one firm can't tell apart."""
