"""Tries the gateway with stock engines, with faults put in by hand, and with strangers."""
