"""Engines that others wrote, reading what the venue prints."""
