"""Hostile inputs, and days at their limits."""
