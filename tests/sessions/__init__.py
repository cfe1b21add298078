"""The proved session and a stock engine, in one process."""
