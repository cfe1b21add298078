"""Tries two gateways and three database hosts."""
