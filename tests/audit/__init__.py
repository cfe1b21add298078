"""The audit, tried on stored, drawn and changed days."""
