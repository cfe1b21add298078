"""FIX's session level, definition by definition."""
