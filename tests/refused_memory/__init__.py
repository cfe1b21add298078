"""Programs to which one allocation is refused."""
