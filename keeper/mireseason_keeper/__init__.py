"""The keeper of the days in PostgreSQL: it makes their tables, copies, checks and seals them, and removes old ones."""
