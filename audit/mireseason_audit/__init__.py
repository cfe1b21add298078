"""A supervisor's audit of a day: it checks what was really sent against the venue's program, and
shows it.
"""
