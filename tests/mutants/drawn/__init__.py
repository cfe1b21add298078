"""Wrong code that nobody chose: a seed draws one small change at a time, and the tests that pass through it have to refuse it.

`python3 -m tests.mutants.drawn --seed 7 --count 100` draws a hundred, and prints which of them every test lets through.
"""
