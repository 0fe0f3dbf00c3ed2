"""A model of the machine in Python, which shares nothing with the program.

`syntax` reads a file, `code` makes its code, `machine` steps it turn by turn, and `states` looks at all schedules.
`tests/explored.py` and `tests/traced.py` compare the program with it.
"""
