"""Random scripts of every statement, right and in error.

`scripts.KINDS` has the kinds of scripts, and `scripts.script(seed, number)` the script of a number: the same whenever it is asked for.
"""
