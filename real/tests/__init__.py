"""The tests of real/: `python3 -m unittest discover -s real/tests -t .` runs those that need neither libsecp256k1 nor
Electrum, and `real/test` counts what each of them tries.
"""
