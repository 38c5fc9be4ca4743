"""How waits changed: between two recordings, between several, and if some events are left out.

A test by permutation says which differences are greater than those among recordings of one kind.
"""
