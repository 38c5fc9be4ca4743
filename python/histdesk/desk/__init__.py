"""The desk, with its events and triggers, and recordings, of which a desk is loaded.

Rows of triggers, events and edits are returned as tuples and arrays.
"""
