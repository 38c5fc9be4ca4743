"""Waits: which waits a recording has and how sure they are, their counts by task, name or CPU, and the summary.

Long texts are read in parts by several threads, and the parts are joined.
"""
