"""Converters: the text of perf, of trace-cmd or of the kernel becomes a trace that the engine reads.

Nothing in here needs numpy or the library.
"""
