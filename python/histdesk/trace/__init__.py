"""The text of a trace: what kind of file it is, its bytes piece by piece, its stamps, the events that were lost, the engine's
stream over it, and the waits that the stream reports.

The engine reads all lines of traces. Python matches only lines of other programs, to say what a file is.
"""
