"""Why a wait took so long: what ran meanwhile, what ended it, and the chain of wakings that led to it.

A scene has what happened around a wait. The words of an explanation are made apart from it.
"""
