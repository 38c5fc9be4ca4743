"""Scripts of commands: the table of commands, what runs them over a desk, and what refusals mean.

Nothing in here reads arguments of a tool or asks a user.
"""
