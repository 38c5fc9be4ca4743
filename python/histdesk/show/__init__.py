"""How answers are shown: tables in text and in HTML, texts in columns, and pandas DataFrames.

Nothing in here knows what the figures mean.
"""
