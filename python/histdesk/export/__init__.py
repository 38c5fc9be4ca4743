"""Answers for other programs: plain rows of waits, events and triggers, and how these are written as CSV and JSON."""
