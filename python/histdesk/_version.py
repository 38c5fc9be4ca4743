"""The version of histdesk, which programs, library, package, tools and man pages have in common."""

__version__ = "0.1.0"
