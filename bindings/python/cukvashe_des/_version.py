"""The version of the package, which is that of its library."""

__version__ = "0.1.0"
