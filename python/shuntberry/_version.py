"""The version of all of Shuntberry. Its first number is that of the library."""
__version__ = "6.2.0"
