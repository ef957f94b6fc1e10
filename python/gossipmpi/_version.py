"""The version, which is that of the program: a test compares both."""
VERSION = "0.2.0"
