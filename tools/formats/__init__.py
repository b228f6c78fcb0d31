"""The formats of docs/FORMATS.md, for the tools. Nothing here knows the program or proves anything."""


class Complaint(Exception):
    """What is wrong with what a tool was given, in one line."""
