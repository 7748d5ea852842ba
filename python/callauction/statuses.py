"""The exit statuses of the program and of the package's command lines."""
DONE = 0
"""All was done, and nothing unlawful was found."""
BAD_FILE = 1
"""A file that is read is a bad one."""
BAD_DAY = 2
"""A bad command line, or a day that can't be opened."""
FAILED = 3
"""No program, no memory, or a read or a write that failed."""
UNLAWFUL = 4
"""Something that was recorded or published isn't lawful."""
INCOMPLETE = 5
"""Nothing is unlawful, but not all was published or compared, or a journal is a broken copy."""
BROKEN_OFF = 130
"""Broken off by the user."""
