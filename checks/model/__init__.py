"""A model of the program, written from docs/MODEL.md and docs/FORMATS.md: it shares no code with
the program, and takes plain fields alone (no quotes).

`day` has the rules of a day, `files` what is read, `tables` what is printed, `floor` what may be
printed of members who call at once, and `answers` the whole answer to an input.
`python3 -m checks.model [OPTIONS] < FILE` prints it.
"""
