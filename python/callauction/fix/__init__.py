"""Members of a venue by FIX 4.4, with the client that they have: docs/FIX.md.

The sessions are those of QuickFIX, behind the module `_quickfix` of shim.cpp, which build.py makes
beside it, or in the folder that the variable CALLAUCTION_FIX names. The bytes go by the venue's own
connections and its TLS.
"""
import os

VARIABLE = "CALLAUCTION_FIX"

if os.environ.get(VARIABLE):
    __path__.append(os.environ[VARIABLE])
