"""What python/build makes of callauction.h: the structs, and the numbers and calls."""
from typing import Any

ffi: Any
lib: Any
