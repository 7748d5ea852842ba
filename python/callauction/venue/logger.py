"""Where a venue says what it notices, for who runs it; `notices` writes that on standard error."""
import logging

NOTICES = logging.getLogger("callauction.venue")
