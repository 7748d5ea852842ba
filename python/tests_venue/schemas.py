"""What looks at messages by the venue's schema (callauction/venue/schema.json)."""
import json
from typing import Any

import jsonschema
import served

SCHEMA = json.loads((served.PACKAGE / "callauction/venue/schema.json").read_text("utf-8"))


def validator(name: str) -> Any:
    """What looks at messages of this kind."""
    return jsonschema.Draft202012Validator(
        {"$ref": f"#/$defs/{name}", "$defs": SCHEMA["$defs"]}
    )


SENT, RECEIVED = validator("sent"), validator("received")
