"""The object of a JSON text."""

import json
from typing import Any

from library.tool import BadInput


def json_of(text: bytes) -> dict[str, Any]:
    """The object of a JSON text; raises `BadInput`."""
    try:
        data = json.loads(text)
    except ValueError as error:
        raise BadInput(f"this is no JSON: {error}") from error
    if not isinstance(data, dict):
        raise BadInput("this JSON isn't an object")
    return data
