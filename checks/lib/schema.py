"""Reports in JSON, held against docs/report.schema.json."""

import json
import os
from functools import lru_cache

from . import places

try:
    import jsonschema
except ImportError:
    jsonschema = None


def is_looked_at():
    """Whether Python has the module that reads schemas."""
    return jsonschema is not None


@lru_cache(maxsize=None)
def validator():
    with open(os.path.join(places.TOP, "docs", "report.schema.json"), encoding="utf-8") as file:
        wanted = json.load(file)
    kind = jsonschema.Draft202012Validator
    kind.check_schema(wanted)
    return kind(wanted)


def faults(text):
    """What the schema finds wrong with a report; nothing where no schema is looked at."""
    if not is_looked_at():
        return []
    found = validator().iter_errors(json.loads(text))
    return [f"{'/'.join(map(str, it.absolute_path))}: {it.message}"[:200] for it in found]
