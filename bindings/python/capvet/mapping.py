"""`python -m capvet map`: the inspector, a page for a browser, with a message inside."""

from __future__ import annotations

import base64
import json
from pathlib import Path
from .message import Message, Verdict
from .reports import Limits

PAGE = Path(__file__).parent / "inspector.html"
"""The page without a message. A wheel that was built without esbuild hasn't got it."""

_PLACE = "<!--given-->"


def write_page(message: Verdict, limits: Limits, name: str, to: str) -> None:
    """Writes the page with a message inside to a file. The page shows the message under this name and within these limits."""
    if not PAGE.exists():
        raise OSError("this package was built without the page of `map`: install esbuild and binaryen, and build it again")
    shown = {"words": limits.message_words, "charge": limits.charge, "depth": limits.depth,
             "isStrict": not limits.allow_nonstrict, "isUnamplified": not limits.allow_amplified}
    # (no name of a file can end the script, since each < is escaped)
    data = message.data if isinstance(message, Message) else message.unvetted
    inside = {"name": name, "limits": shown, "bytes": base64.b64encode(data).decode("ascii")}
    given = json.dumps(inside).replace("<", "\\u003c")
    before, _, after = PAGE.read_text(encoding="utf-8").partition(_PLACE)
    page = f'{before}<script type="application/json" id="given">{given}</script>{after}'
    with open(to, "w", encoding="utf-8") as file:
        file.write(page)
