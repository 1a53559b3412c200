"""A ladder as one page of HTML, with its style and its script in it. The script draws the same ladder as the picture has."""
from __future__ import annotations

import html
import json
from dataclasses import asdict
from pathlib import Path
from typing import Any

from pm_tools.ladder import Ladder
from pm_tools.names import fields_of
from pm_tools.svg import COLOURS, GREY, RED
from pm_tools.trace import Step

PARTS = Path(__file__).parent / "page"


def told(step: Step) -> dict[str, Any]:
    """What the page says of a step, without the keys that say nothing."""
    fields = {key: value for key, value in asdict(step).items() if value is not None and value is not False and value != ()}
    fields["fields"] = fields_of(step.frame) if step.frame else []
    if step.raw:
        fields["raw"] = step.raw[:512].hex(" ", 4)
    return fields


def data_of(ladder: Ladder) -> dict[str, Any]:
    data = asdict(ladder)
    data["steps"] = [told(step) for step in ladder.steps]
    data["colours"] = {"ports": COLOURS, "grey": GREY, "red": RED}
    data["bottom"] = ladder.bottom
    return data


def page_of(ladder: Ladder, title: str) -> str:
    """The page. `</` in the data would end the script, so it is spelled otherwise."""
    data = json.dumps(data_of(ladder), separators=(",", ":")).replace("</", "<\\/")
    page = (PARTS / "page.html").read_text(encoding="utf-8")
    for name, part in (("TITLE", html.escape(title)), ("STYLE", (PARTS / "page.css").read_text(encoding="utf-8")),
                       ("SCRIPT", (PARTS / "page.js").read_text(encoding="utf-8")), ("DATA", data)):
        page = page.replace(f"@{name}@", part, 1)
    return page
