"""A web form with one field, in which a phone number is formatted while one types.

`FormServer` is given what makes its backend: `backend.Backend`, or anything with the same `regions`,
`choices`, `typed`, `pasted` and `told`. All calls of the backend are on one thread, which made it. The server
keeps nothing of what is typed and logs nothing of it.
"""

from __future__ import annotations

import base64
import hashlib
import html
import json
import re
from concurrent.futures import ThreadPoolExecutor
from http import HTTPStatus
from http.server import BaseHTTPRequestHandler, ThreadingHTTPServer
from pathlib import Path
from string import Template
from typing import Any, Callable, Dict, List, Optional, Tuple
from urllib.parse import parse_qs

#: The most bytes of a request's body: over 10,000 characters, however they are escaped.
MOST_BYTES = 1 << 18

_PAGE = Path(__file__).with_name("page.html")
_LANGUAGE = re.compile(r"[A-Za-z]{2,3}(?:-[A-Za-z]{4})?-([A-Za-z]{2})")


def hash_of(page: str, element: str) -> str:
    """The source of a page's script or style by its hash, as a content security policy names it."""
    found = re.search(f"<{element}>(.*?)</{element}>", page, re.DOTALL)
    digest = hashlib.sha256(found[1].encode() if found else b"").digest()
    return f"'sha256-{base64.b64encode(digest).decode()}'"


def region_of(languages: str) -> Optional[str]:
    """The region of the first language that has one in a header, as `NZ` of `en-NZ,en;q=0.8`."""
    for language in languages.split(","):
        found = _LANGUAGE.fullmatch(language.partition(";")[0].strip())
        if found:
            return found[1].upper()
    return None


class FormServer(ThreadingHTTPServer):
    """The form at an address, as `("127.0.0.1", 8000)`, over the backend that `make_backend` makes."""

    daemon_threads = True

    def __init__(self, address: Tuple[str, int], make_backend: Callable[[], Any]) -> None:
        page = _PAGE.read_text(encoding="utf-8")
        self.page = Template(page)
        self.policy = (
            f"default-src 'none'; script-src {hash_of(page, 'script')}; "
            f"style-src {hash_of(page, 'style')}; connect-src 'self'; form-action 'self'; "
            "img-src data:; base-uri 'none'; frame-ancestors 'none'"
        )
        self._thread = ThreadPoolExecutor(max_workers=1)
        self._backend = self._thread.submit(make_backend).result()
        super().__init__(address, Handler)

    def ask(self, question: Callable[[Any], Any]) -> Any:
        """What the backend answers, on its thread."""
        return self._thread.submit(question, self._backend).result()

    def server_close(self) -> None:
        super().server_close()
        self._thread.shutdown()


class Handler(BaseHTTPRequestHandler):
    """A request: the page, the page once it is sent, or what the field shows."""

    server: FormServer
    timeout = 20
    server_version = "form"
    sys_version = ""

    def do_GET(self) -> None:
        if self.path != "/":
            self._refuse(HTTPStatus.NOT_FOUND)
            return
        region = region_of(self.headers.get("Accept-Language", ""))
        self._give_page(region, "", "", "")

    def do_POST(self) -> None:
        body = self._body()
        if body is None:
            return
        if self.path == "/typed":
            self._give_typed(body)
        elif self.path == "/":
            self._give_sent(body)
        else:
            self._refuse(HTTPStatus.NOT_FOUND)

    def _body(self) -> Optional[bytes]:
        """The request's body; none, and a refusal is sent, where it is too long or has no length."""
        length = self.headers.get("Content-Length", "")
        if not re.fullmatch("[0-9]{1,9}", length):
            self._refuse(HTTPStatus.LENGTH_REQUIRED)
        elif int(length) > MOST_BYTES:
            self._refuse(HTTPStatus.REQUEST_ENTITY_TOO_LARGE)
        else:
            body = self.rfile.read(int(length))
            if len(body) == int(length):
                return body
        return None

    def _give_typed(self, body: bytes) -> None:
        """What the field shows, the caret, and what is lacking."""
        try:
            asked = json.loads(body)
            region, text = self._region(asked["region"]), asked["text"]
            caret, pasted = asked["caret"], asked["pasted"]
            if not (isinstance(text, str) and isinstance(caret, int) and caret >= 0):
                raise ValueError
        except (ValueError, KeyError, TypeError, RecursionError):
            self._refuse(HTTPStatus.BAD_REQUEST)
            return
        answer = self.server.ask(lambda backend: typed(backend, region, text, caret, pasted is True))
        self._give(json.dumps(answer).encode(), "application/json")

    def _give_sent(self, body: bytes) -> None:
        """The page with the number that was sent, or with what is lacking."""
        try:
            fields = parse_qs(body.decode("ascii"), keep_blank_values=True, max_num_fields=10)
        except ValueError:
            self._refuse(HTTPStatus.BAD_REQUEST)
            return
        region, text = self._region(fields.get("region", [""])[0]), fields.get("number", [""])[0]
        words, number = self.server.ask(lambda backend: sent(backend, region, text))
        self._give_page(region, text, words, number)

    def _region(self, region: object) -> Optional[str]:
        """A region that one can choose, else none."""
        regions = self.server.ask(lambda backend: backend.regions)
        return region if isinstance(region, str) and region in regions else None

    def _give_page(self, region: Optional[str], text: str, words: str, number: str) -> None:
        choices: List[Any] = self.server.ask(lambda backend: backend.choices)
        options = "".join(
            f'<option data-code="{it.code}" data-example="{html.escape(it.example)}" '
            f'value="{html.escape(it.region)}"{" selected" if it.region == region else ""}>'
            f"{html.escape(it.region)} +{it.code}</option>"
            for it in choices
        )
        page = self.server.page.substitute(
            options=options, text=html.escape(text), words=html.escape(words), number=number,
            chosen="true" if self.command == "POST" else "false",
        )
        self._give(page.encode("utf-8", "replace"), "text/html; charset=utf-8")

    def _refuse(self, status: HTTPStatus) -> None:
        self._give(status.phrase.encode(), "text/plain; charset=utf-8", status)

    def _give(self, body: bytes, kind: str, status: HTTPStatus = HTTPStatus.OK) -> None:
        self.send_response(status)
        self.send_header("Content-Type", kind)
        self.send_header("Content-Length", str(len(body)))
        self.send_header("Content-Security-Policy", self.server.policy)
        self.send_header("X-Content-Type-Options", "nosniff")
        self.send_header("Referrer-Policy", "no-referrer")
        self.send_header("Cache-Control", "no-store")
        self.end_headers()
        self.wfile.write(body)

    def log_message(self, format: str, *args: Any) -> None:
        """Nothing is logged: what is typed leaves no trace."""


def typed(
    backend: Any, region: Optional[str], text: str, caret: int, pasted: bool
) -> Dict[str, object]:
    """What the field shows of a text, null where it is left as it is; the caret; what is lacking."""
    printed = backend.pasted(region, text) if pasted else None
    shown = (printed, len(printed)) if printed is not None else backend.typed(region, text, caret)
    if shown is None:
        return {"shown": None, "caret": caret, "words": backend.told(region, text).words}
    return {"shown": shown[0], "caret": shown[1], "words": backend.told(region, shown[0]).words}


def sent(backend: Any, region: Optional[str], text: str) -> Tuple[str, str]:
    """What is lacking of a text that was sent, and of a valid number an element of the page."""
    facts, words = backend.told(region, text)
    if facts is None:
        return words or "a number is wanted", ""
    rows = "".join(f"<dt>{html.escape(name)}</dt><dd>{html.escape(it)}</dd>" for name, it in facts)
    return "", f'<dl id="sent">{rows}</dl>'
