"""What the form answers, as tables, without a browser: python3 bindings/python/form/cases.py. The last line is `form: ok`."""

import http.client
import json
import sys
import threading
import time
from pathlib import Path
from urllib.parse import urlencode

sys.path.insert(0, str(Path(__file__).resolve().parents[1]))

from form.backend import Backend  # noqa: E402
from form.server import MOST_BYTES, FormServer, region_of  # noqa: E402

SHORT = "the number is too short, or no such number is given out"
NO_REGION = "a region is wanted, or a country code after a plus sign"

# Region, text that was typed, where the caret is; what is shown, with `|` where the caret is then, and what is lacking.
TYPED = [
    ("NZ", "", 0, "|", ""),
    ("NZ", "0", 1, "0|", "the number is too short"),
    ("NZ", "0333", 4, "03 33|", SHORT),
    ("NZ", "03 331 6005", 11, "03 331 6005|", ""),
    ("NZ", "03 331 6005", 6, "03 331| 6005", ""),
    ("NZ", "03 3311 6005", 7, "033311|6005", "the number is too long: +64 3 331 1600 is one"),
    ("US", "6502530000", 3, "(650|) 253-0000", ""),
    ("US", "6502530000", 0, "|(650) 253-0000", ""),
    ("US", "+64", 3, "+64 |", "the number is too short"),
    ("US", "\uff0b\uff16\uff14", 3, "+64 |", "the number is too short"),
    ("US", "650)253", 4, "650|-253", SHORT),
    ("", "033316005", 9, "033316005|", NO_REGION),
    ("XX", "033316005", 9, "033316005|", NO_REGION),
    ("NZ", "033316005", 1000, "03 331 6005|", ""),
]

# The same of texts that are left as they are.
LEFT = [
    ("NZ", "03-331 6005 ext. 12", ""),
    ("NZ", "03 331 6005 ", ""),
    ("NZ", "call me", "not a number"),
    ("NZ", "<b>03 331 6005", ""),
    ("NZ", "\ud800", "not UTF-8"),
    ("NZ", "03@331", "not a number"),
]

# Region, text that is pasted, what is shown, what is lacking.
PASTED = [
    ("US", "+49 (0)176 12345678", "+49 176 12345678", ""),
    ("DE", "+49 (0)176 12345678", "0176 12345678", ""),
    ("US", "650.253.0000 ext. 12", "(650) 253-0000 ext. 12", ""),
    ("US", "tel:+64-3-331-6005", "+64 3 331 6005", ""),
    ("US", "call me", None, "not a number"),
    ("US", "650", "650", SHORT),
]

# What is sent as JSON that is none that the page sends.
BAD = [
    b"", b"\xff", b"[]", b"{}", b"null", b"[" * 100_000, b'{"region": "NZ", "text": 1, "caret": 0, "pasted": false}',
    b'{"region": "NZ", "text": "1", "caret": -1, "pasted": false}', b'{"region": "NZ", "text": "1", "caret": 1e9, "pasted": false}',
]

# A header of languages, and its region.
LANGUAGES = [
    ("en-NZ,en;q=0.9", "NZ"), ("de", None), ("de, en-us;q=0.5", "US"), ("zh-Hant-TW", "TW"), ("es-419", None), ("", None), ("*", None),
    ("\"><script>", None),
]

# Region, text, what stands on the page that is sent.
SENT = [
    ("NZ", "03 331 6005", ["<dd>+6433316005</dd>", "<dd>fixed line</dd>", "<dd>NZ</dd>", 'value="NZ" selected>']),
    ("", "+44 7912 345678", ["<dd>+447912345678</dd>", "<dd>mobile</dd>", "<dd>GB</dd>", 'role="status"></p>']),
    ("NZ", "call me", ['role="status">not a number</p>', 'value="call me"']),
    ("NZ", " ", ['role="status">a number is wanted</p>']),
    ("NZ", '"><script>alert(1)</script>$words&', ['value="&quot;&gt;&lt;script&gt;alert(1)&lt;/script&gt;$words&amp;"']),
    ('"><b>', "\u2028\0\uffff", ["not a number"]),
    ("NZ", "7" * 10_000, ["the number is too long", "7" * 10_000]),
    ("NZ", "\U0001f4a9" * 10_000, ["\U0001f4a9" * 10_000]),
]

failed = []


def check(case, told, wanted):
    if told != wanted:
        failed.append(case)
        print(f"{case!a}: {told!a}, not {wanted!a}")


class Client:
    def __init__(self, port):
        self.port = port

    def ask(self, method, path, body=None, headers=None):
        link = http.client.HTTPConnection("127.0.0.1", self.port, timeout=20)
        link.request(method, path, body, headers or {})
        answer = link.getresponse()
        told = answer.status, answer.headers, answer.read()
        link.close()
        return told

    def typed(self, region, text, caret, pasted):
        body = json.dumps({"region": region, "text": text, "caret": caret, "pasted": pasted})
        return json.loads(self.ask("POST", "/typed", body)[2])


def typing(client):
    for region, text, caret, wanted, words in TYPED:
        told = client.typed(region, text, caret, False)
        shown, at = told["shown"], told["caret"]
        check((region, text, caret), (shown[:at] + "|" + shown[at:], told["words"]), (wanted, words))
    for region, text, words in LEFT:
        told = client.typed(region, text, 1, False)
        check(text, (told["shown"], told["caret"], told["words"]), (None, 1, words))
    for region, text, shown, words in PASTED:
        told = client.typed(region, text, len(text), True)
        check(text, (told["shown"], told["words"]), (shown, words))
    for text in ("7" * 10_000, "+" * 10_000, "\u0663" * 10_000, "x" * 10_000, "(" * 10_000):
        start = time.monotonic()
        client.typed("NZ", text, 5_000, False)
        check(("seconds", text[:3]), time.monotonic() - start < 3, True)


def sending(client):
    for region, text, parts in SENT:
        body = urlencode({"region": region, "number": text})
        status, headers, page = client.ask("POST", "/", body, {"Content-Type": "application/x-www-form-urlencoded"})
        check((region, text), (status, [it for it in parts if it not in page.decode()]), (200, []))
        check((region, text), page.count(b"<script>"), 1)
    for body in BAD:
        check(body[:50], client.ask("POST", "/typed", body)[0], 400)
    check("bytes", client.ask("POST", "/", b"number=\xff")[0], 400)
    check("no such page", (client.ask("GET", "/x")[0], client.ask("POST", "/x", "1")[0]), (404, 404))
    check("too long", client.ask("POST", "/typed", b"", {"Content-Length": str(MOST_BYTES + 1)})[0], 413)
    check("no length", client.ask("POST", "/typed", None, {"Content-Length": "x"})[0], 411)


def page(client):
    for languages, region in LANGUAGES:
        check(languages, region_of(languages), region)
        status, headers, text = client.ask("GET", "/", None, {"Accept-Language": languages})
        check(languages, (status, f'value="{region}" selected>' in text.decode()), (200, region is not None))
    check("policy", "default-src 'none'" in headers["Content-Security-Policy"], True)
    check("kept nowhere", headers["Cache-Control"], "no-store")


def main():
    server = FormServer(("127.0.0.1", 0), Backend)
    threading.Thread(target=server.serve_forever, daemon=True).start()
    try:
        for case in (typing, sending, page):
            case(Client(server.server_address[1]))
    finally:
        server.shutdown()
        server.server_close()
    print(f"form: {len(failed)} failed" if failed else "form: ok")
    return 1 if failed else 0


if __name__ == "__main__":
    sys.exit(main())
