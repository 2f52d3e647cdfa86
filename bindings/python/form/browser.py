"""Tries the form in Chromium: python3 bindings/python/form/browser.py [FOLDER].

Needs chromium and chromedriver. It serves the form, types, deletes, pastes and sends as a person does,
and compares what stands in the field, and where the caret is. FOLDER gets pictures of the page. The
last line is `form: ok`.
"""

import sys
import threading
import time
from pathlib import Path
from random import Random

sys.path[:0] = [str(Path(__file__).resolve().parents[1]), str(Path(__file__).resolve().parents[2])]

from chromium import Browser  # noqa: E402
from form.backend import Backend  # noqa: E402
from form.server import FormServer  # noqa: E402

LEFT, DELETE, BACK, CONTROL = "\ue012", "\ue017", "\ue003", "\ue009"
SHORT = "the number is too short, or no such number is given out"
failed = []


def check(case, told, wanted):
    print(f"{'  ' if told == wanted else 'NO'} {case}: {told!r}" + ("" if told == wanted else f", not {wanted!r}"))
    if told != wanted:
        failed.append(case)


def state(browser):
    """What stands in the field, with `|` where the caret is, once no question is under way."""
    for _ in range(400):
        if not browser.run("return isAsking || isStale"):
            break
        time.sleep(0.01)
    value, place = browser.run("return [field.value, field.selectionStart]")
    return value[:place] + "|" + value[place:]


def words(browser):
    state(browser)
    return browser.run("return words.textContent")


def paste(browser, text):
    """Pastes a text over what stands in the field, as by the keyboard."""
    browser.run("return navigator.clipboard.writeText(arguments[0])", text)
    browser.keys(f"{CONTROL}a{CONTROL}{CONTROL}v{CONTROL}")


def typing(browser, address):
    browser.go(address)
    check("region by the language", browser.run("return region.value"), "NZ")
    check("regions by their names", browser.run("return region.selectedOptions[0].textContent"), "\U0001f1f3\U0001f1ff New Zealand +64")
    check("an example", browser.run("return field.placeholder.startsWith('02')"), True)
    for key, shown in (("0", "0|"), ("3", "03|"), ("3", "033|"), ("3", "03 33|"), ("1", "03 331|"), ("6", "03 331 6|")):
        browser.keys(key)
        check("typed " + key, state(browser), shown)
    check("words", words(browser), SHORT)
    browser.keys("005")
    check("typed at once", (state(browser), words(browser)), ("03 331 6005|", ""))
    browser.keys("9")
    check("too long", words(browser), "the number is too long: +64 3 331 6005 is one")
    browser.keys(BACK)
    check("back", state(browser), "03 331 6005|")


def deleting(browser):
    browser.keys(LEFT * 4)
    check("caret left", state(browser), "03 331 |6005")
    browser.keys(BACK)
    check("back over a mark", state(browser), "03 33|6 005")
    browser.keys("1")
    check("typed in the middle", state(browser), "03 331| 6005")
    browser.keys(DELETE)
    check("delete over a mark", state(browser), "03 331| 005")
    browser.keys("6")
    check("typed in the middle", state(browser), "03 331 6|005")
    browser.keys(LEFT * 20 + "+64")
    check("plus sign in front", state(browser), "+64| 033316005")


def choosing(browser, address):
    browser.go(address)
    browser.run("field.focus(); region.value = 'US'")
    browser.keys("6502530000")
    check("typed", state(browser), "(650) 253-0000|")
    browser.run("field.setSelectionRange(1, 8)")
    browser.keys("9")
    check("a key over a selection", state(browser), "9|30-000")
    browser.run("region.value = 'NZ'; region.dispatchEvent(new Event('change'))")
    check("another region", (state(browser), words(browser)), ("9|30000", SHORT))
    browser.keys(CONTROL + "a" + CONTROL + BACK)
    check("all deleted", (state(browser), words(browser)), ("|", ""))
    browser.keys("033316005")
    state(browser)
    browser.keys(" ")
    state(browser)
    browser.keys("ext. 7")
    check("an extension is left as it is", (state(browser), words(browser)), ("03 331 6005 ext. 7|", ""))


def digits(text):
    return "".join(c for c in text if c.isdigit())


def edit(browser, random, keys, at):
    """One change at a place, as of the keys and of the caret among them."""
    change = random.choice(["digit", "digit", "digit", "digit", "back", "delete", "move"])
    if change == "digit" and len(keys) < 13:
        key = random.choice("0123456789")
        browser.keys(key)
        return keys[:at] + key + keys[at:], at + 1
    if change == "back":
        browser.keys(BACK)
        return keys[: max(at - 1, 0)] + keys[at:], max(at - 1, 0)
    if change == "delete":
        browser.keys(DELETE)
        return keys[:at] + keys[at + 1 :], at
    text = browser.run("return field.value")
    place = random.randrange(len(text) + 1)
    browser.run("field.setSelectionRange(arguments[0], arguments[0])", place)
    return keys, len(digits(text[:place]))


def editing(browser, address):
    """Changes at random places: the keys are those that were typed, and the caret is where it was among them."""
    random = Random(12)
    for region in ("US", "NZ", "DE", "BR", "HU"):
        browser.go(address)
        browser.run("region.value = arguments[0]", region)
        keys, at, wrong = "", 0, 0
        for _ in range(80):
            keys, at = edit(browser, random, keys, at)
            front, back = state(browser).split("|")
            wrong += (digits(front), digits(back)) != (keys[:at], keys[at:])
        check(f"80 changes under {region}, wrong", wrong, 0)


class SlowBackend(Backend):
    """A backend that answers after a while."""

    def typed(self, region, text, caret):
        time.sleep(0.15)
        return super().typed(region, text, caret)


def slowly(browser):
    """Keys that come faster than answers: none is lost, and the last answer is shown."""
    server = serve(SlowBackend)
    browser.go("http://127.0.0.1:%d/" % server.server_address[1])
    for key in "033316005":
        browser.keys(key)
    check("faster than the server", state(browser), "03 331 6005|")
    browser.keys(LEFT * 3 + BACK + "1" + LEFT)
    check("and in the middle", state(browser), "03 331 |1005")
    server.shutdown()
    server.server_close()


def pasting(browser, address):
    browser.go(address)
    browser.command("Browser.grantPermissions", permissions=["clipboardReadWrite", "clipboardSanitizedWrite"])
    browser.run("region.value = 'US'")
    for text, shown, told in PASTED:
        paste(browser, text)
        check("pasted " + ascii(text), (state(browser), words(browser)), (shown + "|", told))


# Pasted under US, what is shown, what is lacking.
PASTED = [
    ("+49 (0)176 12345678", "+49 176 12345678", ""),
    (" (650) 253-0000 ", "(650) 253-0000", ""),
    ("650.253.0000 ext. 12", "(650) 253-0000 ext. 12", ""),
    ("tel:+64-3-331-6005;ext=7", "+64 3 331 6005 ext. 7", ""),
    ("call me", "call me", "not a number"),
    ("\uff16\u0665\u0660", "650", SHORT),
    ("<img src=x onerror=alert(1)>", "<img src=x onerror=alert(1)>", "not a number"),
    ("+1 650 253 0000 99", "+1 650253000099", "the number is too long: +1 650-253-0000 is one"),
]


def serve(make_backend):
    server = FormServer(("127.0.0.1", 0), make_backend)
    threading.Thread(target=server.serve_forever, daemon=True).start()
    return server


def main(args):
    folder = Path(args[0]) if args else None
    server = serve(Backend)
    address = "http://127.0.0.1:%d/" % server.server_address[1]
    browser = Browser("en-NZ")
    try:
        typing(browser, address)
        if folder:
            browser.picture(folder / "typed.png")
        deleting(browser)
        choosing(browser, address)
        editing(browser, address)
        pasting(browser, address)
        slowly(browser)
        for check_more in (accessible, long_texts, sending):
            check_more(browser, address, folder)
        check("console", browser.log(), [])
    finally:
        browser.close()
        server.shutdown()
        server.server_close()
    print(f"form: {len(failed)} failed" if failed else "form: ok")
    return 1 if failed else 0


def long_texts(browser, address, folder):
    for text in ("7" * 10_000, "+" * 10_000, "\u0663" * 10_000, "<b>" * 3_334, "\U0001d7dd" * 5_000):
        browser.go(address)
        browser.run("field.focus()")
        start = time.monotonic()
        browser.command("Input.insertText", text=text)
        shown = state(browser)
        took = time.monotonic() - start
        check(f"10,000 characters {ascii(text[:3])}, under 3 s", took < 3, True)
        print(f"   {took:.2f} s, {len(shown)} characters are shown, {words(browser)}")
        browser.send()
        check("sent", browser.run("return document.querySelectorAll('b, #sent').length"), 0)
    if folder:
        browser.picture(folder / "long.png")


def accessible(browser, address, folder):
    """What a screen reader is told of the page, and the page in dark colours."""
    browser.go(address)
    browser.keys("0333")
    state(browser)
    told = {}
    for node in browser.command("Accessibility.getFullAXTree")["nodes"]:
        if not node.get("ignored"):
            more = {it["name"]: it["value"].get("value") for it in node.get("properties", [])}
            name, words = (node.get(it, {}).get("value") or "" for it in ("name", "description"))
            told.setdefault(node["role"]["value"], []).append((name, words, more.get("invalid"), more.get("live")))
    check("the field", told["textbox"], [("Number", SHORT, "true", None)])
    check("the regions", [it[0] for it in told["combobox"]], ["Region"])
    check("the live region", [it[3] for it in told["status"]], ["polite"])
    check("the button", [it[0] for it in told["button"]], ["Send"])
    if folder:
        browser.command("Emulation.setEmulatedMedia", features=[{"name": "prefers-color-scheme", "value": "dark"}])
        browser.picture(folder / "dark.png")
        browser.command("Emulation.setEmulatedMedia", features=[])


def sending(browser, address, folder):
    browser.go(address)
    browser.keys("033316005")
    state(browser)
    browser.send()
    told = "return [...document.querySelectorAll('#sent dd')].map((it) => it.textContent)"
    check("sent", browser.run(told), ["+6433316005", "+64 3 331 6005", "fixed line", "NZ"])
    check("the field stays", browser.run("return [field.value, region.value]"), ["03 331 6005", "NZ"])
    if folder:
        browser.picture(folder / "sent.png")
    browser.run("field.value = '\"><script>alert(1)</script>&lt;'")
    browser.send()
    check("escaped", browser.run("return [field.value, words.textContent]"), ['"><script>alert(1)</script>&lt;', "not a number"])
    if folder:
        browser.picture(folder / "refused.png")


if __name__ == "__main__":
    sys.exit(main(sys.argv[1:]))
