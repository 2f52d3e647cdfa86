"""Tries the page in Chromium or Firefox, from a folder that has the package alone, by file://.

usage: python3 bindings/js/browser.py PACKAGE [--firefox] [--pictures FOLDER] [--rows N] [LINES REPORT [LINES REPORT_BY_CRATE]]

Types into the field, edits, pastes, sends the form, by the keyboard too, cleans a table of 100,000 rows, or N, and asks the report of LINES,
each a region, `-` for none, a tab and a text. FOLDER gets pictures. In Chromium the page's accessibility tree is compared, the contrast of
its colours, light and dark, is measured, the time of each key, from its event to the frame that shows it, is told by Chromium's own
trace, and the page says in words that it can't run where there is no WebAssembly. Needs chromium and chromedriver, or with --firefox
firefox-esr. The last line is `page: ok`.
"""

import shutil
import sys
import tempfile
import time
from pathlib import Path

sys.path.insert(0, str(Path(__file__).resolve().parents[1]))

import chromium  # noqa: E402
import firefox  # noqa: E402

LEFT, BACK, TAB, ENTER = "\ue012", "\ue003", "\ue004", "\ue007"
FIELD = "const it = document.querySelector('phone-input'), field = it.shadowRoot.querySelector('input');"
failed = []


def check(case, told, wanted):
    print(f"{'  ' if told == wanted else 'NO'} {case}: {told!r}" + ("" if told == wanted else f", not {wanted!r}"))
    if told != wanted:
        failed.append(case)


def state(browser):
    """What stands in the field, with `|` where the caret is; the words beside it; the region."""
    value, place, words, region = browser.run(FIELD + " return [field.value, field.selectionStart, it.shadowRoot.querySelector('p').textContent, it.region]")
    return value[:place] + "|" + value[place:], words, region


def keys(browser, text):
    browser.run(FIELD + " field.focus()")
    browser.type(text)


def clear(browser, region="NZ"):
    browser.run(FIELD + " it.value = ''; it.region = arguments[0]; field.focus()", region)


def field(browser):
    check("the browser's region", state(browser), ("|", "", "NZ"))
    example = browser.run(FIELD + " return field.placeholder")
    check("an example", example.startswith("0"), True)
    keys(browser, "033316005")
    check("typed", state(browser), ("03 331 6005|", "+64 3 331 6005", "NZ"))
    keys(browser, LEFT * 5 + BACK)
    check("a key in the middle is taken away", state(browser)[0].replace("|", ""), "03 336 005")
    keys(browser, "1")
    check("and typed again", state(browser), ("03 331| 6005", "+64 3 331 6005", "NZ"))
    clear(browser)
    keys(browser, "+16502530000")
    check("another country", state(browser), ("+1 650-253-0000|", "+1 650-253-0000", "US"))
    clear(browser)
    keys(browser, "0333")
    check("no words while it is typed", state(browser)[1], "")
    browser.run("document.activeElement.blur(); document.querySelector('phone-input').shadowRoot.activeElement?.blur()")
    check("words once it is left", state(browser)[1], "The number is too short.")
    check("not sent", browser.run("return [document.querySelector('form').checkValidity(), document.querySelector('phone-input').validationMessage]"),
          [False, "The number is too short."])
    clear(browser)
    check("wanted", browser.run("return document.querySelector('form').checkValidity()"), False)
    keys(browser, "call me 03-331 6005")
    check("letters stay as they are typed", state(browser)[0], "call me 03-331 6005|")
    clear(browser)
    browser.run(FIELD + " field.value = '(03) 331 6005 ext. 12'; field.dispatchEvent(new InputEvent('input', { inputType: 'insertFromPaste' }))")
    check("pasted", state(browser)[1], "+64 3 331 6005 ext. 12")
    clear(browser)
    keys(browser, "033316005")
    browser.click("button")
    check("sent", browser.run("return document.getElementById('sent').textContent"), "phone=+6433316005")
    roles = browser.run(FIELD + " const hint = it.shadowRoot.querySelector('p'); return [field.getAttribute('aria-label'), field.type, hint.getAttribute('aria-live'), "
                        "it.shadowRoot.querySelector('select').getAttribute('aria-label'), it.form.id, it.shadowRoot.querySelectorAll('option').length]")
    check("for a screen reader", roles, ["Phone number", "tel", "polite", "Country", "form", 246])


def at_work(browser):
    """What has the focus: an element of the page, of the field's own those in small letters."""
    return browser.run(FIELD + " return it.shadowRoot.activeElement?.localName ?? document.activeElement.tagName")


def keyboard(browser):
    """Without a mouse: the order of the focus, and the key Enter. A form that lacks something says what, and has the focus there."""
    clear(browser)
    browser.run(FIELD + " field.blur()")
    browser.click("h1")
    order = []
    for _ in range(3):
        browser.type(TAB)
        order.append(at_work(browser))
    check("the order of the focus", order, ["select", "input", "BUTTON"])
    browser.run("document.activeElement.blur()")
    browser.click("form label")
    check("a click on the label", at_work(browser), "input")
    browser.run("document.activeElement.blur(); document.getElementById('sent').textContent = ''")
    browser.click("form button")
    time.sleep(0.3)
    check("nothing is typed", (at_work(browser), state(browser)[1]), ("input", "Please fill in a phone number."))
    browser.type("033")
    check("no words once one types", state(browser)[1], "")
    browser.type(ENTER)
    time.sleep(0.3)
    check("Enter at a short number", (at_work(browser), state(browser)[1]), ("input", "The number is too short."))
    browser.type("316005" + ENTER)
    check("Enter", browser.run("return document.getElementById('sent').textContent"), "phone=+6433316005")


def tree(browser):
    """What a screen reader is told of the form: role, name, value, description, and what else counts."""
    told = {}
    for node in browser.command("Accessibility.getFullAXTree")["nodes"]:
        if not node.get("ignored"):
            more = {it["name"]: it["value"].get("value") for it in node.get("properties", [])}
            role, name, value, words = (node.get(it, {}).get("value") or "" for it in ("role", "name", "value", "description"))
            told.setdefault(role, []).append((name, value, words, more.get("required", False), more.get("invalid", "false"), more.get("live", "")))
    return told


def accessible(browser):
    """The accessibility tree, with a number that is too short, and then with one that is valid."""
    clear(browser)
    browser.type("033" + ENTER)
    time.sleep(0.3)
    told = tree(browser)
    check("the field", told["textbox"], [("Phone number", "033", "The number is too short.", True, "true", "")])
    check("the countries", told["combobox"], [("Country", "New Zealand +64", "", False, "false", "")])
    check("the button of the form, and of the file", [it[0] for it in told["button"]], ["Save", "Choose a CSV file"])
    check("live regions", {it[5] for it in told["status"]}, {"polite"})
    check("parts of the page", (len(told["main"]), [it[0] for it in told["heading"]]), (1, ["Phone numbers", "Clean a file"]))
    browser.type("316005")
    check("once it is valid", tree(browser)["textbox"], [("Phone number", "03 331 6005", "+64 3 331 6005", True, "false", "")])


CONTRAST = FIELD + """
    const canvas = document.createElement("canvas").getContext("2d", { willReadFrequently: true });
    const rgb = (color) => (canvas.fillStyle = color, canvas.fillRect(0, 0, 1, 1), [...canvas.getImageData(0, 0, 1, 1).data]);
    const linear = (c) => c <= 0.04045 ? c / 12.92 : ((c + 0.055) / 1.055) ** 2.4;
    const light = (color) => rgb(color).slice(0, 3).reduce((sum, c, i) => sum + linear(c / 255) * [0.2126, 0.7152, 0.0722][i], 0.05);
    const ratio = (a, b) => Math.max(light(a), light(b)) / Math.min(light(a), light(b));
    const [box, hint] = ["div", "p"].map((it_) => it.shadowRoot.querySelector(it_)), was = hint.className;
    const probe = document.body.appendChild(document.createElement("i"));
    probe.style.background = "Canvas";
    const page = getComputedStyle(probe).backgroundColor, within = getComputedStyle(box).backgroundColor, color = (it_, part) => getComputedStyle(it_, part).color;
    probe.remove();
    hint.className = "";
    const words = color(hint);
    hint.className = "wrong";
    const texts = [ratio(color(field), within), ratio(color(field, "::placeholder"), within), ratio(words, page), ratio(color(hint), page)];
    hint.className = was;
    return [Math.min(...texts), Math.min(ratio(getComputedStyle(box).borderTopColor, page), ratio(getComputedStyle(box).outlineColor, page))];
"""


def contrast(browser):
    """The least contrast of the field's texts, and that of its border and of its mark of the focus, in both schemes of colours."""
    for scheme in ("light", "dark"):
        browser.command("Emulation.setEmulatedMedia", features=[{"name": "prefers-color-scheme", "value": scheme}])
        clear(browser)
        texts, marks = browser.run(CONTRAST)
        check(f"{scheme}: texts by 4.5 to 1, border and focus by 3 to 1", (texts >= 4.5, marks >= 3), (True, True))
        print(f"   {texts:.1f}, {marks:.1f}")
    browser.command("Emulation.setEmulatedMedia", features=[])


def frames(browser):
    """The time of keys: of the processor in the page, and from the key's event to the end of the frame that shows it, by Chromium's trace."""
    clear(browser)
    texts = ("033316005", "021387835", "0800123456")
    for text in texts:
        for key in text:
            keys(browser, key)
        time.sleep(0.3)
        clear(browser)
    time.sleep(0.5)
    events = sorted((it for it in browser.trace() if it.get("ph") == "X" or it["name"] in ("Commit", "DrawFrame")), key=lambda it: it["ts"])
    typed = [it for it in events if it["name"] == "EventDispatch" and it["args"]["data"]["type"] in ("keydown", "input")]
    if not typed:
        return check("the trace has keys", 0, sum(map(len, texts)))
    thread = typed[0]["tid"]
    used, shown = [], []
    # The trace is of all that was typed: these keys are its last ones.
    downs = [it for it in typed if it["args"]["data"]["type"] == "keydown"][-sum(map(len, texts)):]
    for down in downs:
        after = [it for it in events if it["tid"] == thread and it["ts"] >= down["ts"]]
        frame = next((it for it in after if it["name"] in ("Commit", "Paint", "Layerize")), None)
        if frame is None:
            continue
        end = frame["ts"] + frame.get("dur", 0)
        shown.append((end - down["ts"]) / 1000)
        work = ("EventDispatch", "UpdateLayoutTree", "Layout", "PrePaint", "Paint", "Layerize", "Commit")
        used.append(sum(it.get("tdur", it.get("dur", 0)) for it in after if it["ts"] < end and it["name"] in work) / 1000)
    used.sort(), shown.sort()
    check("keys in the trace", len(used), sum(map(len, texts)))
    print(f"   a key: {used[len(used) // 2]:.1f} ms of the processor in the middle, {used[-1]:.1f} at most; to its frame {shown[len(shown) // 2]:.1f} and {shown[-1]:.1f} ms")
    check("each key within a frame of a sixtieth of a second", used[-1] < 16.7, True)


def table(browser, folder, rows):
    """A table is cleaned in a worker; the page answers meanwhile."""
    texts = ("03-331 6005", "+1 650 253 0000", "call me", "030 123456", "")
    path = folder / "customers.csv"
    lines = "".join(f'{i},"{texts[i % 5]}",{("NZ", "US", "NZ", "DE", "NZ")[i % 5]}\n' for i in range(rows))
    path.write_text("name,phone,country\n" + lines, encoding="utf-8")
    browser.keys(str(path), "#file")
    began, slowest = time.monotonic(), 0.0
    while not browser.run("return document.querySelector('#result a')") and time.monotonic() - began < 120:
        asked = time.monotonic()
        browser.run("return 1")
        slowest = max(slowest, time.monotonic() - asked)
        time.sleep(0.05)
    told = browser.run("return [...document.querySelectorAll('#result tr')].map((it) => [...it.cells].map((cell) => cell.textContent))")
    fifth = str(rows // 5)
    check("counts", dict(told), {"records": str(rows), "valid": str(3 * rows // 5), "invalid": "0", "no number": str(2 * rows // 5),
                                 "valid fixed line": str(2 * rows // 5), "valid fixed line or mobile": fifth})
    text = browser.run_async("const done = arguments[0]; fetch(document.querySelector('#result a').href).then((it) => it.text()).then(done)")
    check("rows", text.splitlines()[:2] + text.splitlines()[3:4], [
        "name,phone,country,e164,type,country,validity,refusal", "0,03-331 6005,NZ,+6433316005,FIXED_LINE,NZ,valid,", "2,call me,NZ,,,,,NOT_A_NUMBER"])
    print(f"   {rows} rows: {browser.run('return document.getElementById(`result`).firstChild.textContent')}; the page answers within {slowest:.2f} s")


def unsupported(address, pictures):
    """A browser that can't run the library says so, in words. Without machine code, as here, V8 has no WebAssembly."""
    browser = chromium.Browser("en-NZ", "480,900", flags=["--js-flags=--jitless"])
    try:
        browser.go(address)
        for _ in range(200):
            told = browser.run("return document.getElementById('sent').textContent")
            if told:
                break
            time.sleep(0.05)
        check("a browser without WebAssembly", told, "phonenumber-proved needs WebAssembly with instructions on 128 bits, BigInt and DecompressionStream: "
              "Node 18, or a browser of 2023 or later")
        if pictures:
            browser.picture(pictures / "unsupported.png")
    finally:
        browser.close()


def lines(browser, given, answers, rules):
    """The report of lines, which differs nowhere."""
    script = """const [lines, answers, rules, done] = arguments;
        phonenumberProved().load({ rules }).then((phones) => {
            const began = performance.now();
            const differ = lines.filter((line, i) => {
                const at = line.indexOf("\\t"), region = line.slice(0, at);
                return phones.report(line.slice(at + 1), region === "-" ? "" : region) !== answers[i];
            });
            done([differ.length, (performance.now() - began) / lines.length * 1000]);
        });"""
    read = [Path(it).read_text(encoding="utf-8").split("\n")[:-1] for it in (given, answers)]
    differ, each = browser.run_async(script, *read, rules)
    check(f"{len(read[0])} lines, {rules}", differ, 0)
    print(f"   {each:.1f} us a line")


def main():
    words, pictures, in_firefox, rows = sys.argv[1:], None, False, 100000
    if "--firefox" in words:
        in_firefox = True
        words.remove("--firefox")
    if "--rows" in words:
        at = words.index("--rows")
        rows = int(words[at + 1])
        del words[at : at + 2]
    if "--pictures" in words:
        at = words.index("--pictures")
        pictures = Path(words[at + 1])
        pictures.mkdir(parents=True, exist_ok=True)
        del words[at : at + 2]
    if len(words) not in (1, 3, 5) or words[0].startswith("-"):
        sys.exit(__doc__)
    with tempfile.TemporaryDirectory() as name:
        folder = Path(name)
        for it in ("demo.html", "demo.js", "phonenumber-proved.global.js"):
            shutil.copy(Path(words[0]) / it, folder)
        own = firefox if in_firefox else chromium
        more = {} if in_firefox else {"traced": "devtools.timeline,disabled-by-default-devtools.timeline"}
        browser = own.Browser("en-NZ", "480,900", **more)
        try:
            browser.go(f"file://{folder}/demo.html")
            for _ in range(400):
                if browser.run("return document.body.dataset.ready"):
                    break
                time.sleep(0.05)
            opened = browser.run_async("const done = arguments[0], began = performance.now(); phonenumberProved().load().then(() => done(performance.now() - began))")
            print(f"   open: {opened:.0f} ms")
            field(browser)
            if pictures:
                browser.picture(pictures / "form.png")
            keyboard(browser)
            if not in_firefox:
                accessible(browser)
                contrast(browser)
                frames(browser)
            table(browser, folder, rows)
            if pictures:
                browser.picture(pictures / "table.png")
            if pictures and not in_firefox:
                browser.command("Emulation.setEmulatedMedia", features=[{"name": "prefers-color-scheme", "value": "dark"}])
                browser.command("Emulation.setDeviceMetricsOverride", width=360, height=740, deviceScaleFactor=2, mobile=True)
                browser.picture(pictures / "phone-dark.png")
            for rules, given in zip(("library", "crate"), (words[1:3], words[3:5])):
                if given:
                    lines(browser, *given, rules)
            check("the console", [it for it in browser.log() if "favicon" not in it], [])
        finally:
            browser.close()
        if not in_firefox:
            unsupported(f"file://{folder}/demo.html", pictures)
    print(f"page: {len(failed)} failed" if failed else "page: ok")
    return 1 if failed else 0


if __name__ == "__main__":
    sys.exit(main())
