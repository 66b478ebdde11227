#!/usr/bin/python3
"""Walks through the page of deploy/page in Chromium, with the working day of ./demo and a unit of 5,000 valves behind Caddy.

- each view is compared with what `ldar show` prints, at 1280 and at 800 pixels; filters, routes, halves, and a CSV that is downloaded
- batches: a receipt, the same again, a denial with its fact, a conflict, files that are no batch, a file name with HTML in it
- an empty list, no such unit or day, disk and memory errors, answers cut short, a name with `<`, an office that is down and comes back
- the keyboard alone; the names of fields, tables and links; the report on one page of paper, and a long list on many
- no view is wider than the window, and the console has only the complaints that are meant: failed requests, a day that is none

usage: bench/page.py [SHOTS]      SHOTS: the folder for screenshots (else a temporary one; its name is printed)
It needs Debian's caddy, chromium, chromium-driver and python3-selenium."""
import base64
import csv
import http.server
import json
import os
import re
import sys
import tempfile
import threading
import time
import traceback

import desk_kit as kit
from cases import case, ended
from desk_kit import DAY, Front, Office, batches, dock, shown
from selenium import webdriver
from selenium.common.exceptions import WebDriverException
from selenium.webdriver.chrome.service import Service
from selenium.webdriver.common.by import By
from selenium.webdriver.common.keys import Keys
from selenium.webdriver.support.ui import Select, WebDriverWait


# ---- the browser

class Page:
    """The page in a browser, at the address of a front."""

    def __init__(self, front, folder, shots):
        self.front, self.shots, self.downloads = front, shots, f"{folder}/downloads"
        options = webdriver.ChromeOptions()
        options.binary_location = "/usr/bin/chromium"
        # (the certificate is of Caddy's own authority; and root has no sandbox)
        for word in ("--headless=new", "--ignore-certificate-errors", "--disable-dev-shm-usage", "--no-sandbox", "--disable-gpu"):
            options.add_argument(word)
        options.add_experimental_option("prefs", {"download.default_directory": self.downloads})
        options.set_capability("goog:loggingPrefs", {"browser": "ALL"})
        self.browser = webdriver.Chrome(service=Service("/usr/bin/chromedriver"), options=options)
        # The browser keeps the password from here on.
        self.browser.get(f"https://{kit.USER}:{kit.PASSWORD.replace(' ', '%20')}@localhost:{front.port}/#help")
        self.wait(lambda: self.state() == "")

    def wait(self, test, seconds=240):
        return WebDriverWait(self.browser, seconds, poll_frequency=0.05).until(lambda _: test())

    def one(self, selector):
        return self.browser.find_element(By.CSS_SELECTOR, selector)

    def all(self, selector):
        return self.browser.find_elements(By.CSS_SELECTOR, selector)

    def texts(self, selector):
        """The texts of elements, as they are in the document."""
        return self.browser.execute_script("return [...document.querySelectorAll(arguments[0])].map((it) => it.textContent.trim())", selector)

    def cells(self, selector="#shown table"):
        """The cells of a table's body, row by row."""
        script = "return [...document.querySelector(arguments[0]).tBodies[0].rows].map((row) => [...row.cells].map((it) => it.textContent.trim()))"
        return self.browser.execute_script(script, selector)

    def state(self):
        return self.one("#state").text

    def settled(self):
        self.wait(lambda: self.state() != "Reading ..." and self.browser.execute_script("return document.querySelector('#shown').children.length"))

    def show(self, *words):
        """Goes to a view by its address."""
        before = self.browser.current_url
        self.browser.get(f"https://localhost:{self.front.port}/#" + "/".join(map(str, words)))
        if self.browser.current_url == before:
            self.browser.refresh()
        time.sleep(0.1)
        self.settled()

    def note(self):
        return self.one("#shown .note").text.split("\n")[0]

    def shot(self, name):
        """Keeps a screenshot at each width, and says which widths are too small for the view."""
        narrow = []
        for wide in (1280, 800):
            self.browser.set_window_size(wide, 1000)
            time.sleep(0.2)
            self.browser.save_screenshot(f"{self.shots}/{name}-{wide}.png")
            script = ("return document.documentElement.scrollWidth > document.documentElement.clientWidth"
                      " || [...document.querySelectorAll('.sheet')].some((it) => it.scrollWidth > it.clientWidth + 1)")
            if self.browser.execute_script(script):
                narrow.append(wide)
        self.browser.set_window_size(1280, 1000)
        case(f"{name} fits its widths, too narrow", narrow, [])

    def download(self, name, button=0):
        """What is in a file that is downloaded, by rows."""
        path = f"{self.downloads}/{name}"
        self.all("#shown button.push")[button].click()
        self.wait(lambda: os.path.exists(path))
        with open(path, newline="", encoding="utf-8") as it:
            return list(csv.reader(it))

    def printed(self, name):
        """The number of pages on paper."""
        # (the driver's own command for it gives up after 10 seconds)
        pdf = base64.b64decode(self.browser.execute_cdp_cmd("Page.printToPDF", {})["data"])
        with open(f"{self.shots}/{name}.pdf", "wb") as it:
            it.write(pdf)
        return len(re.findall(rb"/Type\s*/Page\b", pdf))

    def complaints(self):
        """What the console has besides requests that failed."""
        meant = ("Failed to load resource", "The specified value")
        return [it["message"] for it in self.browser.get_log("browser") if not any(word in it["message"] for word in meant)]


# ---- what is behind it

def four_years(journal):
    """Unit 4 since 2020-01-15: 50 valves with leaks, repairs and delays, and with quarters that are good and that are skipped."""
    two = lambda number: number.to_bytes(2, "big")
    dock(journal, batches(0, [kit.unit_fact(4, 18_276, "ALKY"), *(kit.valve_fact(20_000 + it, 4, 18_276) for it in range(50)),
                              b"\5" + two(18_628) + two(0) + bytes([4, 1]) + two(18_500)], first=200))
    facts = []
    for month in range(48):
        day = 18_276 + 30 + month * 30
        facts += [b"\10" + two(day) + two(1) + two(9) + b"".join(n.to_bytes(4, "big") for n in (500, 500, 500, 500)),
                  b"\7" + two(day) + two(2) + two(9) + (500).to_bytes(4, "big")]
        for it in range(50):
            leaks = (it + 7 * month) % 19 == 0 and (month < 20 or month in (33, 46, 47))
            facts.append(b"\12" + two(day) + two(60 + it) + two(20_000 + it) + two(9) + two(3) + b"\1"
                         + (900 if leaks else 20).to_bytes(4, "big") + bytes(4))
            if leaks and month < 46:
                facts += [b"\14" + two(day + 2) + two(300) + two(20_000 + it) + b"\1", b"\7" + two(day + 3) + two(2) + two(9) + (500).to_bytes(4, "big"),
                          b"\12" + two(day + 3) + two(600) + two(20_000 + it) + two(9) + two(3) + b"\2" + (20).to_bytes(4, "big") + bytes(4)]
            elif leaks and it % 2:
                facts.append(b"\15" + two(day + 3) + two(600) + two(20_000 + it) + b"\1" + two(9) + two(day + 90))
    dock(journal, batches(9, facts))


class Faulty(http.server.BaseHTTPRequestHandler):
    """An office whose answers are those of errors, by the unit that is asked for."""

    protocol_version = "HTTP/1.1"

    def log_message(self, *_):
        pass

    def do_GET(self):
        unit = self.path.split("/")[2]
        status, text = {
            "51": (503, "disk fault\n"), "52": (507, "memory\n"), "53": (200, "due 53 2024-02-21\n1 monthly 2024-02-29 open\n"),
            "54": (200, "<h1>Sign in to the guest network</h1>\n"), "56": (200, "due 56 2024-02-21\nend 0\n"),
        }.get(unit, (200, "due 55 2024-02-21\n<b>1</b> <img/src=x/onerror=alert(1)> 2024-02-29 open\nend 1\n"))
        if self.path.startswith("/report") and status == 200:
            months = "".join(f"2024-0{it} valves 0 0 pumps 0 0 compressors 0 0\n" for it in range(3, 9))
            text = f"report <b>NAME unit {unit} half 1 as of 2024-02-21\n{months}end 6\n"
        self.send_response(status)
        self.send_header("Content-Type", "text/plain")
        self.send_header("Content-Length", str(len(text)))
        self.end_headers()
        self.wfile.write(text.encode())

    def do_POST(self):
        self.rfile.read(int(self.headers["Content-Length"]))
        self.send_response(503)
        self.send_header("Content-Length", "11")
        self.end_headers()
        self.wfile.write(b"disk fault\n")


def same(name, got, wanted):
    """A case whose lists are shown only if they differ."""
    if got == wanted:
        case(name, f"the same {len(got)}", f"the same {len(wanted)}")
    else:
        case(name, got, wanted)


# ---- the walk

def lines(journal, *words):
    """The lines of a view between its first and its last, as words."""
    return [it.split() for it in shown(journal, *words).splitlines()[1:-1]]


def due(page, journal):
    wanted = lines(journal, "due", 1, DAY)
    page.show("due", 1, DAY)
    case("due: lines", page.state(), "1,200 lines")
    # (a unit's name is in its reports, of which this one has none before April)
    case("due: what it is about", page.one("#about").text, f"Unit 1, as of {DAY}")
    case("due: counts", page.texts(".cards b"), ["0", "0", "0", "1,200"])
    page.shot("due")
    rows = page.download(f"due-1-{DAY}.csv")
    same("due: the file is what the office shows", sorted(rows[1:]), sorted([c, cause, by, state, on] for c, cause, by, state, on in wanted))
    case("due: at first 250 rows", len(page.cells()), 250)
    case("due: its first row", page.cells()[0], ["1", "Monthly", "2024-02-29", "Done 2024-02-20"])
    page.one("button.more").click()
    case("due: and then 500", len(page.cells()), 500)
    page.one("#field-component").send_keys("407")
    case("due: one component", ([row[0] for row in page.cells()], page.state()), (["407"], "1 of 1,200 lines"))
    page.one("#field-component").clear()
    page.one("#field-component").send_keys("9")
    page.one("#field-component").send_keys(Keys.BACKSPACE)
    Select(page.one("#field-state")).select_by_value("missed")
    case("due: nothing matches", page.note(), "Nothing matches these filters.")
    # the long unit, two months later: what is missed comes first
    later = "2024-04-10"
    wanted = lines(journal, "due", 2, later)
    page.show("due", 2, later)
    case("due of 5,000 valves: lines", page.state(), f"{len(wanted):,} lines")
    missed = sum(it[3] == "missed" for it in wanted)
    case("due of 5,000 valves: missed", (page.texts(".cards b")[0], missed >= kit.LONG), (f"{missed:,}", True))
    case("due of 5,000 valves: what is missed is first", {it[3].split()[0] for it in page.cells()}, {"Missed"})
    page.shot("due-long")
    case("due of 5,000 valves: each line is in the file", len(page.download(f"due-2-{later}.csv")) - 1, len(wanted))
    cause = wanted[0][1]
    Select(page.one("#field-cause")).select_by_value(cause)
    case("due of 5,000 valves: by cause", page.state(), f"{sum(it[1] == cause for it in wanted):,} of {len(wanted):,} lines"
         if any(it[1] != cause for it in wanted) else f"{len(wanted):,} lines")
    page.show("due", 3, DAY)
    case("due of a unit without components", page.note(), "Nothing is due in this unit on this day.")


def tags(page, journal):
    page.show("tags", 4, DAY)
    page.wait(lambda: page.one("#about").text == f"Unit 4 ALKY, as of {DAY}")
    page.show("tags", 1, DAY)
    wanted = lines(journal, "tags", 1, DAY)
    case("tags: open ones", (page.texts(".cards b")[0], [it[0] for it in page.cells()]), ("3", [it[0] for it in wanted]))
    for day in (DAY, "2024-02-10"):
        page.show("tags", 4, day)
        wanted = {(it[0], it[2]): [it[0], it[2], it[4], it[5], it[7], it[8], it[9]] for it in lines(journal, "tags", 4, day)}
        for it in lines(journal, "delays", 4, day):
            wanted[it[0], it[2]] += [it[4], it[6], it[8], it[10]]
        rows = page.download(f"tags-4-{day}.csv")[1:]
        same(f"tags of {day}: the file has tags and delays", sorted(rows), sorted((it + [""] * 4)[:11] for it in wanted.values()))
        opened = [it[5] == "-" for it in rows]
        case(f"tags of {day}: open ones are first", opened, sorted(opened, reverse=True))
        days = [it[4] for it in rows if it[5] == "-" and it[4][0].isdigit()]
        case(f"tags of {day}: by the day of their repair", days, sorted(days))
    case("tags: some are delayed", int(page.texts(".cards b")[3]) > 0, True)
    page.shot("tags")


def routes(page, journal):
    page.show("route", 4, DAY)
    wanted = lines(journal, "route", 4, DAY, 25)
    rows = page.download(f"route-4-{DAY}.csv")[1:]
    same("routes: the file", rows, [[it[1][:-1], str(stop), c] for it in wanted for stop, c in enumerate(it[2:], 1)])
    same("routes: what is shown", page.texts(".routes li b"), [c for it in wanted for c in it[2:]])
    page.shot("routes")
    page.one("#field-stops-per-route").clear()
    page.one("#field-stops-per-route").send_keys("7" + Keys.TAB)
    page.wait(lambda: page.browser.current_url.endswith("/7"))
    page.settled()
    case("routes of 7 stops", len(page.all(".routes section")), len(lines(journal, "route", 4, DAY, 7)))
    page.printed("routes")
    page.show("route", 1, DAY)
    case("routes: nowhere to walk", page.note(), "Nothing is due in this unit on this day: there is nowhere to walk.")
    page.show("route", 1, DAY, 0)
    case("routes of no stops", page.note(), "A route has at least one stop, and at most 65,535.")


def quarters(page, journal):
    page.show("percent", 4, DAY)
    rows = page.download(f"percent-4-{DAY}.csv")[1:]
    case("percent: twelve quarters, up to the one of the day", [int(it[0]) for it in rows], list(range(16, 4, -1)))
    wanted = [shown(journal, "percent", 4, it[0], DAY).split() for it in rows]
    same("percent: the file", [[it[3], it[4], it[6], it[7]] for it in rows],
         [[it[4], it[6], "good" if it[7] == "good" else "not good", "not skipped" if it[-2] == "not" else "skipped"] for it in wanted])
    case("percent: the months of the last quarter", rows[0][1:3], ["2024-01", "2024-03"])
    case("percent: good, not good and skipped ones", (len({it[6] for it in rows}), len({it[7] for it in rows})), (2, 2))
    case("percent: bars", (len(page.all("svg rect.good")) + len(page.all("svg rect.bad")), len(page.all("svg .limit"))), (12, 1))
    case("percent: the picture has words", "Quarter 16: " in page.one("svg").get_attribute("aria-label"), True)
    page.shot("percent")
    page.show("percent", 1, DAY)
    case("percent before the first quarter", page.note(), "The unit's first reporting period has not begun on this day.")


def reports(page, journal):
    page.show("report", 4, DAY)
    wanted = shown(journal, "report", 4, 7, DAY).splitlines()
    case("report: the last period that ended", Select(page.one("#field-reporting-period")).first_selected_option.text[:2], "7:")
    months = [[w for at, w in enumerate(it.split()) if at in (0, 2, 3, 5, 6, 8, 9)] for it in wanted[1:7]]
    same("report: its months", page.cells(), months)
    same("report: the file of its months", page.download(f"report-4-7-{DAY}.csv")[1:], months)
    page.shot("report")
    case("report: pages of paper", page.printed("report"), 1)
    Select(page.one("#field-reporting-period")).select_by_value("8")
    page.wait(lambda: page.browser.current_url.endswith("/8"))
    page.settled()
    wanted = shown(journal, "report", 4, 8, DAY).splitlines()
    delays = [it.split() for it in wanted if it.startswith("delay ")]
    rows = page.download(f"report-4-8-{DAY}-delays.csv", 1)[1:]
    same("report: delays of the running period", (rows, len(rows) > 0), ([[it[at] for at in (1, 3, 5, 7, 9, 11, 13)] for it in delays], True))
    page.shot("report-delays")
    case("report with delays: pages of paper", page.printed("report-delays"), 1)


def sent(page, folder, name, text):
    """Sends a file, and returns what the page says of it."""
    path = f"{folder}/{name}"
    with open(path, "w", encoding="utf-8") as it:
        it.write(text)
    count = len(page.all(".answers li"))
    page.one("#files").send_keys(path)
    page.wait(lambda: len(page.all(".answers li")) > count)
    return page.one(".answers li").text


def sync(page, folder):
    fact = {"kind": "calibration", "day": DAY, "minute": 480, "instrument": 7, "gas": 500}
    page.show("sync")
    good = json.dumps({"handheld": 7, "number": 1, "facts": [fact]})
    case("sync: a receipt", "Batch 1 of handheld 7 is kept, at position " in sent(page, folder, "day.json", good), True)
    first = page.one(".answers li").text
    case("sync: the same again", sent(page, folder, "day.json", good), first)
    case("sync: a conflict", sent(page, folder, "other.json", good.replace("480", "481")).startswith("Conflict"), True)
    denied = [fact, {"kind": "release", "day": DAY, "minute": 1, "component": 1}]
    said = sent(page, folder, "<img src=x onerror=alert(1)>.json", json.dumps({"handheld": 7, "number": 2, "facts": denied}))
    case("sync: a denial has its rule, its paragraph and its fact", [it in said for it in
         ("Denied", "<img src=x onerror=alert(1)>.json", "Only relief devices", "40 CFR 60.482-4a(b)", "Fact 2", "component 1")], [True] * 6)
    case("sync: a file's name is no HTML", len(page.all(".answers img")), 0)
    page.shot("sync")
    case("sync: a name with <", sent(page, folder, "name.json", json.dumps({"handheld": 0, "number": 900, "facts": [
        {"kind": "unit", "day": DAY, "minute": 0, "unit": 9, "older": False, "name": "<B>"}]})).startswith("Not a batch"), True)
    case("sync: no JSON", sent(page, folder, "none.json", "handheld,number\n1,2\n").startswith("Not a batch"), True)
    case("sync: too large", sent(page, folder, "large.json", " " * 262_145).startswith("Not sent"), True)
    facts = [{"kind": "reading", "day": DAY, "minute": 700, "component": it, "instrument": 7, "operator": 3, "purpose": "routine", "ppm": 20,
              "background": 2} for it in range(1, 513)]
    said = sent(page, folder, "full.json", json.dumps({"handheld": 7, "number": 3, "facts": facts}))
    case("sync: 512 readings", said.startswith("Receipt"), True)


def bad_input(page):
    page.show("due", 9, DAY)
    case("no such unit", page.note(), "There is no such process unit on this day. A unit is shown from its initial startup on.")
    page.shot("no-unit")
    page.show("due", 1, "2024-02-30")
    case("no such day", page.note(), "There is no such day here. Days are from 2008-01-01 to 2099-12-31.")
    page.show("due", "%3Cimg%20src=x%20onerror=alert(1)%3E", DAY)
    case("HTML in the address", (page.note(), len(page.all("main img"))), ("There is no such process unit on this day. A unit is shown from its initial startup on.", 0))
    page.show("tags", 300, DAY)
    case("unit 300", page.note(), "There is no such process unit on this day. A unit is shown from its initial startup on.")


def faults(page, office):
    """What is said of an office that has errors, is away, or is no office."""
    office.stop()
    page.show("due", 1, DAY)
    away = "The office does not answer. It may be starting, or stopped: whoever keeps the machine can look."
    case("the office is down", page.note(), away)
    page.shot("down")
    server = http.server.ThreadingHTTPServer(("127.0.0.1", office.port), Faulty)
    threading.Thread(target=server.serve_forever, daemon=True).start()
    for unit, said in ((51, "The office had a disk error. Try again; if it stays, tell whoever keeps the machine."),
                       (52, "The office is out of memory. Try again later."), (53, "The list was cut short on its way. Try again."),
                       (54, "The answer is not one of the office's lists. Is this its address?"), (56, "Nothing is due in this unit on this day.")):
        page.show("due", unit, DAY)
        case(f"answer {unit}", page.note(), said)
    page.show("due", 55, DAY)
    case("names with < are text", (page.cells()[0][:2], len(page.all("main img, main table b"))), (["<b>1</b>", "<img/src=x/onerror=alert(1)>"], 0))
    page.wait(lambda: "NAME" in page.one("#about").text)
    case("the unit's too", page.one("#about").text, f"Unit 55 <b>NAME, as of {DAY}")
    page.show("sync")
    with tempfile.TemporaryDirectory() as folder:
        said = sent(page, folder, "fault.json", "{}")
        case("a batch at a disk error", "It may be kept or not. Send the same file again: nothing is kept twice." in said, True)
    server.shutdown()
    server.server_close()
    page.show("due", 1, DAY)
    case("down again", page.note(), away)
    office.start()
    page.one("#shown .note button").click()
    page.wait(lambda: page.state() == "1,200 lines")
    case("the office is back: try again", page.state(), "1,200 lines")


def keyboard(page):
    """From the top of the page by Tab and Enter alone, and what a screen reader is told."""
    page.show("due", 1, DAY)
    page.browser.refresh()
    page.settled()
    keys = webdriver.ActionChains(page.browser)
    names, focused = [], lambda: page.browser.switch_to.active_element
    wanted = ["Process unit", "Show", "Due", "Tags", "Routes", "Percent", "Report", "Sync", "Help"]
    for _ in range(20):
        keys.send_keys(Keys.TAB).perform()
        names.append(focused().accessible_name)
    case("what Tab comes to", (names[0], [it for it in names if it in wanted]), ("Skip to the list", wanted))
    while focused().accessible_name != "Tags":
        keys.send_keys(Keys.TAB).perform()
    keys.send_keys(Keys.ENTER).perform()
    page.wait(lambda: page.state().endswith("tags"))
    case("a link by Enter: its heading has the focus", (focused().tag_name, focused().text), ("h1", "Tags"))
    case("the link of the view is marked", page.texts("nav a[aria-current=page]"), ["Tags"])
    for view in ("due", "tags", "route", "percent", "report", "sync", "help"):
        page.show(view, 4, DAY)
        unnamed = [it.get_attribute("outerHTML")[:60] for it in page.all("input, select, button, nav a, table, svg") if it.is_displayed() and not it.accessible_name]
        heads = page.browser.execute_script("return [...document.querySelectorAll('h1, h2, h3')].map((it) => Number(it.tagName[1]))")
        case(f"{view}: controls without a name; headings in order", (unnamed, heads[0], all(b <= a + 1 for a, b in zip(heads, heads[1:]))), ([], 1, True))
    case("table headings have a scope", page.browser.execute_script("return [...document.querySelectorAll('th')].every((it) => it.scope)"), True)


def paper(page):
    page.show("due", 2, "2024-04-10")
    pages = page.printed("due-long")
    case("2,500 lines are on paper, on 70 to 100 pages", 70 <= pages <= 100, True)
    case("afterwards they are shown", (len(page.cells()), page.one("button.more").text[:8]), (2_500, "Show 250"))


def main():
    kit.needs("caddy", "chromium", "chromedriver")
    shots = sys.argv[1] if len(sys.argv) > 1 else tempfile.mkdtemp(prefix="ldar-page-")
    os.makedirs(shots, exist_ok=True)
    with tempfile.TemporaryDirectory() as folder:
        journal = f"{folder}/journal"
        kit.working_day(journal)
        kit.long_unit(journal)
        four_years(journal)
        office = Office(journal, kit.free_port())
        front = Front(folder, office.port)
        page = None
        try:
            page = Page(front, folder, shots)
            parts = [lambda it=it: it(page, journal) for it in (due, tags, routes, quarters, reports)]
            parts += [lambda: sync(page, folder), lambda: bad_input(page), lambda: faults(page, office), lambda: keyboard(page), lambda: paper(page)]
            for part in parts:
                try:
                    part()
                except (WebDriverException, IndexError, KeyError) as error:
                    traceback.print_exc()
                    case("this part ends", str(error)[:200], "")
            page.show("help")
            page.shot("help")
            case("complaints on the console", page.complaints(), [])
        finally:
            if page:
                page.browser.quit()
            front.stop()
            office.stop()
    print(f"screenshots: {shots}")
    ended()


main()
