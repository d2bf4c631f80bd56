"""Goes through the page of web/ by the keyboard alone. Texts that are expected are written from what is deposited, from OAI-PMH 2.0 and from the words
of this page."""

import json
import re
import tempfile
import time
import urllib.error
import urllib.request

from oai.programs import TOP, needs, oaihostd
from oai.proxy import HOST
from oai.web_archive import ADDRESSES, ARABIC, DC, DEPOSITS, FOUR_BYTES, HEBREW, HOSTILE, LINK, STEAL, Archive
from oai.web_reader import Reader
from oai.webdriver import DOWN, ENTER, TAB, Browser


def title_field(text):
    return ["title", text]


def choose_repository(reader):
    """The first screen, on which a repository is chosen; and then another one."""
    reader.go()
    reader.expect("the first screen", "Choose a repository", "5 repositories")
    reader.orderly("the first screen")
    names = reader.browser.run("return [...document.querySelectorAll('#content li')].map((it) => it.textContent)")
    reader.check("repositories", names, ["Journal of Sets journal", f"{STEAL} hostile", "Library of Ten Thousand Sets many", "Theses theses", "Short Lists short"])
    reader.browser.press(TAB)
    reader.check("the first Tab", reader.browser.run("return document.activeElement.textContent"), "Skip to the answer")
    reader.browser.press(ENTER)
    reader.check("the answer has the focus", reader.browser.run("return document.activeElement.id"), "answer")
    reader.reach("#repository", backwards=True)
    reader.browser.press("T")
    reader.enter("#choose button")
    reader.expect("another repository", "Theses", "")
    reader.reach("#repository", backwards=True)
    reader.browser.press("J")
    reader.enter("#choose button")
    reader.expect("the first one", "Journal of Sets", "")


def look_around(reader):
    """Identify, the formats and the sets of a repository; and the records of a set."""
    reader.go()
    reader.expect("the first screen", "Choose a repository", "5 repositories")
    reader.enter("#content a", "Journal of Sets")
    seen = reader.expect("Identify", "Journal of Sets", "")
    reader.check("Identify: the focus", reader.browser.run("return document.activeElement.id"), "title")
    reader.check("Identify", seen["terms"], [
        ["Base URL", f"https://{HOST}/oai/journal"], ["Administrator", f"journal@{HOST}"], ["Protocol", "OAI-PMH 2.0"],
        ["Earliest datestamp", "2024-01-01T00:00:00Z"], ["Granularity", "seconds"],
        ["Deleted records", "persistent: a deleted item is shown as deleted for ever"]])
    reader.orderly("Identify")
    reader.enter("nav a", "Formats", backwards=True)
    reader.expect("formats", "Formats", "2 formats")
    reader.check("formats", reader.browser.run("return [...document.querySelectorAll('.format')].map((it) => it.innerText.split(/\\n+/))"), [
        ["oai_dc", "Namespace", "http://www.openarchives.org/OAI/2.0/oai_dc/", "Schema", "http://www.openarchives.org/OAI/2.0/oai_dc.xsd"],
        ["jnl", "Namespace", f"http://{HOST}/jnl", "Schema", f"http://{HOST}/jnl"]])
    reader.orderly("formats")
    reader.enter("nav a", "Sets", backwards=True)
    reader.expect("sets", "Sets", "2 sets")
    reader.enter("#sets summary", "Letters & Notes letters (1 below)")
    reader.enter("#sets a", "Letters before 1900 letters:early")
    seen = reader.expect("a set", "Records", "1 record, all of them")
    reader.check("a set", [it["identifier"] for it in seen["records"]], ["oai:journal:3"])
    reader.check("what was asked", reader.browser.run("return document.querySelector('#content .facts').textContent"), "in the format oai_dc in the set letters:early")


def document_count(reader):
    """How many documents the page has asked for since the network's log was read last."""
    return len([it for it in network(reader) if "/oai/" in it])


def network(reader):
    """The addresses that were asked for since the log was read last, without those that the policy refused; each has to be of this host."""
    messages = [json.loads(it["message"])["message"] for it in reader.browser.log("performance")]
    refused = {it["params"]["requestId"] for it in messages if it["method"] == "Network.loadingFailed" and it["params"].get("blockedReason") == "csp"}
    sent = [it["params"] for it in messages if it["method"] == "Network.requestWillBeSent"]
    asked = [it["request"]["url"] for it in sent if it["requestId"] not in refused]
    reader.check("what is asked of another host", [it for it in asked if not it.startswith((f"{reader.origin}/", "about:", "data:"))], [])
    return asked


def read_parts(reader, stamp):
    """A list, part by part; back to the parts before, which ask for nothing; and a list of what is between two dates."""
    reader.go("#/journal")
    reader.expect("Identify", "Journal of Sets")
    reader.enter("#list button", backwards=True)
    seen = reader.expect("the first part", "Records", "1 to 2 of 5")
    reader.check("the first part", seen["records"], [
        {"identifier": "oai:journal:1", "facts": [stamp, "formats"], "fields": [title_field('A & B < "C" é')]},
        {"identifier": "oai:journal:2", "facts": [stamp, "set letters", "formats"], "fields": [title_field("On Sets")]}])
    reader.enter(".parts a", "Next part")
    seen = reader.expect("the second part", "Records", "3 to 4 of 5")
    reader.check("the second part", seen["records"], [
        {"identifier": "oai:journal:3", "facts": [stamp, "set letters:early", "formats"],
         "fields": [title_field("On Lists"), ["creator", "Doe, J."], ["date", "1899"]]},
        {"identifier": "oai:journal:4", "facts": ["deleted", stamp, "set letters"], "fields": []}])
    reader.orderly("a part")
    reader.enter(".parts a", "Next part")
    seen = reader.expect("the last part", "Records", "5 to 5 of 5")
    reader.check("the last part", [it["identifier"] for it in seen["records"]], ["oai:journal:5"])
    reader.check("no part behind", reader.browser.run("return [...document.querySelectorAll('.parts a')].map((it) => it.textContent)"), ["Part before"] * 2)
    network(reader)
    reader.enter(".parts a", "Part before")
    reader.expect("back by the link", "Records", "3 to 4 of 5")
    reader.browser.back()
    reader.expect("back", "Records", "5 to 5 of 5")
    for wanted in ("3 to 4 of 5", "1 to 2 of 5"):
        reader.browser.back()
        reader.expect("back again", "Records", wanted)
    reader.check("what going back asks for", document_count(reader), 0)


def read_headers(reader, stamp):
    """Headers alone, of a set and of dates, by the form."""
    reader.go("#/journal")
    reader.expect("Identify", "Journal of Sets")
    reader.write("#set", "letters:early")
    reader.write("#until", stamp)
    reader.write("#from", f"  {stamp} ")
    reader.reach("input[name=verb]", backwards=True)
    reader.browser.press(DOWN)
    reader.enter("#list button")
    seen = reader.expect("headers", "Headers", "1 header, all of them")
    reader.check("headers", seen["records"], [{"identifier": "oai:journal:3", "facts": [stamp, "set letters:early", "formats"], "fields": []}])
    reader.check("what was asked", reader.browser.run("return document.querySelector('#content .facts').textContent"),
                 f"in the format oai_dc from {stamp} until {stamp} in the set letters:early")
    reader.check("the form keeps it", reader.browser.run("return ['from', 'until', 'set'].map((it) => document.getElementById(it).value)"),
                 [stamp, stamp, "letters:early"])


def read_one(reader, stamp):
    """One record by its form, its formats, and the record in another one; one that is deleted."""
    reader.go("#/journal")
    reader.expect("Identify", "Journal of Sets")
    reader.write("#identifier", "oai:journal:2")
    reader.enter("#get button")
    seen = reader.expect("a record", "A record in oai_dc", "")
    record = {"identifier": "oai:journal:2", "facts": [stamp, "set letters", "formats"], "fields": [title_field("On Sets")]}
    reader.check("a record", seen["records"], [record])
    reader.enter(".facts a", "formats")
    reader.expect("its formats", "Formats of oai:journal:2", "2 formats")
    reader.enter(".format a", "jnl")
    seen = reader.expect("the record in another format", "A record in jnl", "")
    reader.check("its fields", seen["records"], [record | {"fields": [["volume", "7"], ["pages", "1-12"]]}])
    reader.enter("summary", "The answer as XML")
    reader.browser.wait("return document.querySelector('pre')")
    reader.check("as XML", "<volume>7</volume><pages>1-12</pages>" in reader.browser.run("return document.querySelector('pre').textContent"), True)
    reader.write("#identifier", "oai:journal:4")
    reader.reach("#get-format")
    reader.browser.press("o")
    reader.enter("#get button")
    seen = reader.expect("a deleted record", "A record in oai_dc", "")
    reader.check("a deleted record", seen["records"], [{"identifier": "oai:journal:4", "facts": ["deleted", stamp, "set letters"], "fields": []}])
    reader.check("it is struck out", reader.browser.run("return getComputedStyle(document.querySelector('.deleted h3')).textDecorationLine"), "line-through")


ERRORS = [
    ("#/journal?verb=identify", "This is no request", "badVerb The verb is missing, repeated or illegal."),
    ("#/journal?verb=ListRecords&metadataPrefix=oai_dc&from=2024-02-30", "An argument is wrong",
     "badArgument An argument is illegal, missing, repeated or of illegal syntax."),
    ("#/journal?verb=ListRecords&resumptionToken=99.1", "This list has ended", "badResumptionToken The resumption token is invalid or has expired."),
    ("#/theses?verb=ListSets", "No sets", "noSetHierarchy The repository has no sets."),
    ("#/journal?verb=GetRecord&identifier=oai:journal:6&metadataPrefix=oai_dc", "No such item", "idDoesNotExist No item has this identifier."),
    ("#/journal?verb=GetRecord&identifier=oai:journal:1&metadataPrefix=jnl", "Not in this format",
     "cannotDisseminateFormat The metadata format is not available."),
    ("#/journal?verb=ListMetadataFormats&identifier=oai:journal:4", "No formats", "noMetadataFormats The item has no metadata formats."),
    ("#/journal?verb=ListRecords&metadataPrefix=oai_dc&until=2024-01-01", "No records", "noRecordsMatch No records match."),
]


def read_errors(reader):
    """Each error of the protocol, and what is no repository, no document, or no answer."""
    for fragment, title, said in ERRORS:
        reader.go(fragment)
        reader.expect(fragment, title, "")
        reader.check(fragment, reader.browser.run("return document.querySelector('.fault .facts').textContent"), said)
        reader.orderly(title)
    reader.go("#/nothing")
    seen = reader.expect("no repository", "No such repository", "")
    reader.check("no repository", seen["fault"], "No repository of this server has this name.")
    reader.go("#/journal")
    reader.expect("Identify", "Journal of Sets")
    reader.write("#from", "2024-12-31")
    reader.write("#from", "2024-12-31")
    reader.write("#until", "2024-01-01")
    reader.enter("#list button")
    reader.expect("from behind until", "An argument is wrong", "")
    reader.go("#/journal?verb=GetRecord&identifier=oai:journal:1&metadataPrefix=jnl")
    reader.expect("not in this format", "Not in this format")
    reader.enter(".fault a", "The item's formats")
    reader.expect("the formats that there are", "Formats of oai:journal:1", "1 format")


def read_busy(reader, archive):
    """A list more than may be open is answered 503: its seconds are said; a list that has ended is begun again."""
    reader.go("#/short?verb=ListIdentifiers&metadataPrefix=oai_dc")
    reader.expect("a short list", "Headers", "1 to 1 of 2")
    time.sleep(3)
    reader.enter(".parts a", "Next part")
    reader.expect("a list that has ended", "This list has ended", "")
    reader.enter(".fault a", "Begin the list again")
    reader.expect("the list again", "Headers", "1 to 1 of 2")
    reader.go("#/journal?verb=ListIdentifiers&metadataPrefix=oai_dc")
    reader.browser.wait("return document.querySelector('.fault')")
    seconds = int(retry_after(archive))
    title = reader.seen()["title"]
    said = re.fullmatch(r"Come again in (\d+) seconds", title)
    reader.check("503", bool(said) and seconds <= int(said[1]) <= seconds + 60, True)
    reader.check("503 in words", reader.seen()["fault"], "As many lists are open as the repository allows, or it was out of memory for a moment. "
                 f"It asks to come again in {said and said[1]} seconds.")
    reader.orderly("503")


def retry_after(archive):
    """The seconds of a 503 at `journal`."""
    try:
        with urllib.request.urlopen(f"http://127.0.0.1:{archive.server_port}/oai/journal?verb=ListRecords&metadataPrefix=oai_dc"):
            return "0"
    except urllib.error.HTTPError as refused:
        return refused.headers["Retry-After"]


def read_while_down(reader, archive):
    """A server that is down; once it is there again the same is asked by a button, and a list that was open goes on."""
    reader.go("#/theses")
    reader.expect("Identify", "Theses")
    archive.kill()
    reader.enter("nav a", "Sets", backwards=True)
    seen = reader.expect("a server that is down", "The archive is down", "")
    reader.check("a server that is down", seen["fault"],
                 "The proxy answers, but the archive behind it does not. It may be starting: ask again in a minute.")
    archive.start()
    reader.enter(".fault button", "Ask again")
    reader.expect("it is there again", "No sets", "")


def read_hostile(reader):
    """Texts that attack are seen as they are; letters of other directions and of four bytes too."""
    reader.go("#/hostile")
    seen = reader.expect("a name that attacks", STEAL, "")
    reader.check("an address that attacks", seen["terms"][1], ["Administrator", LINK])
    reader.enter("nav a", "Formats", backwards=True)
    reader.expect("a format that attacks", "Formats", "2 formats")
    reader.check("a format that attacks", reader.browser.run("return [...document.querySelectorAll('.format dd')].slice(2).map((it) => it.textContent)"),
                 [LINK, LINK])
    reader.orderly("a format that attacks")
    reader.enter("nav a", "Sets", backwards=True)
    reader.expect("sets that attack", "Sets", "2 sets")
    reader.enter("#sets summary", f"{STEAL} javascript (1 below)")
    reader.enter("#sets a", f"{HEBREW} javascript:steal()")
    seen = reader.expect("a record that attacks", "Records", "1 record, all of them")
    reader.check("an identifier that attacks", seen["records"][0]["identifier"], "javascript:steal()")
    reader.check("texts that attack", seen["records"][0]["fields"],
                 [title_field(it) for it in HOSTILE] + [["identifier", it] for it in ADDRESSES])
    reader.check("links in the texts", reader.browser.run("return [...document.querySelectorAll('dd a')].map((it) => [it.getAttribute('href'), it.rel])"),
                 [[it, "noreferrer"] for it in ADDRESSES])
    reader.orderly("a record that attacks")
    reader.enter(".record h3 a", "javascript:steal()")
    reader.expect("the record that attacks", "A record in oai_dc", "")
    reader.go("#/hostile?verb=GetRecord&identifier=oai:hostile:letters&metadataPrefix=oai_dc")
    reader.expect("other letters", "A record in oai_dc", "")
    letters = reader.browser.run("return [...document.querySelectorAll('dd > bdi')].map((it) => [it.textContent, getComputedStyle(it).direction, it.lang])")
    reader.check("other letters", letters, [[HEBREW, "rtl", ""], [ARABIC, "rtl", ""], [FOUR_BYTES, "ltr", ""], [f"On {HEBREW}\nin two lines", "ltr", ""]])
    reader.check("nothing was stolen", reader.browser.run("return typeof window.stolen"), "undefined")


# The items of the trees of elements: of each its own line, and the items below it.
TREES = """
const line = (item) => [...item.childNodes].filter((it) => it.nodeName !== "UL").map((it) => it.textContent).join("");
const tree = (item) => [line(item), ...[...item.querySelectorAll(":scope > ul > li")].map(tree)];
return [...document.querySelectorAll(".tree > li")].map(tree);"""


def read_element(reader):
    """A record that is an element is seen as a tree, with its namespaces; nothing of it is markup."""
    reader.go("#/theses?verb=GetRecord&identifier=oai:theses:2&metadataPrefix=oai_dc")
    reader.expect("an element", "A record in oai_dc", "")
    [[root, *inside]] = reader.browser.run(TREES)
    reader.check("its root", root, f"oai_dc:dc namespace none prefix dc is {DC} prefix oai_dc is http://www.openarchives.org/OAI/2.0/oai_dc/")
    xhtml = "namespace http://www.w3.org/1999/xhtml"
    reader.check("what stands in it", inside[:4], [
        ["dc:title xml:lang = en On Elements"], [f"script {xhtml} src = /none window.stolen = 1"], [f"img {xhtml} src = /none onerror = window.stolen = 1"],
        ["dc:relation", [f"a namespace none href = {LINK} <b> {HEBREW}"], [" and "], ["dc:b xml:space = preserve", [" "], ["i namespace none"], [" "]]]])
    reader.check("how much stands in it", len(inside), 201)
    deep = inside[4]
    for _ in range(59):
        deep = deep[1]
    reader.check("the deepest", deep, ["d deep"])
    reader.orderly("an element")
    reader.enter(".tree button", "Show 6 more of 6")
    reader.check("more of it", len(reader.browser.run(TREES)[0]) - 1, 206)
    reader.check("nothing was stolen", reader.browser.run("return typeof window.stolen"), "undefined")


def read_about(reader):
    """What is about a record is seen below its fields, as trees; nothing of it is markup."""
    reader.go("#/theses?verb=GetRecord&identifier=oai:theses:3&metadataPrefix=oai_dc")
    seen = reader.expect("a record with something about it", "A record in oai_dc", "")
    reader.check("its fields", seen["records"][0]["fields"], [title_field("On Rights")])
    reader.check("its titles", reader.browser.run("return [...document.querySelectorAll('.record h4')].map((it) => it.textContent)"), ["About"])
    reader.check("what is about it", reader.browser.run(TREES), [
        [f"r:rights namespace none prefix r is http://{HOST}/rights", [f"r:reference ref = https://{HOST}/good"], [HEBREW]],
        ["script namespace http://www.w3.org/1999/xhtml window.stolen = 1"]])
    places = "return [...document.querySelectorAll('.record dl, .record section')].flatMap((it) => [it.getBoundingClientRect().top, it.getBoundingClientRect().bottom])"
    reader.check("it stands below the fields", sorted(reader.browser.run(places)), reader.browser.run(places))
    reader.orderly("a record with something about it")
    reader.check("nothing was stolen", reader.browser.run("return typeof window.stolen"), "undefined")


# What the Content-Security-Policy has to refuse: each ends with an error, or does nothing.
REFUSED = [
    ("document.body.insertAdjacentHTML('beforeend', '<img src=x onerror=\"window.stolen = 1\">')", "TypeError"),
    ("document.body.append(Object.assign(document.createElement('script'), {textContent: 'window.stolen = 1'}))", "TypeError"),
    ("document.body.setAttribute('onclick', 'window.stolen = 1'); document.body.click()", "TypeError"),
    ("setTimeout('window.stolen = 1')", "TypeError"),
    ("document.body.append(Object.assign(document.createElement('script'), {src: 'data:text/javascript,window.stolen=1'}))", "TypeError"),
    ("const it = Object.assign(document.createElement('a'), {href: 'javascript:window.stolen=1'}); document.body.append(it); it.click()", "done"),
    ("document.body.append(Object.assign(document.createElement('img'), {src: 'https://elsewhere.example/x.png'}))", "done"),
    ("document.body.append(Object.assign(document.createElement('iframe'), {src: '/'}))", "done"),
]


POLICY = {
    "default-src": "'none'", "script-src": "'self'", "style-src": "'self'", "img-src": "'self'", "connect-src": "'self'", "base-uri": "'none'",
    "form-action": "'none'", "frame-ancestors": "'none'", "require-trusted-types-for": "'script'", "trusted-types": "'none'",
}


def try_policy(reader):
    """What the page never does is refused by its policy, were it to do so."""
    reader.go()
    said = reader.browser.run("const it = new XMLHttpRequest(); it.open('GET', '/', false); it.send(); return it.getResponseHeader('Content-Security-Policy')")
    reader.check("the policy", dict(it.strip().split(" ", 1) for it in said.split(";")), POLICY)
    for script, wanted in REFUSED:
        tried = f"try {{ {script}; return 'done'; }} catch (fault) {{ return fault.name; }}"
        reader.check(f"refused: {script}", reader.browser.run(tried), wanted)
    time.sleep(1)
    reader.check("nothing was stolen", reader.browser.run("return typeof window.stolen"), "undefined")
    network(reader)
    reader.check("no frame", reader.browser.run("try { return frames[0].document.title } catch { return null }"), None)


def read_console(reader):
    """The browser had nothing to complain of but the statuses that were wanted, and the handler in an element, which it did not take."""
    said = [it["message"] for it in reader.browser.log("browser")]
    wanted = r"/oai/.*status of (404|502|503)|/oai.js .* inline event handler violates .* Content Security Policy"
    reader.check("what the browser said", [it for it in said if not re.search(wanted, it)], [])


def read_many(reader):
    """A tree of 10,000 sets, 200 at a time and deep ones one by one; and a set is found by its name."""
    begun = time.monotonic()
    reader.go("#/many?verb=ListSets")
    reader.expect("10,000 sets", "Sets", "10,000 sets")
    print(f"10,000 sets were shown after {time.monotonic() - begun:.1f} s", flush=True)
    shown = "return document.querySelectorAll('#sets > li').length"
    reader.check("the first of them", reader.browser.run(shown), 201)
    reader.orderly("10,000 sets")
    reader.enter("#sets button", "Show 200 more of 701", backwards=True)
    reader.check("more of them", reader.browser.run(shown), 401)
    reader.check("the focus is at the first one more", reader.browser.run("return document.activeElement.textContent"), "Shelf 200 t200 (30 below)")
    reader.browser.press(ENTER)
    reader.enter("#sets a", "Box 29 of shelf 200 t200:b29")
    reader.expect("a set without records", "No records", "")
    reader.browser.back()
    reader.expect("the sets again", "Sets", "10,000 sets")
    reader.write("#find", "depth 1")
    reader.browser.wait("return document.querySelector('.find .facts').textContent === '12 sets found'")
    found = reader.browser.run("return [...document.querySelectorAll('#sets > li')].map((it) => it.textContent)")
    reader.check("sets that are found", found, [f"Depth {at} {':'.join(['d'] * at)}" for at in [1, *range(10, 20), 100]])
    reader.write("#find", "")
    reader.enter("#sets button", "Show 200 more of 701", backwards=True)
    reader.enter("#sets summary", "Depth 1 d (1 below)")
    reader.enter("#sets summary", "Depth 2 d:d (1 below)")
    reader.reach("#sets summary", "Depth 3 d:d:d (1 below)")


def unfold_depths(reader):
    """Unfolds the sets that lie one in the other, down to the last one."""
    reader.browser.run("document.querySelector('#sets > li > button').click()")
    next_depth = "const it = [...document.querySelectorAll('#sets details:not([open]) > summary')].find((it) => it.textContent.startsWith('Depth'));"
    reader.browser.wait(f"{next_depth} it?.click(); return !it")
    reader.browser.wait("return [...document.querySelectorAll('#sets a')].some((it) => it.textContent.startsWith('Depth 100 '))")
    deepest = "[...document.querySelectorAll('#sets a')].find((it) => it.textContent.startsWith('Depth 100 ')).getBoundingClientRect()"
    reader.check("the width of the deepest set", reader.browser.run(f"return {deepest}.width > 100"), True)
    reader.check("the width of the sets", reader.browser.run("return document.scrollingElement.scrollWidth"), reader.width)


NARROW = [
    ("", "Choose a repository"), ("#/journal", "Journal of Sets"), ("#/journal?verb=ListMetadataFormats", "Formats"), ("#/journal?verb=ListSets", "Sets"),
    ("#/hostile?verb=ListRecords&metadataPrefix=oai_dc", "Records"), ("#/many?verb=ListSets", "Sets"), ("#/theses?verb=ListSets", "No sets"),
    ("#/theses?verb=ListRecords&metadataPrefix=oai_dc", "Records"),
]


def read_narrow(reader):
    """All of it in a window of 360 points, in light and in dark colours."""
    reader.width = 360
    reader.browser.window(360, 740, 2)
    for fragment, title in NARROW:
        reader.go(fragment)
        reader.expect(f"360 points, {fragment}", title)
        for scheme in ("dark", "light"):
            reader.browser.scheme(scheme)
            reader.orderly(f"360 points, {scheme}, {fragment}")
        if "many" in fragment:
            unfold_depths(reader)
    reader.browser.window(1200, 900)
    reader.width = 1200


def take_pictures(reader):
    """The two pictures of docs/."""
    reader.go("#/journal?verb=ListRecords&metadataPrefix=oai_dc")
    reader.expect("a picture", "Records")
    reader.enter(".parts a", "Next part")
    reader.expect("a picture", "Records", "3 to 4 of 5")
    reader.browser.picture(TOP / "docs/web-records.png")
    reader.browser.window(360, 740, 2)
    reader.browser.scheme("dark")
    reader.go("#/hostile?verb=GetRecord&identifier=oai:hostile:letters&metadataPrefix=oai_dc")
    reader.width = 360
    reader.expect("a picture", "A record in oai_dc")
    reader.browser.picture(TOP / "docs/web-narrow.png")


def go_through(reader, archive, stamp):
    """All of it; `stamp` is the datestamp of the journal's items. Where one step finds no way the next ones go on."""
    steps = [
        (choose_repository,), (look_around,), (read_one, stamp), (read_headers, stamp), (read_errors,), (read_parts, stamp), (read_busy, archive),
        (read_while_down, archive), (read_hostile,), (read_element,), (read_about,), (read_many,), (read_narrow,), (network,), (read_console,), (try_policy,),
    ]
    for step, *arguments in steps:
        try:
            step(reader, *arguments)
        except RuntimeError as fault:
            reader.check(step.__doc__, str(fault), None)
    reader.check("what had the focus unseen", reader.unseen, [])


def web(*, pictures: bool = False):
    """Goes through the page of web/ as a reader does, by the keyboard alone, in headless Chromium.

    nginx stands by the lines of web/nginx.conf before a server that has repositories of its own. What is seen: each
    view, a list part by part, each error of the protocol, 503 with its seconds, a window of 360 points, 10,000 sets,
    texts that are read from the right or have characters of four bytes, texts that attack, both colour schemes; and
    that nothing is asked of another host. It names what differs; the last line is `N checked, M differ`, and the status
    is 0 where M is 0. With `--pictures` it writes docs/web-records.png and docs/web-narrow.png instead. Packages of
    Debian:
        apt-get install chromium chromium-driver fonts-noto-core fonts-noto-color-emoji nginx-light openssl
    """
    needs("chromedriver", "nginx", "openssl")
    oaihostd()
    with tempfile.TemporaryDirectory() as folder, Archive(folder) as archive:
        stamps = {name: archive.deposit(name, lines) for name, lines in DEPOSITS.items()}
        with Browser(HOST) as browser:
            browser.window(1200, 900)
            browser.scheme("light")
            reader = Reader(browser, archive.origin)
            if pictures:
                take_pictures(reader)
            else:
                go_through(reader, archive, stamps["journal"])
    return reader.ended()
