"""A reader of the page, who has a keyboard and no mouse; and what the reader sees, compared with what there is to be seen."""

from oai.trials import Trial
from oai.webdriver import BACKSPACE, CONTROL, ENTER, SHIFT, TAB

# What the page shows: its title, the line of its status, the terms of the first list of terms, its records, and its fault.
SEEN = """
const text = (within, selector) => within.querySelector(selector)?.textContent ?? null;
const terms = (list) => list ? [...list.children].map((it) => [text(it, "dt"), text(it, "dd")]) : [];
const answer = document.getElementById("content");
return {
    title: document.getElementById("title").textContent,
    status: document.getElementById("status").textContent,
    terms: terms(answer.querySelector("dl")),
    records: [...answer.querySelectorAll(".record")].map((it) => ({
        identifier: text(it, "h3"),
        facts: [...it.querySelectorAll(".facts > *")].map((part) => part.textContent),
        fields: terms(it.querySelector("dl")),
    })),
    fault: text(answer, ".fault > p, p.fault"),
};"""

# Whether what has the focus is the element that is looked for, by a selector and its text; and whether it is seen to have the focus.
REACHED = """
const active = document.activeElement;
const text = active.textContent.trim();
return {found: active.matches(arguments[0]) && (arguments[1] === null || text === arguments[1]), ring: getComputedStyle(active).outlineStyle !== "none"};"""

# How many texts have less contrast with what is behind them than 4.5 to 1 (WCAG 2.2, sections 1.4.3 and 3: relative luminance).
POOR_CONTRAST = """
const channels = (colour) => colour.match(/[\\d.]+/g).map(Number);
const luminance = (colour) => channels(colour).slice(0, 3).map((it) => it / 255)
    .map((it) => it <= 0.04045 ? it / 12.92 : ((it + 0.055) / 1.055) ** 2.4)
    .reduce((sum, it, at) => sum + it * [0.2126, 0.7152, 0.0722][at], 0);
const behind = (node) => {
    for (let at = node; at; at = at.parentElement) {
        const colour = getComputedStyle(at).backgroundColor;
        if ((channels(colour)[3] ?? 1) === 1) { return colour; }
    }
    return "rgb(255, 255, 255)";
};
const poor = [];
for (const node of document.body.querySelectorAll("*")) {
    const own = [...node.childNodes].some((it) => it.nodeType === Node.TEXT_NODE && it.data.trim() !== "");
    if (own && node.checkVisibility()) {
        const pair = [luminance(getComputedStyle(node).color), luminance(behind(node))].sort((a, b) => b - a);
        if ((pair[0] + 0.05) / (pair[1] + 0.05) < 4.5) { poor.push(node.outerHTML.slice(0, 100)); }
    }
}
return poor;"""

# What is asked of this page alone: that it has a language, one h1, one main, a label at each input, and no text that is markup.
ORDERLY = """
const unlabelled = [...document.querySelectorAll("input, select")].filter((it) => it.labels.length === 0).length;
return [document.documentElement.lang, document.querySelectorAll("h1").length, document.querySelectorAll("main").length, unlabelled,
    document.scripts.length, document.querySelectorAll("img, iframe, object, embed, style").length];"""

# The links that lead elsewhere than to a request of this page, and are no address of the web.
STRANGE_LINKS = """return [...document.links].map((it) => it.getAttribute("href")).filter((it) => !/^(#|https?:)/i.test(it));"""


class Reader(Trial):
    """Drives a browser by keys, and counts what was compared and what differed."""

    def __init__(self, browser, origin):
        super().__init__()
        self.browser = browser
        self.origin = origin
        self.unseen = []
        self.width = 1200

    def seen(self):
        return self.browser.run(SEEN)

    def go(self, fragment=""):
        """Writes an address, as of a bookmark."""
        self.browser.open("about:blank")
        self.browser.open(f"{self.origin}/{fragment}")

    def reach(self, selector, text=None, backwards=False):
        """Presses Tab until this element has the focus; it has to be seen there."""
        for _ in range(1500):
            if backwards:
                self.browser.press(SHIFT, TAB)
            else:
                self.browser.press(TAB)
            now = self.browser.run(REACHED, selector, text)
            if now["found"]:
                if not now["ring"]:
                    self.unseen.append(selector)
                return
        raise RuntimeError(f"no way by Tab to {selector} {text or ''}")

    def enter(self, selector, text=None, backwards=False):
        """Goes to this element, and presses Enter."""
        self.reach(selector, text, backwards)
        self.browser.press(ENTER)

    def write(self, selector, text):
        """Goes back to this input, and writes the text in place of what is there."""
        self.reach(selector, backwards=True)
        self.browser.press(CONTROL, "a")
        self.browser.press(BACKSPACE)
        if text:
            self.browser.type(text)

    def expect(self, what, title, status=None):
        """Waits for a title, and a status if one is given; comes back with what is seen. The title has the focus, and nothing is wider than the window."""
        self.browser.wait("return document.getElementById('title').textContent === arguments[0]"
                          " && (arguments[1] === null || document.getElementById('status').textContent === arguments[1]);", title, status)
        seen = self.seen()
        self.check(what, (seen["title"], seen["status"] if status is not None else None), (title, status))
        self.check(f"{what}: width", self.browser.run("return document.scrollingElement.scrollWidth"), self.width)
        return seen

    def orderly(self, what):
        """Checks contrast, labels and links of what is shown."""
        self.check(f"{what}: contrast", self.browser.run(POOR_CONTRAST), [])
        self.check(f"{what}: order", self.browser.run(ORDERLY), ["en", 1, 1, 0, 1, 0])
        self.check(f"{what}: links", self.browser.run(STRANGE_LINKS), [])
