// A page to look at an archive. What is shown is named by the fragment: `#/NAME?ARGUMENTS`, a repository and the arguments of a request;
// without a repository, all of them are shown.

import { childOf, childrenOf, exchange, fragmentOf, placeOf, textOf } from "./oai.js";
import { code, element, fill, foreign } from "./nodes.js";
import { viewOf } from "./views.js";
import { counted } from "./words.js";

/** How many answers are remembered, so that going back asks nothing: a list that is begun twice would be open twice. */
const REMEMBERED = 20;

const page = (id) => document.getElementById(id);
const remembered = new Map();
const chains = new Map();
const prefixes = new Map();
let repositories = null;
let turn = 0;

/** The answer to a request: what is remembered of it, or what comes. A document alone is remembered. */
async function answerTo(place, key) {
    if (remembered.has(key)) {
        return remembered.get(key);
    }
    const came = await exchange(place.name, place.asked);
    if (came.root) {
        remembered.set(key, came);
    }
    if (remembered.size > REMEMBERED) {
        remembered.delete(remembered.keys().next().value);
    }
    return came;
}

/** The arguments with which the list of a place began, and the fragment of the part before. */
function chainOf(place, key) {
    return chains.get(key) || { asked: place.asked, before: null };
}

/** Remembers to which list the next part belongs. */
function noteNextPart(place, key, came) {
    const verb = place.asked.get("verb");
    const token = textOf(childOf(came.root, verb), "resumptionToken");
    if (token !== "") {
        chains.set(fragmentOf(place.name, { verb, resumptionToken: token }), { asked: chainOf(place, key).asked, before: key });
    }
}

/** Shows what the fragment names. The focus goes to its title, but not when the page has just been opened. */
async function show(isFirst) {
    const place = placeOf(location.hash);
    const now = ++turn;
    if (!place) {
        showRepositories(isFirst);
        return;
    }
    const key = fragmentOf(place.name, place.asked);
    page("status").textContent = "Asking the archive";
    showMenu(place, chainOf(place, key));
    const came = await answerTo(place, key);
    if (now !== turn) {
        return;
    }
    noteNextPart(place, key, came);
    showView(viewOf(place, came, chainOf(place, key), () => askAnew(key)), isFirst);
    document.title = `${page("title").textContent} (${place.name})`;
}

/** Puts a view into the page: its title, how much there is, and what is below. */
function showView(view, isFirst) {
    page("title").replaceChildren(view.title);
    page("status").textContent = view.status || "";
    page("content").replaceChildren(...view.body);
    if (!isFirst) {
        page("title").focus();
    }
}

/** Shows which repositories there are. */
function showRepositories(isFirst) {
    page("menu").hidden = true;
    document.title = "Repositories";
    if (repositories === null) {
        const words = ["The list of repositories, ", code("repositories.json"), ", is not there or cannot be read. A repository is also found by its "
            + "name: put it behind ", code("#/"), " in the address of this page."];
        showView({ title: "No list of repositories", body: [element("p", { class: "fault" }, ...words)] }, isFirst);
        return;
    }
    const list = fill(element("ul", { class: "sets" }), repositories, ({ name, repositoryName }) => element("li", {},
        element("a", { href: fragmentOf(name, { verb: "Identify" }) }, foreign(repositoryName)), " ", code(name)));
    showView({ title: "Choose a repository", body: [list], status: counted(repositories.length, "repository", "repositories") }, isFirst);
}

/** Shows what a fragment names as it is now, and not what is remembered of it. */
function askAnew(fragment) {
    remembered.delete(fragment);
    if (location.hash === fragment) {
        show(false);
    } else {
        location.hash = fragment;
    }
}

/** The links and the forms of a repository, filled with what is asked for. */
function showMenu(place, chain) {
    const { asked } = chain;
    page("menu").hidden = false;
    page("repository").value = place.name;
    for (const link of page("menu").querySelectorAll("a[data-verb]")) {
        link.setAttribute("href", fragmentOf(place.name, { verb: link.dataset.verb }));
        link.setAttribute("aria-current", link.hash === fragmentOf(place.name, place.asked) ? "page" : "false");
    }
    for (const name of ["from", "until", "set"]) {
        page("list").elements[name].value = asked.get(name) || "";
    }
    if (["ListRecords", "ListIdentifiers"].includes(asked.get("verb"))) {
        page("list").elements.verb.value = asked.get("verb");
    }
    page("get").elements.identifier.value = asked.get("identifier") || "";
    showFormats(place.name, asked.get("metadataPrefix") || "oai_dc");
}

/** Offers the formats of the repository in both forms; until they are known oai_dc. */
async function showFormats(name, chosen) {
    offerFormats(prefixes.get(name) || ["oai_dc"], chosen);
    if (prefixes.has(name)) {
        return;
    }
    const came = await exchange(name, "verb=ListMetadataFormats");
    const formats = childrenOf(childOf(came.root, "ListMetadataFormats"), "metadataFormat").map((format) => textOf(format, "metadataPrefix"));
    if (formats.length > 0) {
        prefixes.set(name, formats);
        if (placeOf(location.hash)?.name === name) {
            offerFormats(formats, page("list-format").value);
        }
    }
}

/** Puts these formats, and the one that is chosen, into both forms. */
function offerFormats(formats, chosen) {
    const offered = formats.includes(chosen) ? formats : [...formats, chosen];
    for (const id of ["list-format", "get-format"]) {
        page(id).replaceChildren(...offered.map((prefix) => element("option", { value: prefix }, prefix)));
        page(id).value = chosen;
    }
}

/** Asks what a form asks for, of the repository that is shown: its arguments behind the first ones, without spaces around them, and none that
 * is empty. */
function askForm(form, first) {
    const given = [...new FormData(form)].map(([name, value]) => [name, value.trim()]).filter(([, value]) => value !== "");
    askAnew(fragmentOf(placeOf(location.hash).name, [...first, ...given]));
}

/** Reads which repositories there are: of each of `repositories` in repositories.json its `name` and its `repositoryName`. */
async function readRepositories() {
    const answer = await fetch("repositories.json", { cache: "no-cache" });
    const read = await answer.json();
    repositories = read.repositories.map(({ name, repositoryName }) => ({ name: String(name), repositoryName: String(repositoryName || name) }));
    const options = repositories.map(({ name, repositoryName }) => element("option", { value: name }, `${repositoryName} (${name})`));
    page("repository").replaceChildren(...options);
    page("choose").hidden = false;
}

/** Calls `act` in place of what the browser would do. */
function instead(id, name, act) {
    page(id).addEventListener(name, (event) => {
        event.preventDefault();
        act();
    });
}

function listen() {
    instead("choose", "submit", () => askAnew(fragmentOf(page("repository").value, { verb: "Identify" })));
    instead("list", "submit", () => askForm(page("list"), []));
    instead("get", "submit", () => askForm(page("get"), [["verb", "GetRecord"]]));
    instead("skip", "click", () => page("answer").focus());
    document.addEventListener("click", (event) => {
        const link = event.target.closest('a[href^="#/"]');
        if (link && !("kept" in link.dataset) && !event.ctrlKey && !event.metaKey && !event.shiftKey) {
            event.preventDefault();
            askAnew(link.getAttribute("href"));
        }
    });
    addEventListener("hashchange", () => show(false));
}

async function start() {
    for (const id of ["lists", "single"]) {
        page(id).open = matchMedia("(min-width: 56rem)").matches;
    }
    listen();
    await readRepositories().catch(() => null);
    show(true);
}

start();
