// What is shown of each answer. A view has a title and the nodes below it; `place` is the repository and the arguments of the request.

import { aboutOf, childOf, childrenOf, containerOf, fragmentOf, isList, readFields, readHeader, readSets, readToken, readTree, textOf } from "./oai.js";
import { button, code, element, fill, folded, foreign, line, linked, terms } from "./nodes.js";
import { DELETED_RECORDS, GRANULARITIES, counted, wordsOfError, wordsOfStatus } from "./words.js";

/** A link to a request of the same repository. */
function requestLink(place, asked, content) {
    return element("a", { href: fragmentOf(place.name, asked) }, content);
}

/** Identify (section 4.2). */
function identifyView(place, answer) {
    const kept = textOf(answer, "deletedRecord");
    const granularity = textOf(answer, "granularity");
    return {
        title: foreign(textOf(answer, "repositoryName")),
        body: [terms([
            ["Base URL", linked(textOf(answer, "baseURL"))],
            ...childrenOf(answer, "adminEmail").map((address) => ["Administrator", foreign(address.textContent)]),
            ["Protocol", `OAI-PMH ${textOf(answer, "protocolVersion")}`],
            ["Earliest datestamp", textOf(answer, "earliestDatestamp")],
            ["Granularity", GRANULARITIES[granularity] || foreign(granularity)],
            ["Deleted records", DELETED_RECORDS[kept] || foreign(kept)],
        ])],
    };
}

/** ListMetadataFormats (section 4.4), of the repository or of an item. */
function formatsView(place, answer) {
    const identifier = place.asked.get("identifier");
    const formats = childrenOf(answer, "metadataFormat").map((format) => {
        const metadataPrefix = textOf(format, "metadataPrefix");
        const asked = identifier === null ? { verb: "ListRecords", metadataPrefix } : { verb: "GetRecord", identifier, metadataPrefix };
        return element("section", { class: "format" }, element("h3", {}, requestLink(place, asked, code(metadataPrefix))), terms([
            ["Namespace", foreign(textOf(format, "metadataNamespace"))],
            ["Schema", linked(textOf(format, "schema"))],
        ]));
    });
    const title = identifier === null ? ["Formats"] : ["Formats of ", code(identifier)];
    return { title: element("span", {}, ...title), body: formats, status: counted(formats.length, "format") };
}

/** A set's name and setSpec. */
function setName(set) {
    return element("span", {}, foreign(set.name), " ", code(set.spec));
}

/** A set of the tree, with those below it, which are made when it is unfolded. */
function setItem(place, prefix, set) {
    const asked = { verb: "ListRecords", metadataPrefix: prefix, set: set.spec };
    if (set.below.length === 0) {
        return element("li", {}, requestLink(place, asked, setName(set)));
    }
    const summary = element("summary", {}, setName(set), ` (${set.below.length.toLocaleString("en")} below)`);
    return element("li", {}, folded(summary, () => {
        const whole = line(requestLink(place, asked, "Its records, with those of the sets below it"));
        return [whole, fill(element("ul", { class: "sets" }), set.below, (below) => setItem(place, prefix, below))];
    }));
}

/** ListSets (section 4.6): the tree, and where words to find are given, the sets that have them in a name or setSpec. */
function setsView(place, answer, prefix) {
    const { top, all } = readSets(answer);
    const list = element("ul", { class: "sets", id: "sets" });
    const found = element("span", { class: "facts", role: "status" });
    const input = element("input", { type: "search", id: "find", autocomplete: "off", spellcheck: "false" });
    const show = () => {
        const words = input.value.trim().toLowerCase();
        const matches = all.filter((set) => `${set.name}\n${set.spec}`.toLowerCase().includes(words));
        list.replaceChildren();
        fill(list, words === "" ? top : matches, (set) => setItem(place, prefix, words === "" ? set : { ...set, below: [] }));
        found.textContent = words === "" ? "" : `${counted(matches.length, "set")} found`;
    };
    input.addEventListener("input", show);
    show();
    const find = element("p", { class: "find" }, element("label", { for: "find" }, "Find a set"), input, found);
    return { title: "Sets", body: [find, list], status: counted(all.length, "set") };
}

/** What stands in an element: an element below it, or a text. */
function treePart(node, keeps) {
    return node.nodeType === Node.ELEMENT_NODE ? treeItem(node, keeps) : element("li", { class: "text", tabindex: "-1" }, foreign(node.data));
}

/** The namespace that a prefix stands for; a default one has no prefix. */
function namespaceLine({ prefix, namespace }) {
    const front = prefix === "" ? "namespace" : element("span", {}, "prefix ", code(prefix), " is");
    return element("span", { class: "namespace" }, front, " ", namespace === "" ? "none" : foreign(namespace));
}

/** An element as an item of a tree: its name, its namespaces and attributes, and below it what stands in it. Nothing of it becomes an element of the page. */
function treeItem(container, isKept) {
    const tree = readTree(container, isKept);
    const facts = [
        ...tree.namespaces.map(namespaceLine),
        ...tree.attributes.map(({ name, value }) => element("span", { class: "attribute" }, code(name), " = ", linked(value))),
    ];
    const made = element("li", { tabindex: "-1" }, code(tree.name), ...facts.flatMap((part) => [" ", part]));
    const [only] = tree.inside;
    if (tree.inside.length === 1 && only.nodeType !== Node.ELEMENT_NODE) {
        made.append(" ", element("span", { class: "text" }, linked(only.data)));
    } else if (tree.inside.length > 0) {
        made.append(fill(element("ul", {}), tree.inside, (node) => treePart(node, tree.keeps)));
    }
    return made;
}

/** The metadata of a record: the terms of its fields, or the tree of its element; nothing where there is none. */
function metadataView(record) {
    const container = containerOf(record);
    if (container === null) {
        return [];
    }
    if (!isList(container)) {
        return [element("ul", { class: "tree" }, treeItem(container, false))];
    }
    const fields = readFields(container).map(({ name, text }) => [code(name), linked(text)]);
    return fields.length > 0 ? [terms(fields)] : [];
}

/** What is about a record: the trees of its elements, below a title; nothing where there are none. */
function aboutView(record) {
    const elements = aboutOf(record);
    const trees = () => fill(element("ul", { class: "tree" }), elements, (it) => treeItem(it, false));
    return elements.length > 0 ? [element("section", {}, element("h4", {}, "About"), trees())] : [];
}

/** A record or a header of a list, or the record of GetRecord. */
function recordView(place, record, header, prefix) {
    const { identifier, datestamp, sets, isDeleted } = readHeader(header);
    const facts = line(
        ...(isDeleted ? [element("span", { class: "mark" }, "deleted")] : []),
        element("time", { datetime: datestamp }, datestamp),
        ...sets.map((set) => element("span", {}, "set ", requestLink(place, { verb: "ListRecords", metadataPrefix: prefix, set }, code(set)))),
        ...(isDeleted ? [] : [requestLink(place, { verb: "ListMetadataFormats", identifier }, "formats")]),
    );
    const title = element("h3", {}, requestLink(place, { verb: "GetRecord", identifier, metadataPrefix: prefix }, code(identifier)));
    return element("article", { class: isDeleted ? "record deleted" : "record" }, title, facts, ...metadataView(record), ...aboutView(record));
}

/** GetRecord (section 4.1). */
function getView(place, answer, prefix) {
    const record = childOf(answer, "record");
    return { title: element("span", {}, "A record in ", code(prefix)), body: [recordView(place, record, childOf(record, "header"), prefix)] };
}

/** What was asked of a list, in words. */
function selection(asked) {
    const parts = [["in the format", "metadataPrefix"], ["from", "from"], ["until", "until"], ["in the set", "set"]].filter(([, name]) => asked.get(name));
    return line(...parts.map(([word, name]) => element("span", {}, `${word} `, code(asked.get(name)))));
}

/** Links to the parts of a list before and behind this one; nothing where it came whole. */
function partLinks(place, chain, token) {
    const links = [];
    if (chain.before) {
        links.push(element("a", { href: chain.before, "data-kept": "" }, "Part before"));
    }
    if (token && token.text !== "") {
        links.push(requestLink(place, { verb: place.asked.get("verb"), resumptionToken: token.text }, "Next part"));
    }
    return links.length > 0 ? [element("p", { class: "parts" }, ...links)] : [];
}

/** How long a list is open. */
function openUntil(token) {
    return line(token.text === ""
        ? "This is the last part."
        : `The list stays as it was when it was begun. It is open until ${token.ends}, and longer with each part that is read.`);
}

/** ListRecords and ListIdentifiers (sections 4.5 and 4.3), a part at a time. */
function listView(place, answer, prefix, chain) {
    const isOfRecords = place.asked.get("verb") === "ListRecords";
    const records = isOfRecords
        ? childrenOf(answer, "record").map((record) => recordView(place, record, childOf(record, "header"), prefix))
        : childrenOf(answer, "header").map((header) => recordView(place, null, header, prefix));
    const token = readToken(answer);
    const links = () => partLinks(place, chain, token);
    return {
        title: isOfRecords ? "Records" : "Headers",
        body: [selection(chain.asked), ...(token ? [openUntil(token)] : []), ...links(), ...records, ...links()],
        status: token
            ? `${token.cursor + 1} to ${token.cursor + records.length} of ${token.size.toLocaleString("en")}`
            : `${counted(records.length, isOfRecords ? "record" : "header")}, all of them`,
    };
}

/** An answer in place of what was asked for: a title, words, and buttons and links. */
function faultView(title, words, said, ...ways) {
    const reply = said ? [line(...said)] : [];
    return { title, body: [element("div", { class: "fault" }, element("p", {}, words), ...reply, element("p", { class: "parts" }, ...ways))] };
}

/** An error of the protocol (section 3.6), with what may be done. */
function errorView(place, error, chain) {
    const errorCode = error.getAttribute("code") || "";
    const [title, words] = wordsOfError(errorCode);
    const identifier = place.asked.get("identifier");
    const ways = [];
    if (errorCode === "badResumptionToken" && chain.asked.get("metadataPrefix")) {
        ways.push(requestLink(place, chain.asked, "Begin the list again"));
    }
    if (errorCode === "cannotDisseminateFormat") {
        const asked = identifier === null ? { verb: "ListMetadataFormats" } : { verb: "ListMetadataFormats", identifier };
        ways.push(requestLink(place, asked, identifier === null ? "The repository's formats" : "The item's formats"));
    }
    return faultView(title, words, [code(errorCode), foreign(error.textContent)], ...ways);
}

/** The answer as XML, written once it is asked for. */
function source(root) {
    return folded(element("summary", {}, "The answer as XML"), () => [
        element("pre", { tabindex: "0" }, foreign(new XMLSerializer().serializeToString(root))),
    ]);
}

const VIEWS = {
    Identify: identifyView,
    ListMetadataFormats: formatsView,
    ListSets: setsView,
    GetRecord: getView,
    ListRecords: listView,
    ListIdentifiers: listView,
};

/** The view of what came: `chain` is the list's first request and the part before, `again` asks once more. */
export function viewOf(place, came, chain, again) {
    if (came.root === null) {
        const [title, words] = wordsOfStatus(came.status, came.seconds);
        return faultView(title, words, null, button("Ask again", again));
    }
    const verb = place.asked.get("verb");
    const error = childOf(came.root, "error");
    const answer = childOf(came.root, verb);
    let view = faultView(...wordsOfStatus(200, null), null);
    if (error) {
        view = errorView(place, error, chain);
    } else if (answer && Object.hasOwn(VIEWS, verb)) {
        view = VIEWS[verb](place, answer, chain.asked.get("metadataPrefix") || "oai_dc", chain);
    }
    const when = line(`Answered at ${textOf(came.root, "responseDate")}.`, button("Ask again", again));
    view.body.push(element("footer", { class: "source" }, when, source(came.root)));
    return view;
}
