// Requests of OAI-PMH 2.0 and the documents that answer them. Section numbers are those of the protocol document.

const NAMESPACE = "http://www.openarchives.org/OAI/2.0/";
const DECLARATIONS = "http://www.w3.org/2000/xmlns/";
const SCHEMA_INSTANCE = "http://www.w3.org/2001/XMLSchema-instance";

/** The repository and the arguments that a fragment `#/NAME?ARGUMENTS` names, Identify where it has no arguments; null where it names none. */
export function placeOf(fragment) {
    const found = /^#\/([a-z0-9-]{1,32})(?:\?(.*))?$/s.exec(fragment);
    return found && { name: found[1], asked: new URLSearchParams(found[2] || "verb=Identify") };
}

/** The fragment of a request. */
export function fragmentOf(name, asked) {
    return `#/${name}?${new URLSearchParams(asked)}`;
}

/** Sends the request. Comes back with the status (0 where no answer came), the seconds of Retry-After or null, and the root element of the
 * document, null where it is none of OAI-PMH. */
export function exchange(name, asked) {
    return new Promise((resolve) => {
        const request = new XMLHttpRequest();
        request.open("GET", `/oai/${name}?${asked}`);
        request.onloadend = () => resolve({
            status: request.status,
            seconds: request.getResponseHeader("Retry-After"),
            root: request.status === 200 ? protocolRoot(request.responseXML) : null,
        });
        request.send();
    });
}

/** The root of a document of the protocol (section 3.2), or null. */
function protocolRoot(page) {
    const root = page && page.documentElement;
    return root && root.namespaceURI === NAMESPACE && root.localName === "OAI-PMH" && childOf(root, "responseDate") ? root : null;
}

/** The children that have this name in the protocol's namespace. */
export function childrenOf(parent, name) {
    return parent ? [...parent.children].filter((child) => child.namespaceURI === NAMESPACE && child.localName === name) : [];
}

/** The first of them, or null. */
export function childOf(parent, name) {
    return childrenOf(parent, name)[0] || null;
}

/** The text of the first of them, empty where there is none. */
export function textOf(parent, name) {
    const child = childOf(parent, name);
    return child ? child.textContent : "";
}

/** The header of a record (section 2.5): its identifier, datestamp, setSpecs, and whether it is deleted. */
export function readHeader(header) {
    return {
        identifier: textOf(header, "identifier"),
        datestamp: textOf(header, "datestamp"),
        sets: childrenOf(header, "setSpec").map((spec) => spec.textContent),
        isDeleted: header !== null && header.getAttribute("status") === "deleted",
    };
}

/** The element that a record is, or null where it has no metadata. */
export function containerOf(record) {
    const metadata = childOf(record, "metadata");
    return metadata && metadata.firstElementChild;
}

/** The elements about a record (section 2.5). */
export function aboutOf(record) {
    return childrenOf(record, "about").flatMap((about) => [...about.children]);
}

/** Whether an element is a list of fields, whose names and texts are all that there is to show. */
export function isList(container) {
    const isPlain = (attribute) => attribute.namespaceURI === DECLARATIONS || attribute.namespaceURI === SCHEMA_INSTANCE;
    return [...container.attributes].every(isPlain)
        && [...container.children].every((field) => field.children.length === 0 && field.attributes.length === 0)
        && [...container.childNodes].every((node) => node.nodeType === Node.ELEMENT_NODE || !isShown(node, false));
}

/** The fields of such a list, each with its name and its text. */
export function readFields(container) {
    return [...container.children].map((field) => ({ name: field.localName, text: field.textContent }));
}

/** Whether a node is an element, or a text; white space alone stands between elements for the eye, and counts where it is kept. */
function isShown(node, isKept) {
    const isText = node.nodeType === Node.TEXT_NODE || node.nodeType === Node.CDATA_SECTION_NODE;
    return node.nodeType === Node.ELEMENT_NODE || (isText && (isKept || !/^[ \t\r\n]*$/.test(node.data)));
}

/** An element as it is written: its name, the namespaces that it declares, by their prefixes, its attributes, and its elements and texts in order.
 * White space alone counts where xml:space says so. */
export function readTree(container, isKept = false) {
    const attributes = [...container.attributes];
    const declared = attributes.filter((it) => it.namespaceURI === DECLARATIONS).map((it) => ({ prefix: it.prefix ? it.localName : "", namespace: it.value }));
    const space = container.getAttribute("xml:space");
    const keeps = space === null ? isKept : space === "preserve";
    return {
        name: container.nodeName,
        namespaces: declared.sort((one, other) => one.prefix < other.prefix ? -1 : 1),
        attributes: attributes.filter((it) => it.namespaceURI !== DECLARATIONS).map((it) => ({ name: it.name, value: it.value })),
        inside: [...container.childNodes].filter((node) => isShown(node, keeps)),
        keeps,
    };
}

/** What a list says of its parts (section 3.5); null where it came whole. */
export function readToken(list) {
    const token = childOf(list, "resumptionToken");
    return token && {
        text: token.textContent,
        ends: token.getAttribute("expirationDate"),
        size: Number(token.getAttribute("completeListSize")),
        cursor: Number(token.getAttribute("cursor")),
    };
}

/** The sets of an answer as a tree (section 2.6), in their order: of each its setSpec, its name and the sets right below it. A set whose
 * parent is not there stands at the top. */
export function readSets(list) {
    const top = [];
    const known = new Map();
    for (const element of childrenOf(list, "set")) {
        const set = { spec: textOf(element, "setSpec"), name: textOf(element, "setName"), below: [] };
        const parent = known.get(set.spec.slice(0, Math.max(set.spec.lastIndexOf(":"), 0)));
        known.set(set.spec, set);
        (parent ? parent.below : top).push(set);
    }
    return { top, all: [...known.values()] };
}
