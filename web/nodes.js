// Elements of the page. Texts become text nodes; nothing is read as markup.

/** An element with these attributes and these children, which are nodes or texts. An attribute that is null is left out. */
export function element(name, attributes, ...children) {
    const made = document.createElement(name);
    for (const [attribute, value] of Object.entries(attributes)) {
        if (value !== null) {
            made.setAttribute(attribute, value);
        }
    }
    made.append(...children);
    return made;
}

/** A text of the archive: of an unknown language, in the direction of its first letter. */
export function foreign(text) {
    return element("bdi", { lang: "" }, text);
}

/** A name of the archive in the letters of a program, as an identifier. */
export function code(text) {
    return element("code", {}, foreign(text));
}

/** A text of the archive, which is a link where all of it is an address of the web. */
export function linked(text) {
    const isAddress = /^https?:\/\/\S+$/i.test(text);
    return isAddress ? element("a", { href: text, rel: "noreferrer" }, foreign(text)) : foreign(text);
}

/** A line of facts about something: its parts, each a text or a node, with spaces between them. */
export function line(...parts) {
    return element("p", { class: "facts" }, ...parts.flatMap((part) => [part, " "]).slice(0, -1));
}

/** A button that calls `act`. */
export function button(text, act) {
    const made = element("button", { type: "button" }, text);
    made.addEventListener("click", act);
    return made;
}

/** A list of terms, each with a node or a text; those without are left out. */
export function terms(pairs) {
    const shown = pairs.filter(([, value]) => value !== "" && value !== null);
    return element("dl", {}, ...shown.map(([term, value]) => element("div", {}, element("dt", {}, term), element("dd", {}, value))));
}

/** A `details` whose content is made when it is first opened. */
export function folded(summary, content) {
    const made = element("details", {}, summary);
    made.addEventListener("toggle", () => made.append(...content()), { once: true });
    return made;
}

/** Puts `make` of each value behind the list's others, 200 at a time, with a button for the next ones that gives them the focus. */
export function fill(list, values, make, first = 0) {
    const items = values.slice(first, first + 200).map(make);
    list.append(...items);
    const rest = values.length - first - items.length;
    if (rest > 0) {
        const more = element("li", {}, button(`Show ${Math.min(rest, 200)} more of ${rest.toLocaleString("en")}`, () => {
            more.remove();
            fill(list, values, make, first + 200);
            const next = list.children[first + 200];
            (next.querySelector("a, summary") || next).focus();
        }));
        list.append(more);
    }
    return list;
}
