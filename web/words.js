// What errors of the protocol and statuses of HTTP mean, in words.

/** The errors of OAI-PMH 2.0, section 3.6: what each says, and what to do. */
const ERRORS = {
    badVerb: ["This is no request", "The verb is missing, is there twice, or is none of the six that OAI-PMH has."],
    badArgument: ["An argument is wrong", "One is missing, stands twice, is not known here, or is not written as it must be. A day is written as "
        + "2024-12-31. A second is written as 2024-12-31T00:00:00Z, where the granularity is seconds. Both dates are of one kind, and the first "
        + "is not after the last."],
    badResumptionToken: ["This list has ended", "A list stays open for some time after each of its parts. This one is no longer open, or its token "
        + "was never handed out. Begin the list again."],
    cannotDisseminateFormat: ["Not in this format", "The item has no record in this format, or the repository does not have the format."],
    idDoesNotExist: ["No such item", "No item of this repository has this identifier."],
    noRecordsMatch: ["No records", "No record of the repository lies between these dates, in this set and in this format."],
    noMetadataFormats: ["No formats", "The item has no record in any format: it is deleted."],
    noSetHierarchy: ["No sets", "This repository has no sets."],
};

/** Statuses of HTTP other than 200 and 503. */
const STATUSES = {
    0: ["No answer", "The server cannot be reached. Look whether this machine is connected, and ask again."],
    400: ["A bad request", "The server could not read the request."],
    403: ["Not allowed", "The server does not answer this address."],
    404: ["No such repository", "No repository of this server has this name."],
    414: ["Too long", "The request is longer than the server takes."],
    500: ["The archive failed", "It could not read what it has stored. Whoever runs it should look at its log."],
    502: ["The archive is down", "The proxy answers, but the archive behind it does not. It may be starting: ask again in a minute."],
    504: ["The archive is busy", "It did not answer in time. Ask again in a minute."],
};

/** The title and the meaning of an error of the protocol. */
export function wordsOfError(code) {
    return Object.hasOwn(ERRORS, code) ? ERRORS[code] : ["An error", "The repository answers with an error that OAI-PMH does not have."];
}

/** The title and the meaning of an answer that is no document: its status, and the seconds of Retry-After or null. */
export function wordsOfStatus(status, seconds) {
    if (status === 503 && seconds !== null) {
        return [`Come again in ${seconds} seconds`, "As many lists are open as the repository allows, or it was out of memory for a moment. "
            + `It asks to come again in ${seconds} seconds.`];
    }
    if (status === 200) {
        return ["No document", "What came is no document of OAI-PMH."];
    }
    return Object.hasOwn(STATUSES, status) ? STATUSES[status] : ["No document", `The server answers with the status ${status}.`];
}

/** What Identify's deletedRecord promises (section 2.5.1). */
export const DELETED_RECORDS = {
    no: "no: nothing is kept of a deleted item",
    transient: "transient: a deleted item is shown as deleted, perhaps not for ever",
    persistent: "persistent: a deleted item is shown as deleted for ever",
};

/** What Identify's granularity says (section 3.3). */
export const GRANULARITIES = {
    "YYYY-MM-DD": "days",
    "YYYY-MM-DDThh:mm:ssZ": "seconds",
};

/** A number with its noun, in the plural with an s unless that is given. */
export function counted(count, noun, plural = `${noun}s`) {
    return `${count.toLocaleString("en")} ${count === 1 ? noun : plural}`;
}
