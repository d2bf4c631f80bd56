"""The names of the scripts, and the module of each. A script `some-name` is the function `some_name` of its module."""

import importlib

GROUPS = {
    "The tests, the pages and the sources": {
        "test": "tests",
        "readme": "readme",
        "contracts": "contracts",
        "words": "words",
        "clauses": "clauses",
        "statement": "statement",
        "pages": "pages",
        "lives": "fuzz",
        "planted": "planted",
        "marks": "marks",
        "tools": "layout",
    },
    "What the programs answer": {
        "exit-statuses": "statuses",
        "daemon-statuses": "statuses",
        "reports": "reports",
        "keys": "keys",
        "status": "status",
        "shards": "shards",
        "fuzz": "fuzz",
        "fuzz-elements": "fuzz_elements",
        "elements": "elements",
        "record-formats": "record_formats",
        "interop": "interop",
        "valid": "documents",
        "well-formed": "documents",
        "mirror-trial": "mirror_trial",
        "mirror-dachs": "mirror_dachs",
        "deposit-trial": "deposit_trial",
        "web": "web",
        "package": "package",
    },
    "What goes wrong around them": {
        "kill": "kill",
        "checkpoint-kills": "checkpoint_kills",
        "switch-kills": "switch_kills",
        "open-list": "beside",
        "full-disk": "disks",
        "daemon-full-disk": "disks",
        "idle-clients": "idle",
        "proxy-answers": "proxy",
        "proxy-load": "proxy",
        "fuzz-failures": "fuzz_failures",
        "refuse-growth": "refusals",
        "refuse-allocations": "refusals",
    },
    "What they cost": {
        "bench": "bench",
        "set-costs": "sets",
        "daemon-bench": "connections",
        "serving": "connections",
        "instructions": "instructions",
        "instructions-growth": "instructions",
        "instructions-elements": "instructions",
        "hostile": "hostile",
        "recovery": "recovery",
        "checkpoint-size": "recovery",
        "checkpoint-beside": "beside",
        "pool-speed": "speeds",
        "store-speed": "speeds",
        "journal-speed": "speeds",
    },
}


def script(name):
    """The function of a script."""
    module = next(group[name] for group in GROUPS.values() if name in group)
    return getattr(importlib.import_module(f"oai.{module}"), name.replace("-", "_"))
