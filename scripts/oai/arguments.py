"""The arguments of a script, which the parameters of its function declare."""

import argparse
import inspect
import typing


def parser_of(name, function):
    """The parser of a script's arguments. A parameter is an argument, which may be missing if it has a default; that of a `*` takes all further ones, and
    one that can only be named is an option. The annotation is its type, or the `Literal` of what it may be."""
    parser = argparse.ArgumentParser(f"scripts/run {name}", description=inspect.getdoc(function), formatter_class=argparse.RawDescriptionHelpFormatter)
    for it in inspect.signature(function).parameters.values():
        kind = {} if it.annotation is it.empty else {"type": type_of(it.annotation)}
        if it.annotation is bool:
            parser.add_argument(f"--{it.name}", action="store_true")
        elif it.kind is it.KEYWORD_ONLY:
            parser.add_argument(f"--{it.name}", metavar=it.name.upper(), default=it.default, **kind)
        elif it.kind is it.VAR_POSITIONAL:
            parser.add_argument(it.name, metavar=it.name.upper(), nargs="*", default=(), **kind)
        elif it.default is it.empty:
            parser.add_argument(it.name, metavar=it.name.upper(), **kind)
        else:
            usual = None if it.default is None else f"{it.default} if not given"
            parser.add_argument(it.name, metavar=it.name.upper(), nargs="?", default=it.default, help=usual, **kind)
    return parser


def type_of(annotation):
    """What makes a value of an argument: one of the texts of a `Literal`, or the type itself."""
    allowed = typing.get_args(annotation)
    if not allowed:
        return annotation

    def one_of_them(text):
        if text not in allowed:
            raise argparse.ArgumentTypeError(f"{text} is none of {', '.join(allowed)}")
        return text

    return one_of_them


def usage_of(name, function):
    """How a script is called, in short: `fuzz [SCRIPTS] [LINES] [SEED]`."""
    words = parser_of(name, function).format_usage().split()
    return " ".join(it for it in words[2:] if it != "[-h]")


def call(name, function, texts):
    """Calls a script with its arguments; its status. The status is 2 where it is not called so."""
    given = vars(parser_of(name, function).parse_args(texts))
    positional = []
    for it in inspect.signature(function).parameters.values():
        if it.kind is it.VAR_POSITIONAL:
            positional += given.pop(it.name)
        elif it.kind is not it.KEYWORD_ONLY:
            positional.append(given.pop(it.name))
    return function(*positional, **given)
