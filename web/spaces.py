"""Scripts and styles without the comments and spaces that divide nothing.

A script is cut into tokens: comments, strings, templates, regular expressions, words and marks. Each token stays as it
is. Between two tokens is nothing, or a space where they would read as one, or a line end where one stood that may end a
statement. spaces_test.mjs compares the syntax trees.
"""
import re

# What begins at a place of a script. A template and a regular expression are found by hand.
TOKEN = re.compile(r"""
    (?P<space>\s+) | (?P<comment>//[^\n]*|/\*.*?\*/)
  | (?P<string>"(?:[^"\\\n]|\\.)*"|'(?:[^'\\\n]|\\.)*')
  | (?P<word>[\w$\#\u0080-\U0010ffff]+) | (?P<template>`)
  | (?P<mark>\.\.\.|=>|\+\+|--|\?\?=|\?\?|\?\.(?!\d)|&&=|\|\|=|&&|\|\||===|!==|==|!=|<=|>=|\*\*|[-+*/%&|^]=|<<=|>>>=|>>=|<<|>>>|>>|.)
""", re.VERBOSE | re.DOTALL)
REGEX = re.compile(r"/(?![*/])(?:[^\\/\[\n]|\\.|\[(?:[^\]\\\n]|\\.)*\])+/[a-z]*")
# After these words a / begins a regular expression, and after all others it divides.
BEFORE_REGEX = frozenset("return typeof case in of do else void delete new throw instanceof yield await".split())
# A line end after these words ends their statement.
ENDED_BY_LINE = frozenset("return break continue throw yield async".split())
# A statement never ends after these marks, nor, but for those words, before the others.
OPEN_AFTER = frozenset("{ ( [ , ; : ? && || ?? = => + - * % & | ^ < > == === != !== <= >= += -= *= ! . ?. ...".split())
OPEN_BEFORE = frozenset(") ] , ; : ? . ?. && || ?? = + - * % & | ^ < > == === != !== <= >= += -= *=".split())


def template_end(text, start):
    """The place after a template that begins at a place, with the scripts that stand in it."""
    at = start + 1
    while text[at] != "`":
        if text[at] == "\\":
            at += 2
        elif text.startswith("${", at):
            at = script_end(text, at + 2)
        else:
            at += 1
    return at + 1


def script_end(text, start):
    """The place after the } that closes a script in a template."""
    depth = 1
    for _, token, end in tokens_from(text, start):
        depth += (token == "{") - (token == "}")
        if depth == 0:
            return end
    raise ValueError("a template is not closed")


def divides(before):
    """Whether a / after a token divides: after a value, or what closes one."""
    return before in ("++", "--") or before not in BEFORE_REGEX and bool(re.search(r"""[\w$)\]}"'`\u0080-\U0010ffff]$""", before))


def tokens_from(text, at):
    """The kind, the text and the end of each token from a place on."""
    before = ""
    while at < len(text):
        found = TOKEN.match(text, at)
        kind, token = found.lastgroup, found.group()
        if kind == "template":
            token = text[at:template_end(text, at)]
        elif kind == "mark" and token[0] == "/" and not divides(before):
            expression = REGEX.match(text, at)
            kind, token = "regex", expression.group()
        at += len(token)
        if kind not in ("space", "comment"):
            before = token
        yield kind, token, at


def tokens(text):
    """The tokens of a script, and before each whether spaces and whether a line end stood there."""
    has_space = has_line = False
    for kind, token, _ in tokens_from(text, 0):
        if kind in ("space", "comment"):
            has_space = True
            has_line = has_line or "\n" in token
            continue
        yield kind, token, has_space, has_line
        has_space = has_line = False


def would_join(before, token):
    """Whether two tokens without anything between them would read as other ones."""
    pair = before[-1] + token[0]
    are_words = re.fullmatch(r"[\w$#\u0080-\U0010ffff]{2}", pair)
    return bool(are_words) or pair in ("++", "--", "//", "/*", "?.", "<!", "->") or re.fullmatch(r"\d\.|/\w", pair) is not None


def may_end(before, token):
    """Whether a line end between two tokens may end a statement."""
    return before not in OPEN_AFTER and (token not in OPEN_BEFORE or before in ENDED_BY_LINE)


def script_without_spaces(text):
    """A script without the comments and spaces that divide nothing."""
    parts, before = [], ""
    for _, token, has_space, has_line in tokens(text):
        if before and has_line and may_end(before, token):
            parts.append("\n")
        elif before and has_space and would_join(before, token):
            parts.append(" ")
        parts.append(token)
        before = token
    return "".join(parts) + "\n"


def style_without_spaces(text):
    """A style without the comments and spaces that divide nothing; strings stay as they are."""
    parts = re.split(r"""("(?:[^"\\]|\\.)*"|'(?:[^'\\]|\\.)*')""", re.sub(r"/\*.*?\*/", "", text, flags=re.DOTALL))
    for place in range(0, len(parts), 2):
        plain = re.sub(r"\s+", " ", parts[place])
        plain = re.sub(r" ?([{};,]) ?", r"\1", plain)
        parts[place] = re.sub(r"([{;][\w-]+): ", r"\1:", plain).replace(";}", "}")
    return "".join(parts).strip() + "\n"
