"""What the writer of a script may have meant where it goes wrong, in words. The place itself and what could stand there explain.py tells."""

import difflib

import script_text

# Words and signs of other languages, and what is written here.
WORDS = {
    "while": "there is no `while`: `repeat N { .. }` runs a block N times",
    "for": "there is no `for`: `repeat N { .. }` runs a block N times",
    "let": "a name is given a value by `set x = 5;`",
    "var": "a name is given a value by `set x = 5;`",
    "int": "a name is given a value by `set x = 5;`",
    "return": "there is no `return`, and there are no functions",
    "fn": "there are no functions",
    "def": "there are no functions",
    "spawn": "a task is started by `async { .. }`",
}
SIGNS = {
    ">": "there is no `>`: write `(b < a)` for a > b",
    "/": "there is no division, and a comment begins with `#`",
    "%": "there is no remainder",
    "!": "there is no `!`: `(x == 0)` is 1 where x is 0",
    "&": "there is no `&`: `(a * b)` is 0 where one of them is 0",
    "|": "there is no `|`: `(a + b)` is 0 where both are 0 and none is below 0",
    '"': "there are no texts: values are numbers",
    "'": "there are no texts: values are numbers",
    ".": "there are no fractions: values are whole numbers",
}
MARKS = [
    (b"\xef\xbb\xbf", "the file begins with a byte order mark: save it as UTF-8 without one"),
    (b"\xff\xfe", "the file is in UTF-16: save it as UTF-8 or ASCII"),
    (b"\xfe\xff", "the file is in UTF-16: save it as UTF-8 or ASCII"),
]
# Bytes in the midst of a script, and what an editor has put there.
BYTES = [
    (b"\xc2\xa0", "this is a no-break space: only the space, the tab and the end of a line stand between words"),
    (b"\xe2\x80\x9c", "there are no texts: values are numbers"),
    (b"\xe2\x80\x98", "there are no texts: values are numbers"),
]
OPERATIONS = ("+", "-", "*", "<", "==")


def of_start(text):
    """Hints at a file that is no script from its first byte on."""
    found = [hint for mark, hint in MARKS if text.startswith(mark)]
    if not found and b"\0" in text[:2]:
        found.append("the file is in UTF-16: save it as UTF-8 or ASCII")
    if text.startswith(b"rx10 trace"):
        found.append("this is a trace: `rx10 draw FILE` shows it, and `rx10 verify SCRIPT TRACE` judges it")
    if text.startswith(b"rx10 pair"):
        found.append("this is a script with its trace: `rx10 verify FILE` judges it")
    return found


def of_statement(token, after):
    """Hints where a statement must come, by the word that stands there and the token after it."""
    if token.kind == "word":
        if token.text in WORDS:
            return [WORDS[token.text]]
        if after.text == "=":
            return ["a value is given by `set %s = ..;`" % token.text]
        if token.text in ("else", "catch"):
            return ["`%s` follows the block of `%s`" % (token.text, "if" if token.text == "else" else "try")]
        near = difflib.get_close_matches(token.text, script_text.STARTS, 1)
        return ["is `%s` meant?" % near[0]] if near else []
    if token.text == "}":
        return ["no `{` is open here"]
    if token.text == ";":
        return ["there is no empty statement"]
    return []


def of_expression(token, before):
    """Hints where an expression must come."""
    if token.text == "-":
        return ["a number below 0 is written as a difference: `(0 - 5)`"]
    if before and before.text == "<" and token.text == "=":
        return ["there is no `<=`: write `(a < (b + 1))`"]
    if before and before.text in OPERATIONS and token.text in OPERATIONS:
        return ["one operation stands between two values"]
    if token.text in script_text.KEYWORDS:
        return ["`%s` is a word of the language, and no name" % token.text]
    return []


def of_end(token, before, wanted):
    """Hints where a value has ended and something else must come."""
    if wanted == ["`;`"] and token.text in OPERATIONS:
        return ["an operation stands in parentheses: `(a %s b)`" % token.text]
    if wanted == ["`)`"] and token.text in OPERATIONS:
        return ["a pair of parentheses holds one operation: `((a + b) %s c)`" % token.text]
    if "`*`" in wanted and token.text == ")":
        return ["a pair of parentheses holds an operation: leave it out here"]
    if wanted == ["`else`"]:
        return ["an `if` has an `else`, which may do nothing: `else { }`"]
    if wanted == ["`catch`"]:
        return ["a `try` has a `catch { .. }`, or a `catch dead { .. }` for lost places alone"]
    if token.text == "[":
        return ["a word of a block is read by `get x = %s[..];`" % (before.text if before and before.kind == "word" else "r")]
    return []


def hints(text, wrong):
    """Hints for a script that goes wrong, each a line."""
    token, wanted, before = wrong.token, wrong.wanted, wrong.before
    if token.at == 0:
        found = of_start(text)
        if found:
            return found
    if token.kind == "other" and token.text in SIGNS:
        return [SIGNS[token.text]]
    found = [hint for mark, hint in BYTES if token.kind == "other" and text.startswith(mark, token.at)]
    if found:
        return found
    tokens = script_text.tokens_of(text)
    after = next((it for it in tokens if it.at > token.at), tokens[-1])
    named = [it.strip("`") for it in wanted if it.strip("`").isalpha() and it.startswith("`")]
    near = difflib.get_close_matches(token.text, named, 1) if token.kind == "word" else []
    if near:
        found = ["is `%s` meant?" % near[0]]
    elif "a statement" in wanted:
        found = of_statement(token, after)
    elif "`(`" in wanted:
        found = of_expression(token, before)
    else:
        found = of_end(token, before, wanted)
    return found + of_lines(text, wrong)


def of_lines(text, wrong):
    """Hints at another line than that of the token: a `;` that is missing above it, and a block that is still open at the end."""
    found = []
    line_of = lambda at: text.count(b"\n", 0, at) + 1
    if wrong.wanted == ["`;`"] and wrong.before and line_of(wrong.before.at) < line_of(wrong.token.at):
        found.append("the `;` is missing at the end of line %d" % line_of(wrong.before.at))
    if wrong.token.kind == "end" and wrong.brace is not None and "`}`" in wrong.wanted:
        found.append("the `{` of line %d is not closed" % line_of(wrong.brace))
    return found
