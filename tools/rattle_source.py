"""Reads what a Rattle source file declares: its functions with their contracts, and its types.

It knows no more of the language than it needs: where comments and literals end, which brackets belong together, and that a
signature ends where a clause or the body begins.
"""
import re

OPENING = {"{": "}", "(": ")", "[": "]"}
CLAUSE = re.compile(r"(requires|ensures|decreases|measure)(\*?)\s*(\w*)(\*?)\s*(?=\{)")
CLAUSE_WORD = re.compile(r"\b(requires|ensures|where|decreases|measure)\b")
ITEM = re.compile(r"\b(fn|impl|trait|enum|struct|mod|use|const|static|type)\b|[{;#]")


def hidden(text):
    """The text with spaces in place of comments and of what stands in literals, each character at its place."""
    out, at = [], 0
    while at < len(text):
        if text.startswith("//", at):
            end = text.find("\n", at)
            end = len(text) if end < 0 else end
        elif text.startswith("/*", at):
            end = text.index("*/", at) + 2
        elif text[at] == '"':
            end = at + 1
            while text[end] != '"':
                end += 2 if text[end] == "\\" else 1
            end += 1
        else:
            literal = re.compile(r"'(\\[^'\n]*|[^'\\\n])'").match(text, at)
            if not literal:
                out.append(text[at])
                at += 1
                continue
            end = literal.end()
        out.append(re.sub(r"[^\n]", " ", text[at:end]))
        at = end
    return "".join(out)


def closing(text, at):
    """Where the bracket that opens at this place is closed."""
    opens, closes, depth = text[at], OPENING[text[at]], 0
    while True:
        if text[at] == opens:
            depth += 1
        elif text[at] == closes:
            depth -= 1
            if depth == 0:
                return at
        at += 1


def past_angles(text, at):
    """The place behind the angle brackets that open here, if they do."""
    if text[at] != "<":
        return at
    depth = 0
    while True:
        if text[at] == "<":
            depth += 1
        elif text[at] == ">" and text[at - 1] != "-":
            depth -= 1
            if depth == 0:
                return at + 1
        at += 1


def flat(text):
    return re.sub(r"\s+", " ", text).strip()


class Function:
    """A function: its name, its parameters and result as text, its clauses as (word, name, text), and where it stands."""

    def __init__(self, plain, text, at):
        name = re.compile(r"fn\s+(\w+)").match(plain, at)
        self.name = name[1]
        opens = plain.index("(", past_angles(plain, name.end()))
        closes = closing(plain, opens)
        self.bounds = flat(text[name.end() : opens])
        self.parameters = flat(text[opens + 1 : closes])
        end = self.past_result(plain, closes + 1)
        result = flat(text[closes + 1 : end])
        self.result = result[2:].strip() if result.startswith("->") else ""
        self.clauses = []
        end = self.past_clauses(plain, text, end)
        self.end = end + 1 if plain[end] == ";" else closing(plain, end) + 1

    @staticmethod
    def past_result(plain, at):
        depth = 0
        while True:
            if depth == 0 and (CLAUSE_WORD.match(plain, at) or plain[at] in "{;"):
                return at
            if plain[at] in "([<":
                depth += 1
            elif plain[at] in ")]" or (plain[at] == ">" and plain[at - 1] != "-"):
                depth -= 1
            at += 1

    def past_clauses(self, plain, text, at):
        while True:
            while plain[at].isspace():
                at += 1
            clause = CLAUSE.match(plain, at)
            if clause:
                end = closing(plain, clause.end())
                self.clauses.append((clause[1], clause[3], flat(text[clause.end() + 1 : end])))
                at = end + 1
            elif plain.startswith("where", at):
                while not (plain[at] in "{;" or (CLAUSE_WORD.match(plain, at) and not plain.startswith("where", at))):
                    self.bounds += text[at]
                    at += 1
            else:
                return at

    def ensures(self):
        return [(name, text) for word, name, text in self.clauses if word == "ensures"]


class Block:
    """An `impl` or a `trait`: the trait of an `impl`, if it is one of a trait, and the type."""

    def __init__(self, word, head, is_public):
        self.is_trait = word == "trait"
        self.is_public = is_public
        head = head[past_angles(head, 0) :].strip() if head.startswith("<") else head
        self.trait = None
        if " for " in head and not self.is_trait:
            self.trait, head = head.split(" for ", 1)
            self.trait = re.sub(r"<'\w+>", "", self.trait).strip()
        self.type = re.match(r"\w+", head)[0]


class Source:
    """What one file declares."""

    def __init__(self, module, text):
        self.module = module
        self.functions = []  # (function, block or None, is public)
        self.types = []  # (word, name, is public, text)
        self.exports = []
        self.modules = []  # public ones
        self.aliases = dict(re.findall(r"(\w+) as (\w+)", " ".join(re.findall(r"ghost use [^;]*;", text))))
        self.aliases = {other: name for name, other in self.aliases.items()}
        self.text = text
        self.plain = hidden(text)
        self.read(0, len(text), None)

    def read(self, at, end, block):
        attributes = ""
        while True:
            item = ITEM.search(self.plain, at)
            if not item or item.start() >= end:
                return
            start, word = item.start(), item[0]
            if word == "#":
                close = closing(self.plain, self.plain.index("[", start))
                attributes += self.text[start : close + 1]
                at = close + 1
                continue
            at = self.item(word, start, block, attributes)
            attributes = ""

    def item(self, word, start, block, attributes):
        plain, text = self.plain, self.text
        if word == ";":
            return start + 1
        if word == "{":
            return closing(plain, start) + 1
        before = max(plain.rfind(sign, 0, start) for sign in "\n;{}")
        lead = plain[before + 1 : start]
        is_public = bool(re.search(r"\bpub\b(?!\s*\()", lead))
        is_test = "cfg(test)" in attributes or "#[test]" in attributes
        if word == "fn":
            function = Function(plain, text, start)
            if not is_test:
                self.functions.append((function, block, is_public))
            return function.end
        if word in ("use", "const", "static", "type"):
            end = self.past_semicolon(start)
            if word == "use" and is_public and not re.search(r"ghost\s*$", lead):
                self.exports += re.findall(r"(\w+)\s*(?=[,}]|$)", flat(text[start + 3 : end - 1]))
            return end
        head = start
        while plain[head] not in "{;(" or (plain[head] == "(" and word in ("impl", "trait", "mod")):
            head += 1
        if word == "mod" and is_public:
            self.modules.append(re.match(r"mod\s+(\w+)", plain[start:])[1])
        if plain[head] == ";":
            return head + 1
        close = closing(plain, head)
        if word in ("impl", "trait") and not is_test:
            self.read(head + 1, close, Block(word, flat(text[start + len(word) : head]), is_public))
            if word == "trait":
                self.types.append((word, Block(word, flat(text[start + 5 : head]), is_public).type, is_public, ""))
        if word in ("enum", "struct"):
            name = re.match(r"\w+\s+(\w+)", plain[start:])[1]
            self.types.append((word, name, is_public, plain[head + 1 : close]))
        return close + 1

    def past_semicolon(self, at):
        depth = 0
        while self.plain[at] != ";" or depth:
            if self.plain[at] in "([{":
                depth += 1
            elif self.plain[at] in ")]}":
                depth -= 1
            at += 1
        return at + 1


def variants(body):
    """The names of an enum's variants."""
    names, depth = [], 0
    for part in re.finditer(r"#\[[^\]]*\]|[({\[]|[)}\]]|,|\w+", body):
        sign = part[0]
        if sign.startswith("#["):
            continue
        if sign in "({[":
            depth += 1
        elif sign in ")}]":
            depth -= 1
        elif sign == ",":
            continue
        elif depth == 0:
            names.append(sign)
    return names
