"""Files of specs/ and proofs/: what they import, and their definitions and lemmas with their statements.

A statement is brought into a form that doesn't depend on the names of its bound variables, on how they are grouped and on
whether they are in braces: `{a : ℕ} (b : ℕ) → a ≡ b → b ≡ a` and `(x y : ℕ) (same : x ≡ y) → y ≡ x` have one form.
"""
import re
from typing import Optional

# Words that aren't names: they are the same in each file.
PUNCTUATION = "(){},;"
WORD = re.compile(r"[(){},;]|[^\s(){},;]+")
HEAD = re.compile(r"((?:(?:pub|abbrev|unfoldable|opaque) )*)(\S+(?: \S+)*?) : ?(.*)")
TYPE_HEAD = re.compile(r"(?:pub )?(record|data)(?: pub)? (\S+)(.*)")


class Declaration:
    """A definition or a lemma: its name, whether others see it, its statement or type, its whole text, its first line, its lines."""

    def __init__(self, name: str, is_public: bool, kind: str, statement: str, line: int) -> None:
        self.name, self.is_public, self.kind, self.statement, self.line = name, is_public, kind, statement, line
        self.lines: list[str] = []
        # What the modules that it is in are over.
        self.telescope = ""

    def text(self) -> str:
        return "\n".join(self.lines)

    def parts(self) -> list[str]:
        """The constructors of a type. The fields of a record are no names of their own: a field comes after a point."""
        if self.kind != "data":
            return []
        heads = [re.match(r"\s+(\S+(?: \S+)*?) :(?: |$)", it) for it in self.lines[1:]]
        return [name for it in heads if it for name in it[1].split() if name != "field"]


class File:
    """A source of the logic: its imports as the local name's path, its modules' paths, its declarations at the top."""

    def __init__(self, text: str) -> None:
        self.imports: dict[str, str] = {}
        self.modules: dict[str, str] = {}
        self.declarations: list[Declaration] = []
        self.exports: list[tuple[str, str]] = []
        self.read(text)

    def read(self, text: str) -> None:
        current: Optional[Declaration] = None
        modules: list[tuple[int, str]] = []
        inside, use, head = False, "", ""
        lines = text.split("\n")
        for number, whole in enumerate(lines, 1):
            indent = len(whole) - len(whole.lstrip(" "))
            while modules and whole.strip() and indent < modules[-1][0]:
                modules.pop()
                current = None
            own = modules[-1][0] if modules else 0
            line = whole[own:]
            if head or line.startswith("module "):
                # The head of a module may have several lines, and what is in it any indent.
                head, current = f"{head} {line.strip()}".strip(), None
                if head.endswith(" where"):
                    telescope = re.match(r"module \S+(.*) where$", head)
                    within = next((it for it in lines[number:] if it.strip()), "")
                    shared = modules[-1][1] if modules else ""
                    modules.append((len(within) - len(within.lstrip(" ")), shared + (telescope[1] if telescope else "")))
                    head = ""
            elif use or re.match(r"(?:pub )?use ", line):
                # The names of a long import are on lines of their own.
                use, current = f"{use} {line.strip()}".strip(), None
                if "{" not in use or "}" in use:
                    self.read_use(use)
                    use = ""
            elif not line.strip():
                inside = False
            elif line.startswith(" "):
                if current and inside:
                    current.statement += " " + line.strip()
                if current and not line.lstrip().startswith("-- "):
                    current.lines.append(line)
            elif line.startswith("--"):
                inside = False
            elif re.match(r"(?:pub )?(?:mod|infix\w?) ", line):
                current = None
            else:
                current, inside = self.read_line(line, number, current, modules[-1][1] if modules else "")
                if current:
                    current.telescope = modules[-1][1] if modules else ""
                    current.lines.append(line)

    def read_line(
        self, line: str, number: int, current: Optional[Declaration], telescope: str
    ) -> tuple[Optional[Declaration], bool]:
        """Returns the declaration that a line belongs to, and whether its statement may go on in the next line."""
        of_type, head = TYPE_HEAD.match(line), HEAD.match(line)
        if of_type:
            made = Declaration(of_type[2], " pub " in f" {line}", of_type[1], of_type[3].removesuffix(" where"), number)
        elif head and " " not in head[2]:
            words = head[1].split()
            kind = "definition" if set(words) - {"pub"} else "lemma"
            made = Declaration(head[2], "pub" in words, kind, f"{telescope} → {head[3]}" if telescope.strip() else head[3], number)
        elif line.startswith("unfolding ") or line.startswith("}") or line.startswith(")"):
            return current, False
        else:
            name = re.findall(r"^(?:pub )?(\S+)", line)[0]
            if current and (name == current.name or "◌" in current.name or not re.match(r"[\w-]+$", name)):
                return current, False
            made = Declaration(name, line.startswith("pub "), "unsigned", "", number)
        self.declarations.append(made)
        return made, not of_type

    def read_use(self, line: str) -> None:
        path, brace, names = re.sub(r"^(?:pub )?use ", "", line).partition(".{")
        if brace:
            for it in filter(str.strip, names.rpartition("}")[0].split(",")):
                name, _, own = it.strip().partition(" as ")
                self.imports[own or name] = f"{path}.{name}"
                if line.startswith("pub "):
                    self.exports.append((own or name, f"{path}.{name}"))
        else:
            path, _, own = path.strip().partition(" as ")
            self.modules[own or path.rpartition(".")[2]] = path
            if line.startswith("pub "):
                self.exports.append((own or path.rpartition(".")[2], path))


def parts_of(imports: dict[str, str]) -> dict[str, str]:
    """Returns the words of imported mixfix names with their paths, such as `if`, `then` and `else` of `if◌then◌else◌`."""
    found = {}
    for name, path in imports.items():
        if "◌" in name:
            for word in name.split("◌"):
                if word:
                    found[word] = path
    return found


class Statement:
    """A statement in its form, with the paths that its names are imported from and the names of its own file in it."""

    def __init__(self, file: File, text: str) -> None:
        self.words = WORD.findall(text)
        self.imports = {**parts_of(file.imports), **file.imports}
        self.modules = file.modules
        self.own = {it.name for it in file.declarations}
        self.own |= {part for name in self.own if "◌" in name for part in name.split("◌") if part}
        self.paths: set[str] = set()
        self.locals: set[str] = set()
        self.form = " ".join(self.arrows(self.words, {}, 0))

    def name(self, word: str, bound: dict[str, str]) -> str:
        """Returns a word as the form has it, and notes where it comes from."""
        head, dot, rest = word.partition(".")
        if word in PUNCTUATION or word in ("→", "×", ":", "="):
            return word
        if head in bound:
            return bound[head] + dot + rest
        for whole, tail in ((word, ""), (head, dot + rest)):
            if whole in self.imports and whole:
                path = self.imports[whole]
                self.paths.add(path)
                return path.rpartition(".")[2] + tail
        if dot and head in self.modules:
            self.paths.add(f"{self.modules[head]}.{rest}")
            return rest
        if head in self.own:
            self.locals.add(head)
        return word

    def arrows(self, words: list[str], bound: dict[str, str], depth: int) -> list[str]:
        """Returns the form of a type: its arguments, each by its place, and what is behind the last arrow."""
        made: list[str] = []
        parts, place, bound = split_arrows(words), 0, dict(bound)
        for part in parts[:-1]:
            for names, inner in telescope(part):
                types = self.arrows(inner, bound, depth + 1)
                for name in names:
                    if name:
                        bound[name] = f"${depth}.{place}"
                    place += 1
                    made += ["("] + types + [")", "→"] if len(types) > 1 else types + ["→"]
        return made + self.body(parts[-1], bound, depth)

    def body(self, words: list[str], bound: dict[str, str], depth: int) -> list[str]:
        """Returns the form of words without an arrow at the top."""
        made: list[str] = []
        at, bound = 0, dict(bound)
        words = without_parentheses(words)
        while at < len(words):
            word = words[at]
            if word in "({" and len(word) == 1:
                end = closing(words, at)
                inner = words[at + 1 : end]
                groups = telescope(words[at : end + 1]) if ":" in inner else None
                if groups and groups[0][0][0]:
                    # The type of a pair, whose second part names the first.
                    made += ["("] + self.names(groups[0][0], bound, depth, len(made)) + [":"]
                    made += self.arrows(groups[0][1], bound, depth + 1) + [")"]
                else:
                    made += [word] + self.listed(inner, bound, depth + 1) + [words[end]]
                at = end + 1
            elif word.startswith("λ"):
                binders, behind = lambda_head(words, at)
                known = {**bound, **{it: f"%{depth}.{index}" for index, it in enumerate(binders)}}
                made += ["λ"] + [known[it] for it in binders] + ["."] + self.arrows(words[behind:], known, depth + 1)
                at = len(words)
            else:
                made.append(self.name(word, bound))
                at += 1
        return made

    def names(self, names: list[str], bound: dict[str, str], depth: int, place: int) -> list[str]:
        for index, it in enumerate(names):
            bound[it] = f"&{depth}.{place}.{index}"
        return [bound[it] for it in names]

    def listed(self, words: list[str], bound: dict[str, str], depth: int) -> list[str]:
        """Returns the form of what is between parentheses: parts with commas between."""
        made: list[str] = []
        start = 0
        for at in [*commas(words), len(words)]:
            made += self.arrows(words[start:at], bound, depth)
            if at < len(words):
                made.append(words[at])
            start = at + 1
        return made


def lambda_head(words: list[str], at: int) -> tuple[list[str], int]:
    """Returns the variables of the lambda at a place, and the place behind its dot. Their types, where written, are left out."""
    binders: list[str] = []
    place = at
    while place < len(words):
        word = words[place].removeprefix("λ")
        if word in ("(", "{"):
            end = closing(words, place)
            inner = words[place + 1 : end]
            binders += inner[: inner.index(":")] if ":" in inner else inner
            place = end + 1
            continue
        if word.removesuffix("."):
            binders.append(word.removesuffix("."))
        place += 1
        if word.endswith("."):
            break
    return binders, place


def closing(words: list[str], at: int) -> int:
    """Returns the place of the parenthesis that closes the one at a place."""
    depth = 0
    for place in range(at, len(words)):
        depth += words[place] in ("(", "{")
        depth -= words[place] in (")", "}")
        if depth == 0:
            return place
    return len(words) - 1


def commas(words: list[str]) -> list[int]:
    found: list[int] = []
    depth = 0
    for place, word in enumerate(words):
        depth += word in ("(", "{")
        depth -= word in (")", "}")
        if depth == 0 and word in (",", ";"):
            found.append(place)
    return found


def without_parentheses(words: list[str]) -> list[str]:
    """Returns words without the parentheses that the operators at the top don't need, as in `(a || b) ≡ true` and `(p) ⊎ (q)`."""
    levels: list[tuple[tuple[str, ...], set[str]]] = [(("⊎", "×"), set()), (("≡",), {"≡"})]
    for operators, binding in levels:
        parts: list[list[str]] = [[]]
        depth = 0
        for word in words:
            depth += word in ("(", "{")
            depth -= word in (")", "}")
            if depth == 0 and word in operators:
                parts += [[word], []]
            else:
                parts[-1].append(word)
        if len(parts) > 1:
            weak = binding | {"→", "⊎", "×", ",", ";", ":", "="}
            return [it for part in parts for it in (part if part[:1] in [[one] for one in operators] else operand(part, weak))]
    return words


def operand(part: list[str], weak: set[str]) -> list[str]:
    """Returns an operand without the parentheses around all of it, unless what is inside binds less than the operator."""
    if part[:1] != ["("] or closing(part, 0) != len(part) - 1:
        return without_parentheses(part)
    depth, inner = 0, part[1:-1]
    for word in inner:
        depth += word in ("(", "{")
        depth -= word in (")", "}")
        if depth == 0 and (word in weak or word.startswith("λ")):
            return part
    return without_parentheses(inner)


def split_arrows(words: list[str]) -> list[list[str]]:
    """Returns the parts between the arrows at the top; what is behind a lambda's dot is part of its body."""
    parts: list[list[str]] = [[]]
    depth, is_lambda = 0, False
    for word in words:
        depth += word in ("(", "{")
        depth -= word in (")", "}")
        is_lambda |= depth == 0 and word.startswith("λ")
        if word == "→" and depth == 0 and not is_lambda:
            parts.append([])
        else:
            parts[-1].append(word)
    return parts


def telescope(words: list[str]) -> list[tuple[list[str], list[str]]]:
    """Returns what is before an arrow as pairs of names and their type; a type alone has the name ""."""
    found: list[tuple[list[str], list[str]]] = []
    at = 0
    while at < len(words):
        if words[at] not in ("(", "{"):
            return [([""], words)]
        end = closing(words, at)
        inner = words[at + 1 : end]
        colon = next((it for it, word in enumerate(inner) if word == ":" or word in "({"), None)
        if colon and inner[colon] == ":":
            found.append((inner[:colon], inner[colon + 1 :]))
        elif words[at] == "{" and all(re.match(r"[\w𝓤𝓛Γ]+$", it) for it in inner):
            found.append((inner, []))
        else:
            return [([""], words)]
        at = end + 1
    return found


def origin(path: str) -> str:
    """Returns the crate that a path is of, or its first word for what isn't of a crate."""
    parts = path.split(".")
    return parts[1] if parts[0] == "Rattle" and len(parts) > 1 else parts[0]
