"""Reads Rattle sources as text, for the scripts beside it: what a file brings in by `use`, its public functions, and the clauses of each."""
import re

TOKEN = re.compile(r'"[^"\n]*"|[(){};,]|[^\s(){};,"]+')
OPEN, SHUT = "({", ")}"
FUNCTION = re.compile(r'^( *)pub (?:const |unsafe )*(?:extern "C" )?fn (\w+)', re.M)
HOLDER = re.compile(r"(?:(pub trait)|trait|impl)\b")
DECLARED = re.compile(r"^pub(?: unsafe)? (?:struct|enum|trait) (\w+)", re.M)
METHOD = re.compile(r'^    (?:const |unsafe |final )*fn (\w+)')
CLAUSE = re.compile(r"\s*(ghost|requires|ensures)\b(\*?)\s*(\w*)\s*(:?)\s*(?=\{)")
USE = re.compile(r"^\s*(?:pub )?(?:unfoldable )?(?:pub )?(ghost )?use ([^\s;{]+?)(?:\.\{([^}]*)\}| as (\S+?))?;?\s*$", re.M)


def without_comments(text):
    """A .rt file's text, with spaces in place of its comments."""
    return re.sub(r"//[^\n]*", lambda found: " " * len(found[0]), text)


def uses(path):
    """What a file brings in for clauses and definitions: (name here, module, name there), and (name here, module, None) for a whole module."""
    text = path.read_text()
    is_rust = path.suffix == ".rt"
    for ghost, module, names, alias in USE.findall(without_comments(text) if is_rust else text):
        if is_rust and not ghost:
            continue
        if not names:
            yield alias or module.rpartition(".")[2], module, None
        for name in re.split(r"\s*,\s*", names.strip()) if names else []:
            there, _, here = name.partition(" as ")
            below, _, last = f"{module}.{there.strip()}".rpartition(".")
            yield here.strip() or last, below, last


def tokens_of(text):
    """A term as a list of tokens; a name in quotes, as «data», is that name."""
    return [token.replace("«", "").replace("»", "") for token in TOKEN.findall(text)]


def end_of(text, at):
    """The place behind the bracket that shuts the one at `at`. Brackets in quoted text do not count."""
    depth = 0
    for found in re.compile(r'"(?:[^"\\\n]|\\.)*"|[][(){}]').finditer(text, at):
        depth += (found[0] in "([{") - (found[0] in ")]}")
        if depth == 0:
            return found.end()
    raise ValueError("a bracket that nothing shuts")


class Function:
    """A public function: its path, what it takes and answers, and its clauses as (word, is starred, name, tokens)."""

    def __init__(self, path, source, text, at):
        self.path, self.source, self.clauses, self.is_read = path, source, [], True
        while at < len(text) and text[at] != "(":
            # the parameters of a generic function
            at = angle_end(text, at) if text[at] == "<" else at + 1
        end = end_of(text, at)
        self.takes = text[at + 1 : end - 1]
        head = re.compile(r"(.*?)(?=\{|;\s*\n|\b(?:ghost|requires|ensures)\b)", re.S).match(text, end)
        answer = re.match(r"\s*->\s*(.*?)\s*(?:\bwhere\b.*)?$", head[1], re.S)
        self.result = answer[1] if answer else None
        at = head.end()
        while clause := CLAUSE.match(text, at):
            at = end_of(text, clause.end())
            tokens = tokens_of(text[clause.end() + 1 : at - 1])
            self.clauses.append((clause[1], bool(clause[2]), clause[3], tokens))
            self.is_read = self.is_read and not any(token.startswith("--") for token in tokens)
        # what follows is the body, or none in a trait, or something that is not read here
        self.is_read = self.is_read and re.compile(r"\s*[{;]").match(text, at) is not None
        holder = path.split("::")[-2] if "::" in path else ""
        self.parameters = {name: kind.strip() for name, kind in FIELD.findall(re.sub(r"\bmut (\w+):", r"\1:", self.takes))}
        me = re.match(r"\s*(&?)(?:'\w+ )?(mut )?self\b", self.takes)
        if me:
            self.parameters["self"] = holder if not me[1] else f"&mut {holder}" if me[2] else f"&{holder}"
        # what a function may write to: each with the type of what is lent
        self.outputs = {name: found[1] for name, kind in self.parameters.items() if (found := re.match(r"&(?:'\w+ )?mut (.*)", kind, re.S))}

    def told(self, word):
        """The terms of its clauses of a kind that hold plain facts."""
        return [tokens for kind, starred, _, tokens in self.clauses if kind == word and not starred]


def angle_end(text, at):
    depth = 0
    for n in range(at, len(text)):
        depth += text[n] == "<"
        depth -= text[n] == ">" and text[n - 1] not in "-="
        if depth == 0:
            return n + 1
    raise ValueError("a bracket that nothing shuts")


def functions(root, crates="*"):
    for source in sorted(root.glob(f"crates/{crates}/src/**/*.rt")):
        yield from functions_of(root, source)


def holder_of(line):
    """The type or trait whose functions follow a line `impl ..` or `trait ..`, and whether each of them is public as the functions of a public trait are; or None."""
    found = HOLDER.match(line)
    if not found:
        return None
    at = found.end()
    # the parameters of a generic block
    at = angle_end(line, at) if line[at : at + 1] == "<" else at
    told = re.match(r".*? for (?=\w)(.*)", line[at:]) or re.match(r"(.*)", line[at:])
    return re.search(r"\w+", told[1])[0], bool(found[1])


def public_types(root, crate):
    """The structs, enums and traits that a crate shows to those above it."""
    return {name for source in root.glob(f"crates/{crate}/src/**/*.rt") for name in DECLARED.findall(without_comments(source.read_text()))}


def functions_of(root, source):
    crate = source.relative_to(root / "crates").parts[0]
    module = [] if source.stem in ("lib", "main") else [source.stem]
    text, holder, at, shown = without_comments(source.read_text()), None, 0, public_types(root, crate)
    for line in text.splitlines(keepends=True):
        block = holder_of(line)
        holder = block if block else None if line.rstrip() == "}" else holder
        found = FUNCTION.match(line)
        inside = found and found[1] and holder
        # a public trait's functions are public, and of a type's only those of a type that is
        is_public = found and (not inside or holder[0] in shown)
        if not found and holder and holder[1]:
            method = METHOD.match(line)
            found, inside, is_public = method, method, bool(method)
        if is_public:
            name = found[found.lastindex]
            yield Function("::".join([crate, *module, *([holder[0]] if inside else []), name]), source, text, at + found.end())
        at += len(line)


FIELD = re.compile(r"(?:^|,)\s*(?:pub(?:\([^)]*\))? )?(\w+): ((?:<[^<>]*(?:<[^<>]*>)*[^<>]*>|\[[^\]]*\]|\([^)]*\)|[^,<\[(])+)", re.M)


def fields_of(root, source, name):
    """The fields of a public struct that a file names, each with its type: its own crate's, or that of the crate that the file brings it in from. A struct's
    lifetimes do not count; of any other generic type nothing is known."""
    plain = re.fullmatch(r"(\w+)(?:<\s*'\w+(?:\s*,\s*'\w+)*\s*>)?", name.strip())
    if not plain:
        return {}
    name, text = plain[1], without_comments(source.read_text())
    used = re.search(rf"^use (\w+)::[^;]*\b{name}\b[^;]*;", text, re.M)
    if used and re.search(rf"\bas {name}\b", used[0]):
        return {}
    crate = source.relative_to(root / "crates").parts[0] if not used or used[1] == "crate" else used[1]
    for place in sorted(root.glob(f"crates/{crate}/src/**/*.rt")):
        found = re.search(rf"^pub struct {name}(?:<\s*'\w+(?:\s*,\s*'\w+)*\s*>)? \{{(.*?)^\}}", without_comments(place.read_text()), re.S | re.M)
        if found:
            return {field: kind.strip() for field, kind in FIELD.findall(re.sub(r"\bghost \w+: \{.*?\},?", "", found[1], flags=re.S))}
    return {}
