"""What a document names: each name with the crates and the file that it must be in, as far as the document says."""

import re
from dataclasses import dataclass

TOKEN = re.compile(r"\"[^\"]*\"|`[^`]*`|[\w.*-]*[\w*](?:/[\w.*-]*[\w*])+/?|'s\b|[A-Za-z_]\w*|[();:,]")
FILE = re.compile(r"[A-Z][a-z]+[A-Za-z0-9]*")
TWO_CAPITALS = re.compile(r"(?:[A-Z][a-z]+){2,}\d*")
EDIT = re.compile(r"[a-z0-9]+(?:_[a-z0-9]+)+")
FILE_PATH = re.compile(r"(?:crates/)?(\w+)/(?:specs|proofs)(?:/([A-Z]\w*))?")
HEADING = re.compile(r"#+ Crates? (.*)")


@dataclass
class Named:
    """Text in backquotes. No crates: any crate. No files: any place in them."""

    text: str
    crates: list
    files: list


@dataclass
class Found:
    """All that a line names: text in backquotes, paths, files as (crates, file), edits as (crates, edit)."""

    named: list
    paths: list
    files: list
    edits: list


class Reader:
    """Reads the cells of a line. In the trace, `about` are the crates of the section; elsewhere it is None."""

    def __init__(self, crates, about):
        self.crates = crates
        self.about = about
        self.found = Found([], [], [], [])

    def read(self, cell):
        self.group = len(self.found.named)  # the first of the names that a file behind them is said of
        self.crate = self.file = self.outside = self.folder = None
        tokens = [match.group() for match in TOKEN.finditer(cell)] + [""]
        before = ""
        for i, token in enumerate(tokens[:-1]):
            if token.startswith('"'):
                pass
            elif token.startswith("`"):
                self.name(token[1:-1])
            elif "/" in token:
                self.path(token)
            elif token in ("(", ")", ";", ",", ":", "'s", "and"):
                self.part(token, before, tokens[i + 1 :])
            else:
                self.word(token, before, [*tokens[i + 1 :], ""])
            before = token

    def name(self, text):
        crates = [self.crate] if self.crate else self.file[0] if self.file else []
        self.found.named.append(Named(text, crates, [self.file[1]] if self.file else []))
        self.crate = self.folder = None

    def path(self, token):
        crate, _, rest = token.partition("/")
        if self.about is not None and crate in self.crates and EDIT.fullmatch(rest):
            self.found.edits.append(([crate], rest))
            self.about = [*self.about, crate]
        else:
            self.found.paths.append(token)
        self.folder = token

    def part(self, token, before, behind):
        if token == "(":
            self.outside, self.file = self.file, None
            if before.startswith("`"):
                self.say_of_group(behind[: behind.index(")")] if ")" in behind else behind)
        elif token == ")":
            self.file, self.group = self.outside, len(self.found.named)
        elif token == ";":
            self.file, self.group = None, len(self.found.named)
        if token in "();":
            self.crate = self.folder = None

    def say_of_group(self, inside):
        """Behind names, `(File)`, `(crate, File)`, `(crate ..)`, `(crate/specs/File)` or `(crate/proofs/File)`: where these names are."""
        first, second = [*inside, "", ""][:2]
        path = FILE_PATH.fullmatch(first)
        if path:
            crates, files = [path[1]], [path[2]] if path[2] else []
            files += [token for token in inside[1:] if path[2] and FILE.fullmatch(token)]
        elif self.about is not None and (first == "crate" or self.is_place(first) and second in ("", ",")):
            crates = [token for token in inside if token in self.crates]
            files = [token for token in inside if FILE.fullmatch(token)]
            self.found.files += [(crates or self.about, file) for file in files]
        else:
            return
        for named in self.found.named[self.group :]:
            if not named.files:
                named.crates, named.files = crates or self.about, files

    def is_place(self, token):
        return token in self.crates or FILE.fullmatch(token)

    def word(self, token, before, behind):
        names_follow = behind[behind[0] in (":", "'s")].startswith("`")
        if self.folder:
            self.word_behind_path(token)
        elif self.about is not None and FILE.fullmatch(token) and names_follow:
            self.file = ([self.crate] if self.crate else self.about, token)
            self.found.files.append(self.file)
            self.crate, self.group = None, len(self.found.named)
        elif self.about is not None and TWO_CAPITALS.fullmatch(token):
            self.found.files.append((self.about or list(self.crates), token))
        elif self.about is not None and token in self.crates:
            if before == "crate" and self.found.named[self.group :]:
                self.found.named[-1].crates, self.found.named[-1].files = [token], []
            self.crate = token
        elif self.about is not None and EDIT.fullmatch(token):
            self.found.edits.append((self.about, token))
        else:
            self.crate = self.file = None
            if token not in ("of", "crate"):
                self.group = len(self.found.named)

    def word_behind_path(self, token):
        """Files or folders listed behind a path with commas."""
        path = FILE_PATH.fullmatch(self.folder)
        if path and path[2] and FILE.fullmatch(token):
            self.found.files.append(([path[1]], token))
        elif self.folder.startswith("crates/") and self.folder.count("/") == 1 and self.about is None:
            self.found.paths.append(token)
        else:
            self.folder = None
            self.word(token, "", ["", ""])


def cells_of(line):
    """The cells of a table's row; a line of text is one cell."""
    return re.split(r"(?<!\\)\|", line.strip().strip("|")) if line.lstrip().startswith("|") else [line]
