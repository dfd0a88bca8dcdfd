"""Edits: files of lines `file: PATH`, `old: TEXT` and `new: TEXT`, which change code one line at a time."""
import re
from pathlib import Path

CODE = re.compile(r"(\w+/)?src/[\w/]+\.rt")
COMMENT = re.compile(r"(^|\s+)//.*$", re.MULTILINE)


class Fault(Exception):
    """Why an edit shows nothing."""


def changed_texts(edit: Path, folder: Path) -> dict[Path, str]:
    """The files below a folder that an edit changes, by their paths there, with their new texts. Its pairs of lines apply one
    after the other, each old text standing once in its file."""
    texts: dict[Path, str] = {}
    file, old, pairs = Path(), "", 0
    try:
        lines = edit.read_text(encoding="utf-8").splitlines()
    except UnicodeDecodeError:
        raise Fault("is no text") from None
    for line in lines:
        word, _, text = line.partition(": ")
        if word == "file":
            file = Path(text)
            if not CODE.fullmatch(text) or not (folder / file).is_file():
                raise Fault(f"changes {text}, which is no file of code")
            texts.setdefault(file, (folder / file).read_text(encoding="utf-8"))
        elif word == "old":
            old = text
            if file not in texts:
                raise Fault("names no file before its first text")
            if texts[file].count(old) != 1:
                raise Fault(f"asks for a text that {file} has {texts[file].count(old)} times: {old.strip()}")
        elif word in ("new", "new:") and old:
            texts[file] = texts[file].replace(old, text)
            pairs += 1
    before = ((text, (folder / it).read_text(encoding="utf-8")) for it, text in texts.items())
    if not pairs or all(COMMENT.sub("", new) == COMMENT.sub("", old) for new, old in before):
        raise Fault("changes no code")
    return texts
