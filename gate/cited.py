#!/usr/bin/env python3
"""cited.py PREFIX      goes over the paths that the pages installed below PREFIX cite, and fails on one that isn't there

A path is looked for below the page's folder, the folder of documents (with its docs/ and crates/), and PREFIX.
What lies in a folder of gate/not_installed.txt is looked for in the repository."""
import glob
import os
import re
import sys
from collections.abc import Iterator

TOP = os.path.dirname(os.path.dirname(os.path.abspath(__file__)))
NOT_INSTALLED = "gate/not_installed.txt"
ENDINGS = r"\.(antt|c|cases|cert|cff|csv|h|html|json|md|pla|py|report|rs|rt|sh|svg|txt|v)$"
WORD = re.compile(r"(?<![\w/.$<>*{}-])(?:PREFIX/)?((?:[\w.*-]|\{[\w,.]+\})+/(?:[\w.*/-]|\{[\w,.]+\})*|[\w-]+\.md)(?![\w/])")
LINK = re.compile(r"\]\(([^()#: ]+)\)")
# a folder that an example makes
MADE = re.compile(r"^\$ minorder-functions (?:--\w+ )*([\w/]+)", re.M)
# folders of the prefix; those of the repository are read from it
FOLDERS = {"bin", "include", "lib", "share", "man"}


def text_of(path: str) -> str:
    with open(path, encoding="utf-8") as file:
        text = file.read()
    return text.replace("\\-", "-") if re.search(r"\.[13]$", path) else text


def pages_of(prefix: str) -> list[str]:
    """The pages and the header, each file once."""
    found: list[str] = []
    for start in ("share/doc/minorder", "share/minorder", "share/man", "include"):
        for at, _, files in os.walk(f"{prefix}/{start}"):
            found += [f"{at}/{name}" for name in files if re.search(r"\.(md|[13]|h|cff)$", name)]
    return sorted(found)


def absent_folders(text: str) -> tuple[str, ...]:
    """The folders that a list names, one a line."""
    return tuple(line for line in text.splitlines() if line and not line.startswith("#"))


def spread(path: str) -> list[str]:
    """A path without braces; NAME stands for any name."""
    braces = re.search(r"\{([^{}]*)\}", path)
    if not braces:
        return [path.replace("NAME", "*")]
    return [it for word in braces[1].split(",") for it in spread(path[:braces.start()] + word + path[braces.end():])]


def cited_by(text: str) -> Iterator[str]:
    """The paths that a text cites: links, pages, what begins with a folder of the repository or the prefix, or ends as files."""
    folders = FOLDERS | {name for name in os.listdir(TOP) if name != "out" and os.path.isdir(f"{TOP}/{name}")}
    made = set(MADE.findall(text))
    yield from LINK.findall(text)
    for found in WORD.finditer(text):
        word = found[1].rstrip(".,-")
        if word.split("/")[0] in made:
            continue
        if word.split("/")[0] in folders or re.search(ENDINGS, word):
            yield from spread(word)


def fault_of(path: str, page: str, prefix: str, absent: tuple[str, ...]) -> str | None:
    """Why a cited path is none that a reader finds; None if it is one."""
    if path.startswith("./"):
        return None if os.path.exists(f"{TOP}/{path}") else "is not in the repository"
    documents = f"{prefix}/share/doc/minorder"
    places = [os.path.dirname(page), documents, *(f"{documents}/{it}" for it in ("docs", "crates", "crates/*")), prefix]
    if any(glob.glob(f"{place}/{path}") for place in places):
        return None
    crate = path.split("/")[0]
    full = f"crates/{path}" if os.path.isdir(f"{TOP}/crates/{crate}") else path
    if f"{full}/".startswith(absent) and not re.match(r"crates/[^/]+/(specs/|src/laws\.rt)", full):
        # what a build makes is there after it
        return None if "/out/" in full or glob.glob(f"{TOP}/{full}") else "is not in the repository"
    return "is not installed"


def main(prefix: str) -> None:
    absent, pages, paths = absent_folders(text_of(f"{TOP}/{NOT_INSTALLED}")), pages_of(prefix), 0
    if not pages:
        sys.exit(f"cited.py: no page is installed below {prefix}")
    faults = [f"{NOT_INSTALLED}: {it} is not in the repository" for it in absent if not os.path.isdir(f"{TOP}/{it}")]
    for page in pages:
        for path in sorted(set(cited_by(text_of(page)))):
            paths += 1
            fault = fault_of(path, page, prefix, absent)
            faults += [f"{os.path.relpath(page, prefix)}: {path} {fault}"] if fault else []
    if faults:
        sys.exit("\n".join(faults))
    print(f"{paths} paths that {len(pages)} installed pages cite: all are there")


if __name__ == "__main__":
    if len(sys.argv) != 2:
        sys.exit(__doc__)
    main(os.path.abspath(sys.argv[1]))
