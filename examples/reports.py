"""The reports that the repository shows: those of this folder with its certificates, the whole reports of worked cases, and what
pages show under a call. make_examples.py makes them anew, or compares them with what the program prints.

The program is ./minorder at the top, or the file that MINORDER_PROGRAM names."""
import filecmp
import glob
import os
import re
import shutil
import subprocess
import sys
import tempfile

HERE = os.path.dirname(os.path.abspath(__file__))
TOP = os.path.dirname(HERE)
DATA = f"{TOP}/crates/worked_cases/data"
COPIES = f"{DATA}/examples"
PAGES = "*.md", "docs/*.md", "optima/*.md", "man/*.1"
PROGRAM = os.path.abspath(os.environ.get("MINORDER_PROGRAM", f"{TOP}/minorder"))
# a call in a page, whose output goes nowhere else, and what is shown below it
SHOWN = re.compile(r"^\$ ((?:\./)?minorder [^|<>\n]+)\n((?:(?!\$ |```|\.EE).+\n)+)", re.MULTILINE)
# characters, and how a manual page spells them
ESCAPES = ("\\", "\\e"), ("-", "\\-"), ("'", "\\(aq")

sys.path.append(f"{TOP}/random_tests")
from worked_cases import Case, blocks_of  # noqa: E402


def read(path):
    with open(path, encoding="utf-8", newline="") as file:
        return file.read()


def write(path, text):
    with open(path, "w", encoding="utf-8", newline="") as file:
        file.write(text)


def report_of(words, folder):
    """What the program prints if it is called with these words in a folder."""
    ran = subprocess.run([PROGRAM, *words], cwd=folder, stdout=subprocess.PIPE, text=True)
    if ran.returncode:
        sys.exit(f"make_examples.py: minorder ends with status {ran.returncode} on {' '.join(words)}")
    return ran.stdout


# ---- this folder, and its copies among the worked cases

def write_reports(folder):
    """Writes to a folder the reports and certificates that lie here."""
    for name in sorted(it.removesuffix(".pla") for it in os.listdir(HERE) if it.endswith(".pla")):
        certificate = ["--cert", f"{folder}/{name}.cert"] if os.path.exists(f"{HERE}/{name}.cert") else []
        write(f"{folder}/{name}.report", report_of([*certificate, f"{name}.pla"], HERE))


def copied():
    """The names of the files here that the worked cases have copies of."""
    return [it for it in sorted(os.listdir(HERE)) if it.endswith((".pla", ".report", ".cert"))]


def copy_to_worked_cases():
    for name in copied():
        shutil.copy(f"{HERE}/{name}", COPIES)


def is_same(one, other):
    """Whether both files are there and hold the same."""
    return os.path.exists(one) and os.path.exists(other) and filecmp.cmp(one, other, False)


# ---- worked cases and pages

def case_anew(block, folder):
    """The block of a case, with what its first call prints in a folder where its output is a whole report."""
    case = Case(block)
    lines, words = case.texts.get("output", []), case.calls[0] if case.calls else []
    is_report = words[:1] == ["minorder"] and "--count" not in words and lines and all(line[0] == "|" for line in lines)
    if not is_report or case.status or case.lengths:
        return block
    for name, content in case.files(folder).items():
        with open(f"{folder}/{name}", "wb") as file:
            file.write(content)
    report = [f"|{line}" for line in report_of(words[1:], folder).splitlines()]
    return block.replace("\n".join(["output", *lines, ""]), "\n".join(["output", *report, ""]))


def unescaped(text):
    """The text that a manual page spells so."""
    for character, escape in reversed(ESCAPES):
        text = text.replace(escape, character)
    return text


def escaped(text):
    """How a manual page spells a text."""
    for character, escape in ESCAPES:
        text = text.replace(character, escape)
    return text


def page_anew(text, is_manual, folder):
    """The text of a page, where below each call for a report is what the call prints in a folder."""
    def anew(found):
        words = (unescaped(found[1]) if is_manual else found[1]).split()[1:]
        if "--count" in words:
            return found[0]
        report = report_of(words, folder)
        return f"$ {found[1]}\n{escaped(report) if is_manual else report}"
    return SHOWN.sub(anew, text)


def texts_anew():
    """The path of each file of worked cases and each page, and its text with the reports that the program prints."""
    with tempfile.TemporaryDirectory() as room:
        shutil.copytree(DATA, f"{room}/data", ignore=shutil.ignore_patterns("optima"))
        shutil.copytree(HERE, f"{room}/examples")
        for path in sorted(glob.glob(f"{DATA}/*.cases")):
            yield path, "".join(case_anew(block, f"{room}/data") for block in blocks_of(read(path)))
        for path in sorted(it for pages in PAGES for it in glob.glob(f"{TOP}/{pages}")):
            is_manual = not path.endswith(".md")
            # a manual page names the examples without their folder
            yield path, page_anew(read(path), is_manual, f"{room}/examples" if is_manual else room)


def write_texts():
    for path, text in texts_anew():
        if text != read(path):
            write(path, text)


def check(made):
    """Ends with status 1 and the first file that differs from what its rule, in the folder of these files, or the program
    writes, or from the file that it is a copy of."""
    write_reports(made)
    pairs = [(f"{HERE}/{it}", f"{made}/{it}") for it in sorted(os.listdir(made))]
    pairs += [(f"{COPIES}/{it}", f"{HERE}/{it}") for it in copied()]
    wrong = [it for it, other in pairs if not is_same(it, other)] or [it for it, text in texts_anew() if text != read(it)]
    if wrong:
        sys.exit(f"{os.path.relpath(wrong[0], TOP)} isn't what make_examples.py --reports writes")
