#!/usr/bin/env python3
"""certificates.py FOLDER OUT [SECONDS]      makes OUT, a tar.xz of the table's certificates with their PLA files, from FOLDER

The table is optima/optima.csv, and the sums of all files have to be those that it says. The archive has the table and the sums,
too. SECONDS since 1970 is the files' time.
Ends with status 1, and says what is missing, where FOLDER hasn't all of them."""
import csv
import hashlib
import io
import os
import sys
import tarfile

try:
    import lzma
except ImportError:
    sys.exit("certificates.py: this Python has no lzma, which writes the archive; Debian's /usr/bin/python3 has it")

TOP = os.path.dirname(os.path.dirname(os.path.abspath(__file__)))


def content_of(path):
    try:
        with open(path, "rb") as file:
            return file.read()
    except OSError:
        return None


def files_of(folder):
    """The contents of all files by name, and the names of those that are absent or others than the table's."""
    found, missing = {}, []
    with open(f"{TOP}/optima/optima.csv", newline="") as table:
        for row in csv.DictReader(table):
            for ending, column in (("pla", "pla_sha256"), ("cert", "certificate_sha256")):
                name = f"{row['name']}.{ending}"
                content = content_of(f"{folder}/{name}")
                if content is None or hashlib.sha256(content).hexdigest() != row[column]:
                    missing.append(name)
                else:
                    found[name] = content
    return found, missing


def write(out, name, files, seconds):
    """One folder of that name, its files in order; the same bytes for the same files."""
    with lzma.open(out, "wb", preset=6) as packed, tarfile.open(fileobj=packed, mode="w", format=tarfile.USTAR_FORMAT) as archive:
        for file in sorted(files):
            entry = tarfile.TarInfo(f"{name}/{file}")
            entry.size, entry.mtime, entry.mode = len(files[file]), seconds, 0o644
            archive.addfile(entry, io.BytesIO(files[file]))


def main(folder, out, seconds=0):
    files, missing = files_of(folder)
    if missing:
        sys.exit(f"{folder}: {len(missing)} files are absent or not the table's: {missing[0]}{' ..' if len(missing) > 1 else ''}")
    sums = "".join(f"{hashlib.sha256(files[name]).hexdigest()}  {name}\n" for name in sorted(files))
    files["SHA256SUMS"] = sums.encode()
    files["optima.csv"] = content_of(f"{TOP}/optima/optima.csv")
    write(out, os.path.basename(out).split(".tar")[0], files, int(seconds))


if __name__ == "__main__":
    if len(sys.argv) not in (3, 4):
        sys.exit(__doc__)
    main(*sys.argv[1:])
