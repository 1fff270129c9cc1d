"""Applies an edit of this directory to a copy of the second implementation.

usage: apply.py EDIT COPY
"""
import pathlib
import re
import sys


def main():
    edit = pathlib.Path(sys.argv[1])
    copy = pathlib.Path(sys.argv[2])
    file = old = None
    for word, text in re.findall(r"^(file|old|new): ((?:.|\n(?!(?:file|old|new): ))*)", edit.read_text(encoding="utf-8"), re.M):
        text = text.rstrip("\n")
        if word == "file":
            file = copy / text
        elif word == "old":
            old = text
        else:
            whole = file.read_text(encoding="utf-8")
            if whole.count(old) != 1:
                sys.exit(f"{edit.name}: the old text is in {file.name} {whole.count(old)} times")
            file.write_text(whole.replace(old, text), encoding="utf-8")


main()
