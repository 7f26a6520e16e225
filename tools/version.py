#!/usr/bin/env python3
"""The words of README.md that say by which toolchain the crates were proved:

    tools/version.py          says whether it is that of `rt version`; else both lines, and status 1
    tools/version.py --write  puts that of `rt version` there: by hand, when a gate has passed with it
"""
import pathlib
import re
import subprocess
import sys

README = pathlib.Path(__file__).resolve().parent.parent / "README.md"
LINE = re.compile(r"Proved with: `([^`\n]*)`\.")


def main():
    text = README.read_text(encoding="utf-8")
    version = subprocess.run(["rt", "version"], capture_output=True, text=True, check=True).stdout.strip()
    said = LINE.search(text)
    if not said:
        print("tools/version.py: README.md has no words `Proved with: ..`", file=sys.stderr)
        return 2
    if sys.argv[1:] == ["--write"]:
        README.write_text(text[:said.start(1)] + version + text[said.end(1):], encoding="utf-8")
        return 0
    same = said[1] == version
    print(said[1] if same else f"README.md: {said[1]}\nrt version: {version}")
    return 0 if same else 1


if __name__ == "__main__":
    sys.exit(main())
