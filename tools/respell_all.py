#!/usr/bin/env python3
"""Writes the library's word `AllByRecursion` by its own name, where a file brought it in as `All`."""
import re
import subprocess
import sys
from pathlib import Path

listed = subprocess.check_output(["git", "ls-files", "-co", "--exclude-standard", *sys.argv[1:]], text=True).split("\n")
for path in map(Path, filter(None, listed)):
    if path.suffix not in (".antt", ".rt") or not path.is_file():
        continue
    text = path.read_text()
    if "AllByRecursion as All" not in text:
        continue
    text = text.replace("AllByRecursion as All", "AllByRecursion")
    lines = [re.sub(r"(?<![\w.-])All(?![\w-])", "AllByRecursion", t) if not t.lstrip().startswith(("--", "//")) else t for t in text.split("\n")]
    path.write_text("\n".join(lines))
