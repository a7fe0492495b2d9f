#!/usr/bin/env python3
"""Prints the folder below a prefix where this Python looks for packages.

    tools/package_folder.py PREFIX

Where it looks at none below that prefix, it is the usual one, and standard error says what to add to PYTHONPATH.
"""
import os
import sys

prefix = os.path.abspath(sys.argv[1])
version = f"python{sys.version_info[0]}.{sys.version_info[1]}"
folders = [os.path.join(prefix, "lib", version, it) for it in ("dist-packages", "site-packages")]
found = next((it for it in folders if it in sys.path), None)
if found is None:
    found = folders[1]
    print(f"subgraph: add {found} to PYTHONPATH to use the package", file=sys.stderr)
print(found)
