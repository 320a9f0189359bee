#!/usr/bin/env python3
"""Audits the logs that are named."""

import sys

from lichenknit import BadText, Logs

for path in sys.argv[1:]:
    with open(path, encoding="utf-8") as file:
        try:
            print(path, Logs.read(file.read()).audit())
        except BadText as error:
            print(path, error)
