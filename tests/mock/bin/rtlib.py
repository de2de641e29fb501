"""What .ci/kit takes of the kit's rtlib.py."""
import hashlib
import os


def text_of(file):
    if not os.path.isfile(file):
        return None
    with open(file, encoding="utf-8", errors="replace") as it:
        return it.read()


def sum_of(file):
    with open(file, "rb") as it:
        return hashlib.sha256(it.read()).hexdigest()
