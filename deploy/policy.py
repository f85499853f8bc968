#!/usr/bin/env python3
"""Prints the Content-Security-Policy of a page for nginx: its own scripts and styles by their hashes, and no others.

    deploy/policy.py PAGE > /etc/ripley/policy.conf

A page that is changed wants a new policy. Attributes `style` are not let through, nor files of other places; a page
with pictures or style sheets of its own place has `img-src 'self'` and `style-src 'self'` here.
"""

import base64
import hashlib
import sys
from html.parser import HTMLParser

# The policy of what is no document.
NOTHING = "default-src 'none'; frame-ancestors 'none'"


class Texts(HTMLParser):
    """The texts of the scripts and of the styles of a page."""

    CDATA_CONTENT_ELEMENTS = ("script", "style", "title", "textarea")

    def __init__(self):
        super().__init__()
        self.open = None
        self.texts = {"script": [], "style": []}

    def handle_starttag(self, tag, attributes):
        if tag in self.texts:
            self.open = tag
            self.texts[tag].append("")

    def handle_data(self, data):
        if self.open:
            self.texts[self.open][-1] += data

    def handle_endtag(self, tag):
        self.open = None


def sources(texts):
    hashes = [base64.b64encode(hashlib.sha256(text.encode()).digest()).decode() for text in texts]
    return " ".join(["'self'"] + [f"'sha256-{each}'" for each in sorted(set(hashes))])


def policy(page):
    found = Texts()
    found.feed(page.replace("\r\n", "\n").replace("\r", "\n"))
    found.close()
    return "; ".join(
        [
            "default-src 'none'",
            f"script-src {sources(found.texts['script'])}",
            f"style-src {sources(found.texts['style'])}",
            "img-src 'self'",
            "connect-src 'self'",
            "base-uri 'none'",
            "form-action 'none'",
            "frame-ancestors 'none'",
        ]
    )


if __name__ == "__main__":
    with open(sys.argv[1], encoding="utf-8-sig", newline="") as file:
        print(f'map $uri $policy {{\n    /ripley/index.html "{policy(file.read())}";\n    default "{NOTHING}";\n}}')
