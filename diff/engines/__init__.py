"""The engines of diff/peers.py, each behind a small program of this folder.

Such a program reads a line for each page: JSON of `elements`, in the order of the document, and of `selectors`. An
element is [the number of its parent or null, its namespace, its name, [prefix or null, name, value] of each attribute].
It builds its engine's own tree of them, and writes a line of JSON: for each selector the numbers of the elements that
match, ascending, or a text if the engine refuses it.
"""

import json
import os
import shutil
import subprocess

HERE = os.path.dirname(os.path.abspath(__file__))
NODE = {"NODE_PATH": "/usr/share/nodejs:/usr/lib/nodejs"}
ENGINES = [
    ("soupsieve", ["/usr/bin/python3", "with_soupsieve.py"], ["python3-soupsieve", "python3-bs4"]),
    ("cssselect", ["/usr/bin/python3", "with_cssselect.py"], ["python3-cssselect", "python3-lxml"]),
    ("css-select", ["node", "css_select.js"], ["node-css-select", "node-domhandler"]),
    ("Nokogiri", ["ruby", "nokogiri.rb"], ["ruby-nokogiri"]),
    ("Mojo::DOM", ["perl", "mojo_dom.pl"], ["libmojolicious-perl"]),
]


class Engine:
    """An engine's program, which runs until this one ends."""

    def __init__(self, name: str, words: list[str], packages: list[str]):
        self.name, self.packages = name, packages
        if not shutil.which(words[0]):
            raise SystemExit(f"{words[0]} isn't there, which {name} needs")
        self.running = subprocess.Popen(words, cwd=HERE, stdin=subprocess.PIPE, stdout=subprocess.PIPE,
                                        stderr=subprocess.DEVNULL, env={**os.environ, **NODE}, text=True)

    def ask(self, elements: list, texts: list[str]) -> None:
        self.running.stdin.write(json.dumps({"elements": elements, "selectors": texts}) + "\n")
        self.running.stdin.flush()

    def answers(self) -> list:
        written = self.running.stdout.readline()
        if not written:
            raise SystemExit(f"{self.name} doesn't answer: is {' and '.join(self.packages)} there?")
        return json.loads(written)

    def version(self) -> str:
        """The versions of its packages."""
        words = ["dpkg-query", "-W", "-f", "${Package} ${Version}, ", *self.packages]
        return subprocess.run(words, stdout=subprocess.PIPE, text=True).stdout.removesuffix(", ")
