"""Checks the links of a page: links.py [BASE] < page.html

Each line: line:column, what is wrong, and the address. It looks at a[href], img[src] and link[href], resolves each by the page's base, and
tells of those that name no file beside BASE (the folder of the page, the present one if none is given) and of fragments that the page
lacks. Addresses of other hosts are counted, and not looked up. Exit status 1 if a link is wrong.
"""

import sys
from pathlib import Path
from urllib.parse import unquote, urljoin, urlsplit

sys.path.insert(0, str(Path(__file__).resolve().parent.parent))
from zugrenja import Match, select  # noqa: E402

LINKS = ["a[href], link[href]", "img[src]"]
BASE, ANCHORS = "base[href]", "[id], a[name]"


def address_of(match: Match) -> str:
    return match.attributes["href" if 0 in match.selectors else "src"] or ""


def fault_of(address: str, folder: Path, anchors: set[str]) -> str | None:
    """What is wrong with an address of this host."""
    parts = urlsplit(address)
    if parts.path:
        return None if (folder / unquote(parts.path).lstrip("/")).exists() else "no such file"
    return None if unquote(parts.fragment) in anchors | {"", "top"} else "no such place in the page"


def main() -> None:
    folder = Path(sys.argv[1] if len(sys.argv) > 1 else ".")
    matches = select(sys.stdin.buffer.read(), [*LINKS, BASE, ANCHORS])
    bases = [match.attributes["href"] or "" for match in matches if 2 in match.selectors]
    anchors = {match.attributes.get(name) or "" for match in matches for name in ("id", "name") if 3 in match.selectors}
    other_hosts, wrong = 0, 0
    for match in matches:
        if not {0, 1} & set(match.selectors):
            continue
        written = address_of(match)
        address = urljoin(bases[0], written) if bases and not written.startswith("#") else written
        if urlsplit(address).scheme or urlsplit(address).netloc:
            other_hosts += 1
        elif fault := fault_of(address, folder, anchors):
            wrong += 1
            print(f"{match.line}:{match.column}\t{fault}\t{written}")
    print(f"{wrong} wrong, {other_hosts} of other hosts", file=sys.stderr)
    sys.exit(wrong > 0)


if __name__ == "__main__":
    main()
