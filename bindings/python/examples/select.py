"""Which start tags of a page match which selectors: select.py SELECTOR.. < page.html

Each line: line:column, the selectors' numbers from 0, and the tag.
"""

import sys
from pathlib import Path

sys.path.insert(0, str(Path(__file__).resolve().parent.parent))
from zugrenja import SelectorError, select  # noqa: E402


def main() -> None:
    try:
        matches = select(sys.stdin.buffer.read(), sys.argv[1:])
    except SelectorError as error:
        sys.exit(str(error))
    for match in matches:
        print(f"{match.line}:{match.column}\t{','.join(map(str, match.selectors))}\t{match.tag}")


if __name__ == "__main__":
    main()
