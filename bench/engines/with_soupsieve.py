"""soupsieve on Beautiful Soup's tree, read by lxml (python3-soupsieve, python3-bs4, python3-lxml)."""

import bs4
from measured import measure

measure(lambda page: bs4.BeautifulSoup(page, "lxml"), lambda tree, selector: len(tree.select(selector)))
