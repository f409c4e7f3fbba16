"""cssselect and XPath on lxml's tree (python3-cssselect, python3-lxml)."""

import functools

import lxml.html
from lxml.cssselect import CSSSelector
from measured import measure

compiled = functools.lru_cache(None)(lambda selector: CSSSelector(selector, translator="html"))
measure(lambda page: lxml.html.document_fromstring(page), lambda tree, selector: len(compiled(selector)(tree)))
