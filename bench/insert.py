"""Puts the tables between the two marks of the page: insert.py TABLE PAGE."""
import sys

FIRST, LAST = "<!-- counted -->", "<!-- end of counted -->"

with open(sys.argv[1]) as source:
    table = source.read().strip()
with open(sys.argv[2]) as source:
    page = source.read()
before, rest = page.split(FIRST)
after = rest.split(LAST)[1]
with open(sys.argv[2], "w") as target:
    target.write(before + FIRST + "\n" + table + "\n" + LAST + after)
