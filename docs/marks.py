"""The marks of a page: comments that aren't shown, beside what a script can write there.

    171<!--count rows-->             a number that is counted in the sources: a name of COUNTS of counts.py
    297.0<!--run cost branch, ..-->  the newest value of a name in bench/results.csv, with the decimals of the page
    2026-11-26<!--date cost ..-->    the day of that run
    <!--table host instructions-->   down to <!--/table-->: a table of a measured run, of TABLES of measured.py
"""

import re

import counts
import measured

NUMBER = re.compile(r"([\w.,-]*[\w])<!--(count|run|date) ([^>]*?)-->")
TABLE = re.compile(r"(<!--table ([^>]*?)-->\n)(.*?)(<!--/table-->)", re.S)
ANY = re.compile(r"<!--(?!/table-->)")


class Marks:
    def __init__(self):
        self.results = measured.Results()
        self.known = {}

    def found(self, kind, name, shown):
        """Returns what a page has to show ahead of a mark; NotFound where its name isn't there."""
        if kind == "run":
            return measured.rounded(self.results.value(name), shown)
        if (kind, name) not in self.known:
            self.known[kind, name] = counts.count(name) if kind == "count" else self.results.date(name)
        return self.known[kind, name]

    def number(self, mark):
        """Returns a number with its mark as they have to be, or as they are where its name isn't there."""
        try:
            return f"{self.found(mark[2], mark[3], mark[1])}<!--{mark[2]} {mark[3]}-->"
        except counts.NotFound:
            return mark[0]

    def table(self, mark):
        """Returns a table with its marks as they have to be, or as they are where its name isn't there."""
        if mark[2] not in measured.TABLES:
            return mark[0]
        return mark[1] + "\n".join(measured.TABLES[mark[2]](self.results)) + "\n" + mark[4]

    def fixed(self, text):
        """Returns the text of a page with what its marks want."""
        return TABLE.sub(self.table, NUMBER.sub(self.number, text))

    def wrong_number(self, shown, kind, name):
        """Returns what is wrong with a number, or None."""
        try:
            wanted = self.found(kind, name, shown)
        except counts.NotFound as error:
            return str(error)
        return None if wanted == shown else f"{shown} has to be {wanted} ({kind} {name})"

    def wrong(self, text):
        """Yields the numbers of a page's lines that aren't as the marks want them, with what is wrong."""
        for number, line in enumerate(text.split("\n"), 1):
            if len(ANY.findall(line)) != len(NUMBER.findall(line)) + len(re.findall("<!--table ", line)):
                yield number, "a comment that isn't a mark (docs/marks.py), or no number stands ahead of it"
            found = [self.wrong_number(*mark) for mark in NUMBER.findall(line)]
            yield from ((number, wrong) for wrong in found if wrong)
        for mark in TABLE.finditer(text):
            if mark[2] not in measured.TABLES or self.table(mark) != mark[0]:
                yield text[: mark.start()].count("\n") + 1, f"the table isn't that of bench/results.csv ({mark[2]})"
