"""Reads the text of an instance as docs/READING.md says, for the scripts beside this file."""
import csv
import io
import re

from program import data_of, fail

csv.field_size_limit(1 << 24)


def text_of(path):
    """The text of a file, or of standard input where the path is `-`, without a byte order mark."""
    return data_of(path).removeprefix(b"\xef\xbb\xbf").decode("latin-1")


def readable(text):
    """A text as it is to be shown: in UTF-8, or as it stands where it isn't in UTF-8."""
    data = text.encode("latin-1")
    try:
        return data.decode("utf-8")
    except UnicodeDecodeError:
        return text


def lines_of(text):
    """The lines of a text, which end as records do: with a CR, an LF, or both."""
    return re.split("\r\n|\r|\n", text)


def delimiter_of(text):
    """`;` where there is one anywhere, else tab where there is one, else `,`."""
    return next((mark for mark in ";\t" if mark in text), ",")


def records(text):
    """Each record that a fault counts: its number, the line at which it ends, and its fields."""
    reader = csv.reader(io.StringIO(text, newline=""), delimiter=delimiter_of(text))
    number = 0
    for fields in reader:
        if fields:
            number += 1
            yield number, reader.line_num, fields


def rows(text):
    """The line and the fields of each record that is neither blank, a comment nor the header."""
    first = True
    for _, line, fields in records(text):
        start = fields[0].lstrip(" \t\r")
        if start.startswith("#") or not any(field.strip(" \t\r") for field in fields):
            continue
        if not (first and start[:1].isascii() and start[:1].isalpha()):
            yield line, [field.strip(" \t\r") for field in fields]
        first = False


def whole(word):
    """The whole number that a field tells: `12`, `+12`, `12.` and `12.0` are 12."""
    if not re.fullmatch(r"[+-]?[0-9]+(\.0*)?", word):
        raise ValueError(f"{word or 'nothing'} is no whole number")
    return int(word.partition(".")[0])


def activities(path):
    """The six numbers of each row of an instance: label, tail, head, lower, upper and weight."""
    found = []
    for line, fields in rows(text_of(path)):
        try:
            found.append([whole(field) for field in fields[:6]])
        except ValueError as fault:
            fail(f"{path}, line {line}: {fault}")
        if len(fields) < 6 or len(fields) > 7 or any(fields[6:]):
            fail(f"{path}, line {line}: {len(fields)} fields in place of six")
    return found


def events(path):
    """The labels of the events in the order in which they first appear, the tail of a row before its head."""
    return list(dict.fromkeys(event for row in activities(path) for event in row[1:3]))
