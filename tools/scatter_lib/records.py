"""Reports in the records of their jobs: lines of a text, or objects of JSON. No record is made here, and none is changed.

No name and no answer has a brace, so braces part the objects.
"""
import re

NUMBER = {False: re.compile(rb' = (?:OptionalLong\[)?(-?\d+)\]?\n'), True: re.compile(rb'"(?:number|optional)":(-?\d+)\}')}
ARRAY = {False: re.compile(rb' = \[(.*)\]\n'), True: re.compile(rb'\{"array":\[(.*)\],')}


def records_of(report, is_json):
    """The record of each job, in the order of the report."""
    if not is_json:
        return report.splitlines(True)
    return [b'{' + record + b'}' for record in report[2:-3].split(b'},{')] if report != b'[]\n' else []


def report_of(records, is_json):
    """The report with these records."""
    return b'[' + b','.join(records) + b']\n' if is_json else b''.join(records)


def number_in(record, is_json):
    """The number that a job gives to others, as it is written; None if it gives none."""
    found = NUMBER[is_json].search(record)
    return found and found[1].decode()


def array_in(record, is_json):
    """The numbers of an array, a line for each; None if the record has no array."""
    found = ARRAY[is_json].search(record)
    return found and b''.join(value + b'\n' for value in re.split(rb', ?', found[1]) if value)
