#!/usr/bin/env python3
"""What streamrun has to write, by the model of the language (python/streamrun_language).

    tests/soak/model.py [--columns FILE] [--only-named] [--separator SIGN] [--blank NUMBER] [--language N] [--json] JOBS
                                        writes the report, or the refusal's line; ends with its status
    tests/soak/model.py --self-test     compares with worked answers and with examples/
"""
import argparse
import os
import sys

sys.path.insert(0, os.path.join(os.path.dirname(os.path.realpath(__file__)), '..'))
from running import LANGUAGES, read  # noqa: E402
from streamrun_language.model import outcome  # noqa: E402
from streamrun_language.tables import SIGNS  # noqa: E402
from limits import outcome_in_time  # noqa: E402
import worked  # noqa: E402

SECONDS = 20


def main():
    parser = argparse.ArgumentParser(usage=__doc__.split('\n\n')[1].strip())
    parser.add_argument('--self-test', action='store_true')
    parser.add_argument('--columns')
    parser.add_argument('--only-named', action='store_true')
    parser.add_argument('--separator', choices=SIGNS.values(), default=',')
    parser.add_argument('--blank', type=int)
    parser.add_argument('--language', type=int, choices=LANGUAGES, default=LANGUAGES[0])
    parser.add_argument('--json', action='store_true')
    parser.add_argument('jobs', nargs='?')
    given = parser.parse_args()
    if given.self_test:
        return worked.compare_all(lambda *given: outcome_in_time(SECONDS, *given))
    if given.jobs is None:
        parser.error('no job file')
    columns = read(given.columns) if given.columns else None
    table = {'only_named': given.only_named, 'separator': given.separator, 'blank': given.blank}
    out, err, status = outcome(read(given.jobs), columns, 'json' if given.json else 'text', given.language, table)
    sys.stdout.buffer.write(out)
    sys.stderr.buffer.write(err)
    return status


if __name__ == '__main__':
    sys.exit(main())
