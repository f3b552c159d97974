"""The job language of streamrun in Python: a plain reading of docs/job-language.md.

    tokens, expressions, values, lambdas     lambdas: their grammar, types and values
    operators                                operators of reduce and prefix
    lines, syntax, jobs                      job files: lines, the grammar of jobs, the order of refusals
    tables                                   column files
    walks, model                             what jobs answer, and reports
    refusals                                 causes and places of refusals
    explain, site                            where and why a file is refused, with a caret and a hint
    word_hints, number_hints, begin_hints,   the hints on job files, by what they are about, and what to write for words of Java
    job_hints, stage_hints, calculations,    and of other tools
    lambda_hints, choice_hints, type_hints,
    row_hints, meaning_hints, java_words,
    stage_words
    operands, following                      the texts around a place, and what a file becomes if a hint is followed
    table_view, cells, table_hints           what a table holds, and the hints on tables
"""
