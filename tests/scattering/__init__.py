"""What tests/scatter runs.

    random_files   random tables and job files whose jobs can be made of parts
    by_parts       a run over parts in each way that there is, and one run to compare with
    cases          refusals, lines and commands, with what they have to say
    planted        mistakes that random files have to show
"""
