"""What tests/explain runs.

    mistakes     job files with a mistake, with its place and words that the hint has to have
    tables       tables that are refused, with places and words too
    whole_tables tables with the sums that they have after the commands of their hints
    first_tries  first tries of newcomers, with what is right after the hint is followed
    follows      follows hints to the letter
    planted      mistakes in the explanations, which these have to show
"""
