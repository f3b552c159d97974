"""The parts of tools/scatter.

    jobs        job files, as far as a merge has to know them
    plan        which jobs can be made of parts, in which round, and the job file of a round
    records     reports in the records of their jobs
    tables      where a table may be cut, and how many rows its parts have
    running     the rounds of a run, and its refusals
    processes   parts on processes of this machine
    workers     parts on the workers of a Dask scheduler; nothing else here wants more than the standard library
    command     the command line
"""
