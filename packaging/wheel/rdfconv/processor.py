"""Refuses a processor that lacks the instructions of x86-64-v2, which the shared object has and does not check for."""
NEEDED = {'cx16', 'lahf_lm', 'popcnt', 'sse4_1', 'sse4_2', 'ssse3'}


def lacking(path='/proc/cpuinfo'):
    """What the first processor lacks, by the names of Linux; nothing where this can't be read."""
    try:
        with open(path) as file:
            for line in file:
                if line.startswith('flags'):
                    return NEEDED - set(line.split())
    except OSError:
        pass
    return set()


if lacking():
    raise ImportError('rdfconv needs a processor of x86-64-v2, and this one lacks ' + ', '.join(sorted(lacking())))
