"""futoncrane: the command for people around the proved programs kmc, kmc_cut, kmc_db, kmc_list and kmc_merge. It moves bytes to them and from
them, and counts nothing by itself.

From Python `futoncrane.counts(path)` gives the k-mers and counts of a dump or of a database, in the order of the letters:

    import futoncrane
    for word, count in futoncrane.counts("reads.kmc"):
        print(word, count)

What is at fault raises futoncrane.Fault, which names the file and the place."""
from futoncrane.faults import Fault


def counts(path):
    """Pairs of a k-mer and its count, one after the other, of a dump (plain or packed by gzip) or of a sorted database (NAME.kmc, NAME.kmc_pre or
    NAME.kmc_suf). The k-mers are str of A, C, G, T and rise; the counts are int from 1 on. What is at fault raises futoncrane.Fault, which names
    the file and the place; the pairs that came before it are those of a part. The file is opened when the first pair is asked for."""
    from futoncrane import reading  # not before: the command, which begins often, does not need it
    return reading.pairs_in(path)


__all__ = ["Fault", "counts"]
