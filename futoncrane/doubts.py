"""What makes an answer doubtful though all went well: no reads, letters that stand for no base, limits that leave nothing."""
# of the letters of a sample, the share of those that stand for no base from which on it is told
FEW = 0.1
LETTERS_TOLD = 8


def of(found, setting):
    """What is doubtful, in one line; none where nothing is. `report.written` says whether there is an answer."""
    return of_letters(found) or (of_nothing(found, setting) if setting.report.written == 0 else None)


def of_letters(found):
    """Letters of a file that are no bases."""
    for it in found:
        sample = it.sample
        if sample.symbols == 0:
            continue
        if "U" in sample.kinds:
            return "%s: it has the letter U, as RNA has; words with it are not counted: write T in its place" % it.shown
        if sample.foreign > FEW * sample.symbols:
            letters = " ".join(sorted(sample.kinds)[:LETTERS_TOLD])
            return "%s: it has the letters %s, which stand for no base, as protein has; only words of A, C, G and T are counted" % (it.shown, letters)
    return None


def of_nothing(found, setting):
    """Why no k-mer is listed."""
    if all(it.format is None for it in found):
        return "%s: there are no reads, so no k-mer is listed" % names_of(found)
    if setting.least > setting.greatest:
        return "no k-mer is listed: --min %d is above --max %d" % (setting.least, setting.greatest)
    longest = max((it.sample.longest for it in found), default=0)
    if 0 < longest < setting.k:
        return "no k-mer is listed: the reads seen have at most %d symbols, and -k is %d" % (longest, setting.k)
    limits = "--min %d" % setting.least + (" and --max %d" % setting.greatest if setting.greatest < 1 << 63 else "")
    return "no k-mer is listed: none of %d symbols A, C, G and T is within %s in %s" % (setting.k, limits, names_of(found))


def names_of(found):
    return found[0].shown + (" and %d more" % (len(found) - 1) if len(found) > 1 else "")
