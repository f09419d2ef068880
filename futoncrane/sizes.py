"""A genome's size from the histogram of its reads' k-mers.

    size = sum of COUNT * NUMBER from the valley on / COUNT at the peak

The source is Li and Waterman, Estimating the repeat structure and length of DNA sequences using l-tuples, Genome Research 13 (2003)
1916-1922, doi 10.1101/gr.1251803."""
import collections

from futoncrane.faults import Fault

# a second peak: how near half or twice the first it is, how much it is above its sides, and its share of the first
NEAR, STANDS_OUT, LEAST_SHARE = 0.2, 1.1, 0.02

Size = collections.namedtuple("Size", "valley peak words errors size")


def valley_of(numbers):
    """The least count whose number is below the next one's, if there is one."""
    for count in range(1, max(numbers, default=0)):
        if numbers.get(count, 0) < numbers.get(count + 1, 0):
            return count
    return None


def size_of(numbers, peak=None):
    """The estimate, at the greatest number from the valley on where no peak is given."""
    valley = valley_of(numbers)
    if valley is None:
        raise Fault("the numbers only fall, so there is no peak: the reads are too few, or -k is too great")
    kept = {count: number for count, number in numbers.items() if count >= valley}
    peak = peak or max(kept, key=lambda count: (kept[count], -count))
    words_kept = sum(count * number for count, number in kept.items())
    words = sum(count * number for count, number in numbers.items())
    return Size(valley, peak, words, words - words_kept, (words_kept + peak // 2) // peak)


def smoothed(numbers, count):
    return sum(numbers.get(it, 0) for it in range(count - 1, count + 2))


def others(numbers, found):
    """A line for each second peak that stands near half or twice the count of the one taken: one of the two is that of heterozygous k-mers,
    or of repeated ones, and which one cannot be told from the numbers."""
    told = []
    for factor, word in ((0.5, "half"), (2, "twice")):
        second = second_peak(numbers, found, factor)
        if second:
            told.append("there is a second peak at %d, about %s %d: if it is the genome's, as where two copies of each chromosome are unlike, the "
                        "size is %d; --peak %d takes it" % (second, word, found.peak, size_of(numbers, second).size, second))
    return told


def second_peak(numbers, found, factor):
    """The count of the greatest number within an eighth of so many times the peak, where it stands out from what is between; none else."""
    middle = found.peak * factor
    near = [it for it in range(round(middle * (1 - NEAR)), round(middle * (1 + NEAR)) + 1) if it > found.valley]
    if not near:
        return None
    second = max(near, key=lambda count: (smoothed(numbers, count), -count))
    between = min((smoothed(numbers, it) for it in range(min(second, found.peak) + 1, max(second, found.peak))), default=0)
    edge = smoothed(numbers, second + (1 if second > found.peak else -1) * max(2, round(found.peak * NEAR)))
    height = smoothed(numbers, second)
    is_peak = height >= STANDS_OUT * max(between, edge, 1) and height >= LEAST_SHARE * smoothed(numbers, found.peak)
    return second if is_peak else None


def read(stream, name):
    """The histogram in lines of a count, white space and a number."""
    numbers = {}
    for place, line in enumerate(stream, 1):
        words = line.split()
        if len(words) != 2 or not all(word.isdigit() for word in words):
            raise Fault("%s: line %d is no count with its number" % (name, place))
        numbers[int(words[0])] = int(words[1])
    return numbers
