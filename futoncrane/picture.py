"""The histogram as a picture: in characters, and by gnuplot as PNG."""
import os
import shutil
import subprocess

from futoncrane.children import told
from futoncrane.faults import Fault, shown
from futoncrane.sizes import valley_of

ROWS = 40
WIDTH = 50
# the picture's height above its greatest bar from the valley on, and about how many lines its axis has
ABOVE, TICKS = 1.25, 5
PLOT = """set terminal png noenhanced size 900,600
set title "%s"
set xrange [0.5:%d.5]
set yrange [0:%.1f]
set ytics (%s)
set xlabel "count: how often a k-mer occurs in the reads%s"
set ylabel "k-mers with this count"
set tics out nomirror
set style fill solid 0.7 noborder
set boxwidth 0.8
set nokey
%s$numbers << END
%s
END
plot $numbers using 1:2 with boxes linecolor rgb "#4060a0"
"""
MARK = """set arrow from %d, graph 0 to %d, graph 1 nohead dashtype 2 linecolor rgb "#b03020"
set label "%s" at %d, graph %.2f offset 0.7, 0 front noenhanced textcolor rgb "#b03020"
"""


def end_of(numbers):
    """The count that 995 of 1000 repeated k-mers do not pass, and at least 10."""
    repeated = [count for count in sorted(numbers) if count > 1]
    whole, below = sum(numbers[count] for count in repeated), 0
    for count in repeated:
        below += numbers[count]
        if below >= 0.995 * whole:
            return max(10, count)
    return 10


def in_characters(numbers, valley=None, peak=None):
    """Lines with a bar for each count, or for some counts together. The greatest bar is that of the most k-mers from the valley on; a
    longer one is cut, which '>' tells. A valley and a peak that are given are marked."""
    end = max(end_of(numbers), peak or 0)
    step = -(-end // ROWS)
    rows = [(first, sum(numbers.get(count, 0) for count in range(first, first + step))) for first in range(1, end + 1, step)]
    most = max([number for first, number in rows if first + step > (valley or valley_of(numbers) or 1)] + [1])
    lines = ["%12s %15s" % ("count", "k-mers")]
    for first, number in rows:
        bar = "*" * WIDTH + ">" if number > most else "*" * (number * WIDTH // most)
        name = str(first) if step == 1 else "%d-%d" % (first, first + step - 1)
        marks = [word for word, count in (("valley", valley), ("peak", peak)) if count is not None and first <= count < first + step]
        lines.append(("%12s %15s %s%s" % (name, format(number, ","), bar, "".join("  <- " + it for it in marks))).rstrip())
    return "\n".join(lines)


def heading(setting, names):
    """What a picture is of: k, and the files."""
    of = ", ".join(shown(os.path.basename(it)) for it in names[:2]) + (" and %d more" % (len(names) - 2) if len(names) > 2 else "")
    return "%s in %s" % ("%d-mers" % setting.k if setting.k else "k-mers", of or "standard input")


def quoted(text):
    """A text as gnuplot has it between quotes."""
    return text.replace("\\", "\\\\").replace('"', '\\"')


def ticks(most):
    """Places of an axis up to this number, with their names: 1, 2 or 5 times a power of ten apart."""
    step = next(one * 10**power for power in range(20) for one in (1, 2, 5) if one * 10**power * TICKS >= most)
    return ", ".join('"%s" %d' % (format(it, ","), it) for it in range(0, int(most) + 1, step))


def marks(found):
    """The lines at the valley and at the peak, and what they say."""
    told = (("valley %d" % found.valley, found.valley, 0.95), ("peak %d: size %s" % (found.peak, format(found.size, ",")), found.peak, 0.89))
    return "".join(MARK % (count, count, text, count, place) for text, count, place in told)


def script(numbers, title, found=None):
    """What gnuplot is told. Bars before the valley are cut at the picture's upper edge, so that the peak is seen."""
    valley = valley_of(numbers) or 1
    most = ABOVE * max([number for count, number in numbers.items() if count >= valley] + [1])
    is_cut = any(number > most for number in numbers.values())
    end = max(end_of(numbers), round(1.5 * found.peak) if found else 0)
    lines = "\n".join("%d %d" % it for it in sorted(numbers.items()))
    return PLOT % (quoted(title), end, most, ticks(most), "; bars up to the edge are cut" if is_cut else "", marks(found) if found else "", lines)


def draw(numbers, children, output, title, found=None):
    """Draws the histogram by gnuplot into an output; valley, peak and size are marked where they are found."""
    gnuplot = shutil.which("gnuplot")
    if gnuplot is None:
        raise Fault("--png wants gnuplot, which is not installed (Debian's package gnuplot-nox); --text draws with characters")
    if not numbers:
        raise Fault("there is no k-mer to draw")
    child = children.start([gnuplot], stdin=subprocess.PIPE, stdout=output.descriptor)
    try:
        child.stdin.write(script(numbers, title, found).encode())
        child.stdin.close()
    except BrokenPipeError:
        pass  # its status tells
    if child.wait():
        raise Fault("gnuplot cannot draw: %s" % told(child))
    output.finish()
