"""futoncrane intersect: the k-mers of both of two dumps."""
from futoncrane import joining

USAGE = "[option ..] FIRST.dump SECOND.dump"
TEXT = """
Writes the dump of the k-mers that both dumps list, each with the lesser of its counts, or what --count says.
""" + joining.TEXT
OPTIONS = [joining.choice("min"), *joining.OPTIONS]
EXAMPLES = ["futoncrane intersect -o shared.dump mother.dump child.dump", "futoncrane intersect --count left -o seen.dump reads.dump genome.dump"]


def main(asked):
    return joining.join("intersect", "intersect", asked, ["-oc" + asked.choice])
