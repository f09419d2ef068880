"""futoncrane union: the k-mers of either of two dumps."""
from futoncrane import joining

USAGE = "[option ..] FIRST.dump SECOND.dump"
TEXT = """
Writes the dump of the k-mers that one of the dumps lists, or both. One that both list has the sum of its counts, or what --count says.
""" + joining.TEXT
OPTIONS = [joining.choice("sum"), *joining.OPTIONS]
EXAMPLES = ["futoncrane union -o either.dump mother.dump father.dump", "futoncrane union --count max -o either.dump mother.dump.gz father.dump.gz"]


def main(asked):
    return joining.join("union", "union", asked, ["-oc" + asked.choice])
