"""How a script ends that compares what stands in several places."""
import sys


def ended(name, faults, sound):
    """Tells each fault, or what is sound where there is none, and gives the status."""
    for fault in faults:
        print(f"{name}: {fault}", file=sys.stderr)
    if not faults:
        print(f"{name}: {sound}")
    return 1 if faults else 0
