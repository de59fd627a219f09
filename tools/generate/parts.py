"""Splits codes into runs, and names kinds of immediates."""

def title(forms):
    """Returns the name of some kinds in the names of functions and lemmas."""
    words = [it.replace("memory Plain", "memory").replace(" ", "_").lower() for it in forms]
    return "_".join(words) or "without_immediates"


def runs(codes):
    out = []
    for code in sorted(codes):
        if out and out[-1][1] == code - 1:
            out[-1][1] = code
        else:
            out.append([code, code])
    return [(first, last) for first, last in out]


def run_pattern(run):
    first, last = run
    return f"0x{first:02x}" if first == last else f"0x{first:02x}..=0x{last:02x}"
