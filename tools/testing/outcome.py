"""How a difference is shown."""

LINES = 12
WIDTH = 160


def short(line):
    text = line.decode(errors="replace")
    return repr(text if len(text) <= WIDTH else f"{text[:WIDTH]}..")


def difference(expected, found, what):
    if expected == found:
        return []
    wanted, got = expected.split(b"\n"), found.split(b"\n")
    at = next((at for at, pair in enumerate(zip(wanted, got)) if pair[0] != pair[1]), min(len(wanted), len(got)))
    shown = []
    for number in range(at, min(at + 3, max(len(wanted), len(got)))):
        lines = [short(text[number]) if number < len(text) else "the end" for text in (wanted, got)]
        if lines[0] != lines[1]:
            shown += [f"{what}, line {number + 1}:", f"  expected {lines[0]}", f"  found    {lines[1]}"]
    return shown


def tail(text, count=LINES):
    return text.rstrip("\n").split("\n")[-count:] if text.strip() else []
