"""Prints what the program should print: `python3 -m checks.model [OPTIONS] < FILE`.

Reads an order file or a journal of plain fields (no quotes) on standard input. Takes the program's
options, but for --floor, --history and --live.
"""
import argparse
import sys

from checks.model.answers import DEFAULTS, FORMS, answer


def main() -> int:
    """Prints what a day of standard input has to print; answers the status."""
    parser = argparse.ArgumentParser(prog="python3 -m checks.model")
    for name, default in DEFAULTS.items():
        parser.add_argument("--" + name, type=int, default=default)
    parser.add_argument("--print", choices=list(FORMS))
    parser.add_argument("--audit", action="store_true")
    asked = vars(parser.parse_args())
    if asked["audit"] and asked["print"]:
        parser.error("--audit and --print exclude each other")
    form = "audit" if asked["audit"] else asked["print"] or "lines"
    options = {name: asked[name] for name in DEFAULTS}
    status, out, error = answer(sys.stdin.buffer.read().decode("latin-1"), options, form)
    sys.stdout.buffer.write(out.encode("latin-1"))
    print(error, end="", file=sys.stderr)
    return status


if __name__ == "__main__":
    sys.exit(main())
