"""`python -m corwaphi FILE [WORD ..]`."""
import sys

from .shell import main


def run() -> None:
    """The command `corwaphi`."""
    sys.exit(main(sys.argv[1:]))


if __name__ == "__main__":
    run()
