"""How much a script shows. Without an option it makes fewer cases, of the same seeds and kinds, as `make test` does. With
--full, anywhere in its command line, it makes all of them, as `make long` does. With --idle it also compares times, for
which the machine may do nothing else."""
import sys


def has(option):
    """Whether the command line has this option, which is then no longer in it."""
    found = option in sys.argv[1:]
    sys.argv[1:] = [word for word in sys.argv[1:] if word != option]
    return found


IS_FULL, IS_IDLE = has("--full"), has("--idle")


def cases(few, full):
    """How many cases to make."""
    return full if IS_FULL else few
