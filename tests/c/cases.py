"""Cases named as sentences: a function marked @case passes where it returns. Failures are printed as they come."""
import sys
import traceback

CASES = []


def case(function):
    CASES.append(function)
    return function


def same(here, expected):
    """What differs is printed in full, so that a failure needs no second run."""
    if here != expected:
        raise AssertionError(f"\n  expected {expected!r}\n  here     {here!r}")


def has(part, whole):
    if part not in whole:
        raise AssertionError(f"\n  no {part!r}\n  in {whole!r}")


def run_cases():
    """Runs all cases, prints 'N passed, M failed' last, and gives the status."""
    failed = 0
    for function in CASES:
        try:
            function()
        except Exception as why:
            failed += 1
            print(f"failed: {function.__name__}: {why}")
            if not isinstance(why, AssertionError):
                traceback.print_exc(file=sys.stdout)
    print(f"{len(CASES) - failed} passed, {failed} failed")
    return 1 if failed or not CASES else 0
