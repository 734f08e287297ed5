"""What the test scripts end with: a line for each fault, a line for each test that cannot run, and how many passed."""


def report(cases):
    """Prints the faults of cases, each a list of faults, and last how many cases passed; returns the exit status."""
    passed = failed = 0
    for case in cases:
        found = list(case)
        passed, failed = passed + (not found), failed + bool(found)
        for fault in found:
            print(fault)
    print("%d passed, %d failed" % (passed, failed))
    return 1 if failed else 0


def report_named(cases):
    """The same of cases that are a name with its faults each: the name precedes each fault."""
    return report(["%s: %s" % (name, fault) for fault in faults] for name, faults in cases)


def report_each(faults):
    """The same of cases that have a fault or none each."""
    return report([fault] if fault else [] for fault in faults)


def not_run(what, why):
    """Prints that a test cannot run here, and why. gate.py lists these lines at its end, and fails on them with CI=true."""
    print("not run: %s: %s" % (what, why))
