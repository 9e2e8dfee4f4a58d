"""Tells how cases ended."""


def tell(faults):
    """Prints each case with what is wrong, and the counts; the exit status."""
    found = list(faults)
    for name, wrong in found:
        if wrong:
            print(f"case {name}: {wrong}")
    failed = sum(bool(wrong) for _, wrong in found)
    print(f"{len(found) - failed} passed, {failed} failed")
    return 1 if failed or not found else 0
