"""What a test in Python finds as it is wanted is counted, and what is otherwise is printed too."""
passed = failed = 0


def judge(name, got, wanted):
    global passed, failed
    if got == wanted:
        passed += 1
        return
    failed += 1
    print(f"not ok: {name}\n  wanted {wanted}\n  got    {got}")
