"""What a test needs beside Python's standard library, by the names of Debian's packages. What lacks skips it, by these names."""
import importlib.util
import shutil

NAMES = {"h2": "python3-h2", "hypercorn": "python3-hypercorn", "cryptography": "python3-cryptography", "pydantic": "python3-pydantic", "pytest": "python3-pytest"}


def entered(test, context):
    """Enters a context until a test's end."""
    it = context.__enter__()
    test.addCleanup(context.__exit__, None, None, None)
    return it


def lacks(*modules: str) -> str:
    """Which of the packages are not there, as a reason; empty where all are."""
    found = lambda it: shutil.which("chromium") if it == "chromium" else importlib.util.find_spec(it)
    left = [NAMES.get(it, it) for it in modules if not found(it)]
    return f"{', '.join(left)} not here" if left else ""
