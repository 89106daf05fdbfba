"""The library for C, for a script of a checkout that needs it: whether it is there and proved, and how it is made."""
import os
import sys

from scripts import library, unproved

LIBRARY = f"{library.OUT}/libjeihpal.so"


def version(name):
    """The script's version, and what its library is."""
    if os.environ.get("JEIHPAL_LIBRARY"):
        return f"{name} 0.1"
    if not os.path.exists(LIBRARY):
        return f"{name} 0.1, whose library isn't built"
    return f"{name} 0.1" + (", with an unproved library" if os.path.exists(f"{library.OUT}/{library.UNPROVED}") else "")


def run_with_library(name, error):
    """Makes the library if there is none, and runs the script again. Ends it for another fault, or if that fails."""
    if os.environ.get("JEIHPAL_LIBRARY") or os.path.exists(LIBRARY):
        sys.exit(f"{name}: {error}")
    try:
        unproved.make_library_for(name, "its library isn't built")
    except unproved.Failed as failed:
        sys.exit(f"{name}: {failed}")
    except KeyboardInterrupt:
        sys.exit(130)
    os.execv(sys.executable, [sys.executable, *sys.argv])
