"""What each script answers when it is asked for its help."""
import signal


def for_help(words, text):
    """Prints the text where the words ask for the help. Answers whether they do."""
    if words not in (["--help"], ["-h"]):
        return False
    signal.signal(signal.SIGPIPE, signal.SIG_DFL)
    print(text.strip(), flush=True)
    return True
