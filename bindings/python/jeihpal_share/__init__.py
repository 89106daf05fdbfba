"""A live screen that many watch: runs a command in a pseudo-terminal, and shows its screen to whoever connects.

    share [--listen ADDRESS:PORT | --unix PATH] [--http ADDRESS:PORT] [--size RxC] [--rate N] [--] COMMAND [WORD ..]

A watcher is any terminal, best of the command's size (`socat -,raw,echo=0 tcp:ADDRESS:PORT`), or a browser. All that
keep up are sent the same. One that reads slowly takes what it was sent to its end, and then gets the newest.
"""
