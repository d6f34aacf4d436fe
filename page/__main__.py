"""df1-page [SCRIPT]: a page to write scripts of `df1 replay` on, and to look through captures, in the browser of this machine."""
import argparse
import os
import sys
import threading
import webbrowser

import serving
from programs import Program

UNREAD, UNSERVED = 4, 5

EPILOG = """The page is served on 127.0.0.1 alone, on a free port, whose address is printed, and ends with Ctrl-C. It runs `df1 replay` and
`df1 dissect` on what is written there, and nothing else. docs/PAGE.md has its bounds.

status: 0 ended by Ctrl-C; 2 these words are none of the forms; 4 the script can't be read; 5 no port is free"""


def arguments(given):
    """What the words ask for."""
    parser = argparse.ArgumentParser(prog="df1-page", description=__doc__, epilog=EPILOG, formatter_class=argparse.RawDescriptionHelpFormatter)
    parser.add_argument("script", nargs="?", metavar="SCRIPT", help="the file that stands on the page at first; it is never written")
    parser.add_argument("--port", type=int, default=0, help="the port (a free one)")
    parser.add_argument("--no-browser", action="store_true", help="open no browser; none is opened either where there is no display")
    return parser.parse_args(given)


def main(program, given):
    """Serves the page, and answers the status."""
    options = arguments(given)
    try:
        script = open(options.script, "rb").read() if options.script else None
    except OSError as fault:
        print(f"df1-page: {options.script} can't be read: {fault.strerror}", file=sys.stderr)
        return UNREAD
    try:
        server = serving.Server(Program([program]), script, options.port)
    except (OSError, OverflowError) as fault:
        print(f"df1-page: port {options.port} can't be used: {fault}", file=sys.stderr)
        return UNSERVED
    print(f"df1-page: {server.address}/ (Ctrl-C ends it)", flush=True)
    if not options.no_browser and (sys.platform == "darwin" or os.environ.get("DISPLAY") or os.environ.get("WAYLAND_DISPLAY")):
        threading.Thread(target=webbrowser.open, args=(f"{server.address}/",), daemon=True).start()
    try:
        server.serve_forever()
    except KeyboardInterrupt:
        print()
    finally:
        server.server_close()
    return 0


if __name__ == "__main__":
    sys.exit(main(sys.argv[1], sys.argv[2:]))
