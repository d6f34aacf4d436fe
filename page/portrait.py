"""The picture of the page for README: an example, one of whose arrows is touched."""
import sys
import threading

import serving
from browser import Browser
from programs import Program

TOUCHED = "a.0.b"


def main(program, file):
    """Draws the page over a program into a PNG file."""
    server = serving.Server(Program([program], seconds=60))
    threading.Thread(target=server.serve_forever, daemon=True).start()
    browser = Browser(size=(1240, 1010))
    try:
        browser.open(f"{server.address}/")
        browser.until(f"return document.querySelector('[data-arrow=\"{TOUCHED}\"]')")
        browser.run(f"document.querySelector('[data-arrow=\"{TOUCHED}\"]').dispatchEvent(new MouseEvent('click', {{ bubbles: true }}))")
        browser.until("return document.querySelector('#touch.open')")
        browser.picture(file)
    finally:
        browser.close()
        server.shutdown()


if __name__ == "__main__":
    main(*sys.argv[1:])
