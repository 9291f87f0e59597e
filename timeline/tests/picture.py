#!/usr/bin/python3
"""Makes docs/timeline.png, the picture that the README shows."""
import pathlib
import sys

sys.dont_write_bytecode = True
import browser

FOLDER = pathlib.Path(__file__).resolve().parent
PICTURE = FOLDER.parents[1] / "docs" / "timeline.png"


def main():
    shown = browser.Browser(size="1400,943")
    try:
        shown.open(FOLDER / "random.trace", FOLDER / "random.schedule")
        shown.run("""
          setView(6030, 6320);
          pickLine(data.lines.texts.findIndex(text => text.startsWith("start 257")) + 1, false);""")
        shown.settle()
        shown.driver.save_screenshot(str(PICTURE))
    finally:
        shown.close()


main()
