#!/usr/bin/env python3
"""Draws README's picture of the page, examples/page-light.png and examples/page-dark.png, by headless Chromium.

The page is that of README's commands over the example of the drain. Debian's `chromium` draws it, as
`apt-get install --no-install-recommends chromium` installs it. Its window is so tall that each part of the page is on the picture.
Pictures differ from one version of Chromium to the next, and with the fonts that are installed: look at them before a commit.
"""
import pathlib
import shutil
import subprocess
import sys
import tempfile

TOP = pathlib.Path(__file__).resolve().parent.parent
BROWSERS = ("chromium", "chromium-browser", "google-chrome")
# So tall a picture has some rows of the plan, which stands last, and stays small.
WIDTH, TALL = 1080, 2640
EXAMPLE = [f"{TOP}/examples/draining.toml", f"{TOP}/examples/draining.pcap"]
ASKED = ["--json", "--list", "--where", "--summary", "--per-backend", "--per-node"]


def page(folder):
    """Writes the page."""
    with open(f"{folder}/run.jsonl", "wb") as lines:
        subprocess.run([f"{TOP}/bin/maglev", "simulate", *ASKED, *EXAMPLE, f"{folder}/sent.pcap"], stdout=lines, check=True)
    with open(f"{folder}/run.jsonl", "ab") as lines:
        subprocess.run([f"{TOP}/bin/maglev", "plan", "--json", EXAMPLE[0], "1", "2"], stdout=lines, check=True)
    subprocess.run([sys.executable, f"{TOP}/share/maglev/report.py", f"{folder}/run.jsonl", f"{folder}/run.html"], check=True)


def quietly(profile):
    """The words that run Chromium without a window, with its files in a folder; none where it isn't installed."""
    browser = next((found for found in map(shutil.which, BROWSERS) if found), None)
    return browser and [browser, "--headless", "--no-sandbox", "--disable-gpu", "--hide-scrollbars", f"--user-data-dir={profile}"]


def draw(quiet, shown, picture, tall, dark):
    """Draws a page into a picture so tall, by the words that run Chromium, in the dark colours or the light ones. Whether it did."""
    words = [f"--window-size={WIDTH},{tall}", f"--screenshot={picture}", *(["--blink-settings=preferredColorScheme=0"] if dark else [])]
    return subprocess.run([*quiet, *words, f"file://{shown}"], capture_output=True, timeout=300, check=False).returncode == 0


def main():
    with tempfile.TemporaryDirectory() as folder:
        quiet = quietly(f"{folder}/profile")
        if not quiet:
            sys.exit("page_picture.py: Chromium isn't installed")
        page(folder)
        for colour in ("light", "dark"):
            if not draw(quiet, f"{folder}/run.html", f"{TOP}/examples/page-{colour}.png", TALL, colour == "dark"):
                sys.exit("page_picture.py: Chromium drew nothing")


if __name__ == "__main__":
    main()
