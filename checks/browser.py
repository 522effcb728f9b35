"""Runs Chromium without a window, with a time limit."""
import os
import shutil
import signal
import subprocess

NAME = "chromium"


def is_installed():
    return shutil.which(NAME) is not None


def document(path, folder, seconds, words=()):
    """Returns the document at a path after its scripts have run, or raises `TimeoutExpired`. The profile is left in the folder.

    The processes that Chromium starts keep its output open, so that a pipe may never end: the output is a file, and the whole
    group is ended."""
    with open(os.path.join(folder, "document.html"), "w+b") as output:
        browser = subprocess.Popen(
            [NAME, "--headless", "--no-sandbox", "--disable-gpu", f"--user-data-dir={folder}/profile", *words, "--dump-dom",
             f"file://{path}"],
            stdin=subprocess.DEVNULL, stdout=output, stderr=subprocess.DEVNULL, start_new_session=True)
        try:
            browser.wait(timeout=seconds)
        finally:
            end(browser)
        output.seek(0)
        return output.read().decode()


def end(browser):
    """Ends the processes that a browser started, and the browser."""
    try:
        os.killpg(browser.pid, signal.SIGKILL)
    except ProcessLookupError:
        pass
    browser.wait()
