"""A program whose lines are read as they come, by a thread."""

import re
import subprocess
import threading
import time


class Running:
    """It runs from now on, until it ends or is killed. `note` is called with each line; `how` is what Popen is told besides."""

    def __init__(self, words, note=lambda text: None, **how):
        streams = {"stdin": subprocess.DEVNULL, "stdout": subprocess.PIPE, "stderr": subprocess.STDOUT}
        self.running = subprocess.Popen(words, text=True, errors="replace", **streams, **how)
        self.lines, self.heard, self.note, self.is_over = [], threading.Condition(), note, False
        self.reader = threading.Thread(target=self.listen, daemon=True)
        self.reader.start()

    def listen(self):
        for text in self.running.stdout:
            with self.heard:
                self.lines.append((time.monotonic(), text))
                self.note(text.rstrip())
                self.heard.notify_all()
        with self.heard:
            self.is_over = True
            self.heard.notify_all()

    def said(self):
        with self.heard:
            return "".join(text for _, text in self.lines)

    def first(self, pattern="", since=0.0):
        """The first line from that moment on that the pattern fits, if there is one, without its end."""
        return next((text.rstrip("\n") for at, text in self.lines if at >= since and re.search(pattern, text)), None)

    def says(self, pattern="", seconds=20.0, since=0.0):
        """The same, which is waited for, for so long at most, and until it ends."""
        with self.heard:
            self.heard.wait_for(lambda: self.is_over or self.first(pattern, since) is not None, seconds)
            return self.first(pattern, since)

    def status(self, seconds):
        """The status with which it ended within so long, or None."""
        try:
            return self.running.wait(seconds)
        except subprocess.TimeoutExpired:
            return None

    def kill(self):
        self.running.kill()
        self.running.wait()
        self.reader.join(5)
        return self.said()
