"""What can go wrong at a desk, and what the tool says while it works."""
import threading
import time


class Trouble(Exception):
    """An error of usage, input or output, told in one line."""


class Progress:
    """Says on a terminal what is being done, once a run has taken a second."""

    def __init__(self, stream, patience=1.0):
        self.stream, self.patience, self.began = stream, patience, time.monotonic()
        self.doing, self.ended = "starting", threading.Event()
        self.teller = threading.Thread(target=self.tell, daemon=True)
        if stream is not None and stream.isatty():
            self.teller.start()

    def now(self, doing):
        self.doing = doing

    def tell(self):
        while not self.ended.wait(self.patience):
            self.stream.write(f"\r\x1b[K{self.doing} .. {time.monotonic() - self.began:.0f} s")
            self.stream.flush()

    def end(self):
        """Takes the line away again."""
        self.ended.set()
        if self.teller.is_alive():
            self.teller.join()
            self.stream.write("\r\x1b[K")
            self.stream.flush()
