"""Ways in which a file can be there, or not be there, when a program looks for it.

Each source has `content`, the bytes that a reader of the file gets (None where it cannot be read), and `put`, which
makes the file at a path and answers a function that feeds it while the program runs, or None.
"""

import fcntl
import os
import struct
import termios
import time

NO_CONTENT = None


class Plain:
    """A file that holds `content`."""

    def __init__(self, content):
        self.content = content

    def put(self, path):
        path.write_bytes(self.content)


class Missing:
    """No file."""

    content = NO_CONTENT

    def put(self, path):
        pass


class Folder:
    """A folder in the file's place."""

    content = NO_CONTENT

    def put(self, path):
        path.mkdir()


class Unreadable:
    """A file that nobody may read. The superuser reads it all the same: see `running.unprivileged`."""

    content = NO_CONTENT

    def __init__(self, hidden):
        self.hidden = hidden

    def put(self, path):
        path.write_bytes(self.hidden)
        path.chmod(0)


class Link:
    """A symbolic link to `target`; a reader gets `content`."""

    def __init__(self, target, content):
        self.target = target
        self.content = content

    def put(self, path):
        path.symlink_to(self.target)


class Pipe:
    """A pipe that hands out `content` in pieces of `size` bytes.

    The next piece is written when the one before it has been read, so no read gets more than one piece.
    """

    def __init__(self, content, size=1):
        self.content = content
        self.size = size

    def put(self, path):
        os.mkfifo(path, 0o644)
        return lambda stop: self.feed(path, stop)

    def feed(self, path, stop):
        """Feeds the pipe until all is read, the reader has closed it or `stop` is set."""
        writer = open_for_writing(path, stop)
        if writer is None:
            return
        try:
            hand_out(writer, self.content, self.size, stop)
        except BrokenPipeError:
            pass
        finally:
            os.close(writer)


def open_for_writing(path, stop):
    """Opens the pipe when a reader has opened it; None if `stop` is set before."""
    while not stop.is_set():
        try:
            return os.open(path, os.O_WRONLY | os.O_NONBLOCK)
        except OSError:
            time.sleep(0.001)
    return None


def hand_out(writer, content, size, stop):
    """Writes the pieces, each when the pipe is empty."""
    for start in range(0, len(content), size):
        os.write(writer, content[start : start + size])
        while waiting(writer) and not stop.is_set():
            time.sleep(0)


def waiting(pipe):
    """How many bytes of the pipe are not read yet."""
    return struct.unpack("i", fcntl.ioctl(pipe, termios.FIONREAD, bytes(4)))[0]
