"""How a program that rt built is called, directly or by `run-rattle` where the machine is not x86-64, and what it is given."""
import os

HERE = os.path.dirname(os.path.abspath(__file__))


def command(name):
    """The words that run it."""
    words = [os.path.join(HERE, "..", "crates", name, "out", name)]
    return words if os.uname().machine == "x86_64" else ["sh", os.path.join(HERE, "run-rattle")] + words


def feed(pipe, content, size):
    """Gives what a program reads in pieces; it need not read something that is too long to its end."""
    try:
        for at in range(0, len(content), size):
            pipe.write(content[at:at + size])
            pipe.flush()
        pipe.close()
    except BrokenPipeError:
        pass


def shared_memory():
    """Where files are written fastest, if there is such a place."""
    return "/dev/shm" if os.path.isdir("/dev/shm") else None


DUMP = command("dump")
