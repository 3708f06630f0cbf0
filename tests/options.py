"""A program as people call it: its options, messages and ways to name files, for the scripts NAME-options."""
import os
import resource
import subprocess
import sys
import tempfile

from program import command

GONE = "No such file or directory"
LONG = "File name too long"
FOLDER = "Is a directory"
TOO_LONG = "a name of more than 4096 bytes"


class Calls:
    """Calls of a program, each held to what it should write; here those with one name at most."""

    def __init__(self, program, files, shown, much, limit=4096 + 5):
        """files: the bytes of each; one, two, -odd and empty are among them. shown: what the program writes for a list of names, of which some
        cannot be opened and `folder` cannot be read, where `-` has each of a list of bytes in turn. much: names with more text than the limit."""
        self.program, self.files, self.shown, self.much, self.limit = program, files, shown, much, limit
        self.words = command(program)
        self.done = 0

    def fail(self, text):
        sys.exit("%s-options: %s" % (self.program, text))

    def run(self, *args, **more):
        """What a call writes to standard output and standard error."""
        usual = {"stdout": subprocess.PIPE, "stderr": subprocess.PIPE, "stdin": subprocess.DEVNULL}
        ran = subprocess.run(self.words + list(args), check=True, **{**usual, **more})
        return ran.stdout, ran.stderr

    def holds(self, args, output, error, **more):
        got = self.run(*args, **more)
        if got != (output, error):
            self.fail("%s %s: wrote %r and %r, not %r and %r" % ((self.program, " ".join(args)) + got + (output, error)))
        self.done += 1

    def shows(self, args, error=b"", names=None, **more):
        """The arguments are names, unless these are said. A second `-` finds nothing."""
        self.holds(args, self.shown(args if names is None else names, [more.get("input", b""), b""]), error, **more)

    def cannot(self, do, what, why):
        return ("%s: cannot %s %s: %s\n" % (self.program, do, what, why)).encode()

    def names(self):
        one = {"stdin": None, "input": self.files["one"]}
        for args in ([], ["-"], ["--"]):
            self.shows(args, names=["-"], **one)
        for names in (["one"], ["empty"]):
            self.shows(names)
        self.shows(["--", "-odd"], names=["-odd"])
        for name in ("--", "--help"):
            self.shows(["--", name], self.cannot("open", name, GONE), names=[name])

    def options(self):
        help_text = self.run("--help")
        for args in (["-h"], ["one", "--help"], ["--help", "--nonsense"]):
            self.holds(args, *help_text)
        if not help_text[0].startswith(("usage: %s " % self.program).encode()) or help_text[1]:
            self.fail("--help does not begin with the usage")
        self.holds(["--version"], ("%s (Hoardbutton) 0.1.0\n" % self.program).encode(), b"")
        unknown = lambda option: ("%s: unknown option %s; %s --help says more\n" % (self.program, option, self.program)).encode()
        for option in ("-x", "--nonsense", "--hel", "--help=1", "---"):
            self.holds(["one", option], b"", unknown(option))
        self.holds(["-x", "--help"], b"", unknown("-x"))

    def unreadable(self, around=lambda name: [name]):
        """around: the names of a call with this one, of which the others can be read."""
        self.shows(around("missing"), self.cannot("open", "missing", GONE))
        self.shows(around(""), self.cannot("open", "", GONE))
        self.shows(around("folder"), self.cannot("read", "folder", FOLDER))
        self.holds(around("-"), b"", self.cannot("read", "standard input", FOLDER), stdin=os.open("folder", os.O_RDONLY))
        self.shows(around("x" * 4096), self.cannot("open", "x" * 4096, LONG))
        self.shows(around("x" * 4097), self.cannot("open", TOO_LONG, LONG))

    def full(self, args):
        """The output takes nothing."""
        with open("/dev/full", "wb") as full:
            self.holds(args, None, self.cannot("write", "standard output", "No space left on device"), stdout=full)

    def unwritable(self):
        """A write that fails is said once, ends the run, and leaves the beginning of the text."""
        for args in (["one"], ["--help"], ["--version"]):
            self.full(args)
        with open("cut", "w+b") as file:
            small = lambda: resource.setrlimit(resource.RLIMIT_FSIZE, (self.limit, self.limit))
            said = self.cannot("write", "standard output", "File too large")
            self.holds(self.much, None, said, stdout=file, preexec_fn=small, restore_signals=False)
            file.seek(0)
            if file.read() != self.shown(self.much, [])[:self.limit]:
                self.fail("a write that fails leaves something else than the beginning of the text")

    def all(self, wanted, *further):
        """Every test, in a folder with the files."""
        before = os.getcwd()
        with tempfile.TemporaryDirectory() as folder:
            os.chdir(folder)
            for name, content in self.files.items():
                with open(name, "wb") as file:
                    file.write(content)
            os.mkdir("folder")
            for part in (self.names, self.options, self.unreadable, self.unwritable) + further:
                part()
            os.chdir(before)
        if self.done != wanted:
            self.fail("%d calls were made, not %d" % (self.done, wanted))
        print("%s-options: %d calls of %s write what they should" % (self.program, self.done, self.program))


class ManyCalls(Calls):
    """Calls of a program that takes several names."""

    def names(self):
        super().names()
        self.shows(["two", "-", "-"], stdin=None, input=self.files["one"])
        self.shows(["one", "two"])
        self.shows(["one", "--", "-odd"], names=["one", "-odd"])

    def unreadable(self):
        super().unreadable()
        self.shows(["one", "missing", "two"], self.cannot("open", "missing", GONE))
        self.shows(["folder", "one"], self.cannot("read", "folder", FOLDER))
        self.shows(["x" * 4097, "one"], self.cannot("open", TOO_LONG, LONG))

    def unwritable(self):
        super().unwritable()
        self.full(["one", "two"])
