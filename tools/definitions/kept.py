"""The functions of definitions, and what is kept of them for the many processes of one test run, which would compile the same.

They are kept in the folder that ANNEXD_COMPILED names; without it nothing is kept. In it stands a folder for each state of what
an entry depends on: all definitions of the crates, what compiles them, and the version of Python. An entry is a file there, which
begins with a checksum of the rest; one that is damaged counts as none, and is made anew. It is written apart and renamed, so that
others see the whole of it or nothing.
"""
import hashlib
import marshal
import os
import re
import sys

HERE = os.path.dirname(os.path.abspath(__file__))
COMPILERS = [os.path.join(HERE, name) for name in ("antt.py", "antt_library.py", "kept.py")]
OPERATORS = {"◌▷◌": "then_step", "◌▶◌": "then_move", "◌>>=◌": "bind", "◌>>◌": "then"}
SUM_BYTES = hashlib.sha256().digest_size


def python_name(module, name):
    """The name in Python of a definition; one of an operator is a word."""
    return "G_" + re.sub(r"\W", "_", module) + "_" + re.sub(r"\W", lambda x: f"_q{ord(x[0]):x}", OPERATORS.get(name, name))


def state_of(root):
    """A checksum of all that an entry depends on."""
    crates = os.path.join(root, "crates")
    folders = [os.path.join(crates, name, "specs") for name in os.listdir(crates)]
    paths = [os.path.join(at, name) for folder in folders for at, _, names in os.walk(folder) for name in names]
    whole = hashlib.sha256(sys.version.encode())
    for path in COMPILERS + sorted(paths):
        with open(path, "rb") as f:
            text = f.read()
        whole.update(b"%s %d\n%s" % (os.fsencode(os.path.relpath(path, root)), len(text), text))
    return whole.hexdigest()


class Kept:
    """The entries of one state. What cannot be read is not there, and what cannot be written is not kept."""

    def __init__(self, folder, root):
        self.folder = os.path.join(folder, state_of(root))
        try:
            os.makedirs(self.folder, exist_ok=True)
        except OSError:
            pass

    def get(self, name):
        """The entry of this name, or None."""
        try:
            with open(os.path.join(self.folder, name), "rb") as f:
                text = f.read()
        except OSError:
            return None
        return marshal.loads(text[SUM_BYTES:]) if hashlib.sha256(text[SUM_BYTES:]).digest() == text[:SUM_BYTES] else None

    def put(self, name, entry):
        rest, path = marshal.dumps(entry), os.path.join(self.folder, name)
        apart = f"{path}.{os.getpid()}"
        try:
            with open(apart, "wb") as f:
                f.write(hashlib.sha256(rest).digest() + rest)
            os.replace(apart, path)
        except OSError:
            pass


class Functions:
    """The functions of definitions by their names in Python, in `functions`, where they call one another by these names."""

    def __init__(self, root, functions, load):
        folder = os.environ.get("ANNEXD_COMPILED")
        self.kept = Kept(folder, root) if folder else None
        self.functions, self.load = functions, load
        # how many arguments each takes that was taken from what is kept, and the module and the name of each that was read
        self.arities, self.read = {}, {}

    def install(self, py, k, code):
        """Makes a definition a function of k arguments, by its code; what has no arguments is computed once."""
        exec(code, self.functions)
        if k == 0:
            f, cell = self.functions[py], []

            def once():
                if not cell:
                    cell.append(f())
                return cell[0]
            self.functions[py] = once

    def restored(self, py):
        """Takes a definition from what is kept, with stand-ins for those that it names; tells whether it is there."""
        entry = self.kept and self.kept.get(py)
        if not entry:
            return False
        self.arities[py], code, named = entry
        for other, module in named:
            if other not in self.functions:
                self.functions[other] = self.stand_in(other, module)
        self.install(py, self.arities[py], code)
        return True

    def stand_in(self, py, module):
        """Stands for a definition until it is called."""
        def stub(*arguments):
            # (another stands there where it was called before, or where its module was read)
            if self.functions[py] is stub and not self.restored(py):
                self.load(module)
            return self.functions[py](*arguments)
        return stub

    def keep(self, py, k, text, code):
        """Keeps a definition of k arguments that was compiled from a text in Python."""
        if self.kept:
            named = sorted({other for other in re.findall(r"\bG_\w+", text) if other in self.read})
            self.kept.put(py, (k, code, tuple((other, self.read[other]) for other in named)))
