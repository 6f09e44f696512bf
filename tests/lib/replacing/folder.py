"""A folder in which the program makes its list, and what is there afterwards."""

import os
import resource
import shutil
import signal
import subprocess

import files
import trial
from wire import HEADER, certificates, section, strings

LIST = "r.krl"
OLD = HEADER + section(2, strings(files.KEY))
PAGE = 4096
NOBODY = 65534


def padded(section_of):
    """The letters of a key ID with which a section ends where a page does."""
    return "x" * (-len(HEADER + section_of("")) % PAGE)


# The entries that an update adds. Two sections end where a page does; none of them has the old key.
FIRST = padded(lambda text: certificates(b"", files.ids(text)))
# The second begins where a page does, without a header before it.
SECOND = padded(lambda text: certificates(files.AUTHORITY, files.ids(text))) + "x" * len(HEADER)
SPEC = "id: %s\n%ssha1: %ssha256: %s" % (
    FIRST,
    files.line(files.certificate(0, SECOND)),
    files.line(files.RSA),
    files.line(files.ECDSA),
)


class Folder(trial.Tests):
    """The scratch folder, which is also the current folder, and the count of the tests."""

    def __init__(self, scratch, program, library):
        super().__init__()
        self.scratch = scratch
        self.library = library
        # The user nobody may run this copy, wherever the program stands.
        self.program = os.path.join(scratch, "ssh-keygen")
        shutil.copy(program, self.program)
        os.chmod(self.program, 0o755)

    def enter(self, name="here", old=OLD):
        """An empty folder but for the key, the specification file and the old list."""
        path = os.path.join(self.scratch, name)
        os.chdir(self.scratch)
        if os.path.ismount(path):
            os.chmod(path, 0o755)
            for found in os.scandir(path):
                is_folder = found.is_dir(follow_symlinks=False)
                (shutil.rmtree if is_folder else os.remove)(found.path)
        else:
            if os.path.exists(path):
                os.chmod(path, 0o755)
                shutil.rmtree(path)
            os.mkdir(path)
        os.chdir(path)
        texts = {"../key.pub": files.line(files.KEY), "../spec": SPEC}
        for file, text in texts.items():
            with open(file, "w", encoding="ascii") as out:
                out.write(text)
        if old is not None:
            self.put(LIST, old)

    def put(self, name, content):
        with open(name, "wb") as out:
            out.write(content)

    def run(self, *words, limit=None, user=None, **more):
        """Runs the program, with a limit for the length of files, or as another user."""

        def prepare():
            # Else this signal would end the program.
            signal.signal(signal.SIGXFSZ, signal.SIG_IGN)
            if limit is not None:
                resource.setrlimit(resource.RLIMIT_FSIZE, (limit, limit))

        as_user = {} if user is None else {"user": user, "group": user, "extra_groups": []}
        as_user |= {it: more.pop(it) for it in ("group", "extra_groups") if it in more}
        return subprocess.run(
            [self.program, *words],
            preexec_fn=prepare,
            capture_output=True,
            timeout=120,
            check=False,
            **as_user,
            **more,
        )

    def update(self, name=LIST, **more):
        return self.run("-k", "-u", "-f", name, "-s", "none", "../spec", **more)

    def made(self):
        """The list that an update makes where nothing is in its way."""
        self.enter()
        done = self.update()
        self.judge("an update", self.differs(done, 0, b""))
        with open(LIST, "rb") as file:
            return file.read()

    def differs(self, done, status, error):
        wrong = []
        if (done.returncode, done.stderr) != (status, error):
            wrong.append("status %d, error %r" % (done.returncode, done.stderr))
        return wrong

    def stands(self, content, names=(LIST,), name=LIST):
        """What is wrong with the list of the name and the names in the folder."""
        wrong = []
        if sorted(os.listdir()) != sorted(names):
            wrong.append("the folder has %r" % sorted(os.listdir()))
        if content is not None and not os.path.exists(name):
            wrong.append("there is no list")
        elif content is not None:
            with open(name, "rb") as file:
                got = file.read()
            if timeless(got) != timeless(content):
                wrong.append("the list has %d bytes: %r" % (len(got), got[-60:]))
        return wrong

    def revoked(self):
        """What is wrong with the answer of the list about its old key."""
        done = self.run("-Q", "-f", LIST, "../key.pub")
        if (done.returncode, done.stdout) != (1, b"../key.pub: REVOKED\n"):
            return ["asked, it says %d %r %r" % (done.returncode, done.stdout, done.stderr)]
        return []


def without_key(made):
    """The list of the lines alone, without the key of the old list."""
    return made.replace(OLD[len(HEADER) :], b"")


def timeless(content):
    """The list with zeros instead of its time."""
    return content[:20] + bytes(8) + content[28:]


def fault(count, name=LIST):
    return b"ssh-keygen: %s: output 1 Write after %d bytes\n" % (name.encode(), count)
