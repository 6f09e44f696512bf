"""The texts of `krl make` are read before all else, and once."""

import os
import threading

from races.late import write
from races.lists import LATE, OLD, differs, makes
from replacing.folder import LIST
from updating.locked import held, slept
from updating.steps import LOCK, content, shown

# Each row: the texts, and how the line about the fault begins.
REFUSED = {
    "a missing text": (["../none"], b"krl: ../none: "),
    "a folder": ([".."], b"krl: ..: "),
    "a wrong line": (["../wrong"], b"krl: ../wrong: line 2: "),
    "a wrong line in the last text": (["../text", "../wrong"], b"krl: ../wrong: line 2: "),
    "a missing text behind one": (["../text", "../none"], b"krl: ../none: "),
    "a text with a key ID before any CA": (["../early"], b"krl: ../early: line 1: "),
    "a text that names nothing": (["../empty"], b"krl: "),
}


def state():
    """The list, and what tells whether it was changed."""
    found = os.stat(LIST)
    return content(), found.st_ino, found.st_mtime_ns, found.st_ctime_ns


def refused(place):
    """A fault of a text is reported while another process has the lock, and no call belongs to the
    list or to what is beside it."""
    for name, (texts, begins) in REFUSED.items():
        run = makes(place)
        run.words = ("make", "-q", "-f", LIST, *texts)
        run.begin()
        place.put("../wrong", b"ca: all\nserial: 2-1\n")
        place.put("../early", b"id: a\n")
        place.put("../empty", b"# nothing\n")
        place.put(LOCK, b"")
        before = state()
        with held(LOCK):
            calls, done = run.seen(HURRY="1")
        wrong = [] if done.returncode == 255 and done.stderr.startswith(begins) else [shown(done)]
        if slept(calls) or b"waiting" in done.stderr:
            wrong.append("it waits")
        if state() != before or {*os.listdir()} != {LIST, LOCK}:
            wrong.append("the list is changed, or the folder: %r" % os.listdir())
        found = [it for it in calls if os.path.basename(it.path) in (LIST, LOCK)]
        wrong += ["it calls %s" % it.name for it in found]
        run.judge("%s beside a held lock" % name, wrong)


def feed(path, text):
    """Writes the text to the pipe once, for the first that opens it."""

    def put():
        with open(path, "wb") as pipe:
            pipe.write(text)

    threading.Thread(target=put, daemon=True).start()


def once(place):
    """A text that can be read once alone, and a list that is written right before the renaming: the
    list that is made again has the entries of the text."""
    for name, word in (("a pipe", "../pipe"), ("standard input", "-")):
        run = makes(place)
        run.words = ("make", "-q", "-f", LIST, word)

        def begin():
            run.begin()
            if word == "-":
                run.text = run.lines
            else:
                if os.path.exists(word):
                    os.remove(word)
                os.mkfifo(word)
                feed(word, run.lines)

        begin()
        calls, done = run.calls()
        run.judge("the text is %s" % name, differs(done, run.follows(OLD)))
        begin()
        done = run.stopped(calls.index("rename") + 1, lambda: write(LATE))
        name = "a list written before the renaming, and the text is %s" % name
        run.judge(name, differs(done, run.follows(LATE)))
