"""Finds what is wrong with the programs' answers to a case, if anything is."""

import re

FAMILY = rb"(?:wire|key|line|private|cert|subject|fingerprint|file|krl|spec|run) \d+ [A-Za-z0-9]+"
FAULT = re.compile(
    rb"ssh-keygen: [^\n]*?: (?:line \d+: )?(" + FAMILY + rb"(?:, " + FAMILY + rb")*)\n\Z"
)
FINGERPRINT = rb"(?:SHA256:[A-Za-z0-9+/]{43}|MD5(?::[0-9a-f]{2}){16})"
KEY = re.compile(
    rb"(\d+ " + FINGERPRINT + rb") (.*) \(((?:RSA|DSA|ECDSA|ED25519)(?:-SK)?(?:-CERT)?)\)"
)
ANSWER = re.compile(rb".*: (ok|REVOKED)")
SHA256 = rb"SHA256:[A-Za-z0-9+/]{43}"
TIME = rb"(\d{4}-\d\d-\d\dT\d\d:\d\d:\d\dZ|@\d+)"
CONTENTS = re.compile(
    rb"# (KRL version \d+|Generated at " + TIME + rb"|Comment: .+|CA all|CA " + SHA256 + rb")"
    rb"|serial: \d+(-\d+)?|id: .*|key: [A-Za-z0-9+/]*={0,2}|sha1: [0-9a-f]{40}|hash: " + SHA256
)
LABEL = (
    rb"Type|Public key|Signing CA|Key ID|Serial|Valid|Valid now"
    rb"|Principals|Critical Options|Extensions"
)
CERT = re.compile(rb".*:\d+:|        (" + LABEL + rb"):.*|                .*")

# A carriage return at the end of a key ID in a specification file, which OpenSSH's program keeps,
# so that its list names no certificate by this ID.
RETURN_AFTER_ID = re.compile(rb"^[ \t]*id:[^#\n]*\r[ \t\r]*(#|$)", re.IGNORECASE | re.MULTILINE)

# Faults for which this program refuses what OpenSSH's takes, each with its reason.
SPELLINGS = {
    "wire 3 NotShortest": "numbers have one spelling, since lists name keys byte for byte",
    "key 6 Number": "the same: no number of a key is zero",
    "line 3 WordDiffers": "OpenSSH drops a zero byte at the end of a name",
    "key 3 Curve": "the same",
    "key 5 Length": "the same of an application",
}
SPECS = {
    "spec 1 Number": "OpenSSH takes a sign, and wraps a negative number",
    "spec 5 EmptyId": "OpenSSH takes a key ID without a letter",
    "run 2 VersionFull": "OpenSSH leaves the version as it was",
    **SPELLINGS,
}
PRIVATE = {
    "^private": "OpenSSH lists by the public part, however the private one is damaged or protected",
}
DIFFERENCES = {
    "lists_asked": {},
    "keys_listed": SPELLINGS,
    "keys_asked": SPELLINGS,
    "certs_listed": SPELLINGS,
    "private_listed": PRIVATE,
    "lists_made": SPECS,
}


class Run:
    """How a run ended."""

    def __init__(self, words, status, output, error):
        self.words = words
        self.status = status
        self.output = output
        self.error = error

    def fault(self):
        found = FAULT.match(self.error)
        return found.group(1).decode() if found else None


def wrong_form(run):
    """Finds what no run of this program may show, whatever it reads."""
    if run.status not in (0, 1, 255):
        return "status %d" % run.status
    if b"NoMemory" in run.error:
        return "it wants more memory"
    if run.status == 255 and not run.fault():
        return "no line of a fault, or more than one"
    if run.status != 255 and run.error:
        return "a line on standard error without a fault"
    if run.output and not run.output.endswith(b"\n"):
        return "a line is not whole"
    return wrong_lines(run)


def wrong_lines(run):
    lines = run.output.split(b"\n")[:-1]
    if any(byte < 0x20 or byte == 0x7F for line in lines for byte in line):
        return "a control character is printed"
    mode = run.words[0]
    if mode == "-k" and lines:
        return "-k prints"
    form = {"-l": KEY, "-L": CERT, "-Q": re.compile(ANSWER.pattern + b"|" + CONTENTS.pattern)}.get(
        mode
    )
    for line in lines:
        if form and not form.fullmatch(line):
            return "a line of no known form: %r" % line
    if mode == "-Q" and run.status != 255:
        revoked = any(line.endswith(b": REVOKED") for line in lines if not CONTENTS.fullmatch(line))
        if run.status != int(revoked):
            return "the status is not that of the answers"
    return None


def answers(run):
    return [
        line
        for line in run.output.split(b"\n")
        if ANSWER.fullmatch(line) and not CONTENTS.fullmatch(line)
    ]


def revoked(run):
    return {line for line in answers(run) if line.endswith(b": REVOKED")}


def listed(run):
    """The keys of a listing, without the blanks at the ends of comments."""
    found = [KEY.fullmatch(line.rstrip(b"\r")) for line in run.output.split(b"\n")]
    return [(it.group(1), it.group(2).strip(b" \t\r"), it.group(3)) for it in found if it]


def without_comments(run):
    return [(key, sort) for key, _, sort in listed(run)]


def has_escapes(run):
    return b"\\x" in run.output or any(byte > 0x7E for byte in run.output)


def lost_comment(case, theirs):
    """Whether OpenSSH listed by the public part, since the private one is no key to it."""
    return case.kind == "private_listed" and b" no comment (" in theirs.output


def described(run):
    """The lines of a certificate that both programs print alike."""
    wanted = (b"Type:", b"Public key:", b"Signing CA:", b"Serial:", b"Key ID:")
    return [line.strip() for line in run.output.split(b"\n") if line.strip().startswith(wanted)]


def refused(case, fault):
    """A refusal of what OpenSSH's program takes needs a reason."""
    known = DIFFERENCES[case.kind]
    if any(re.search(it, fault) for it in known):
        return None
    return "refused as '%s', and OpenSSH takes it" % fault


def is_taken(run):
    """Whether OpenSSH took the files; -L may print nothing of a file that it cannot read."""
    return run.status in (0, 1) and (run.words[0] != "-L" or bool(run.output))


def compared(case, ours, theirs):
    """Finds differences from OpenSSH's program, which took the same files."""
    if case.kind == "lists_asked":
        if not is_taken(theirs[0]):
            return None
        if ours[0].status == 255:
            return refused(case, ours[0].fault())
        return None if answers(ours[0]) == answers(theirs[0]) else "other answers than OpenSSH's"
    if case.kind == "lists_made":
        return compared_lists(case, ours, theirs)
    if not case.is_single or not is_taken(theirs[0]):
        return None
    if ours[0].status == 255:
        return refused(case, ours[0].fault())
    if case.kind == "keys_asked":
        same = ours[0].status == theirs[0].status
    elif case.kind == "certs_listed":
        same = described(ours[0]) == described(theirs[0])
    elif has_escapes(ours[0]) or lost_comment(case, theirs[0]):
        # Both print other bytes than letters in a way of their own.
        same = without_comments(ours[0]) == without_comments(theirs[0])
    else:
        same = listed(ours[0]) == listed(theirs[0])
    return None if same else "other answers than OpenSSH's"


def compared_lists(case, ours, theirs):
    # OpenSSH's program reads a line up to a zero byte, and refuses a list with one in a key ID.
    if b"\0" in case.files["spec"]:
        return None
    if ours[0].status == 0 and theirs[0].status == 0:
        if theirs[1].status not in (0, 1):
            return "OpenSSH refuses the list that was made"
        if answers(theirs[1]) != answers(ours[1]):
            return "OpenSSH answers otherwise about the list that was made"
    if theirs[0].status != 0:
        return None
    if ours[0].status == 255:
        return refused(case, ours[0].fault())
    if RETURN_AFTER_ID.search(case.files["spec"]):
        same = revoked(theirs[2]) <= revoked(theirs[1])
    else:
        same = answers(theirs[1]) == answers(theirs[2])
    return None if same else "the list names others than OpenSSH's"


def wrong(case, ours, theirs):
    for run in ours[:1] if case.kind == "lists_made" and ours[0].status == 255 else ours:
        what = wrong_form(run)
        if what:
            return what
    return compared(case, ours, theirs) if theirs else None
