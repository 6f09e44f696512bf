"""The runs whose calls fail in turn: of each mode, over files with one of everything."""


class Run:
    def __init__(self, name, words, given="/dev/null", old=None, is_patient=True, environment=None):
        self.name = name
        self.words = words.split()
        # The file that is standard input.
        self.given = given
        # The file that was there under the name of the list that -k makes.
        self.old = old
        # Whether a thousand interruptions are ignored: not where the standard library prints.
        self.is_patient = is_patient
        # The variables of the environment, besides those for the preloaded library.
        self.environment = environment or {}

    def makes(self):
        return self.words[0] == "-k"

    def audits(self):
        return self.words[0] in ("audit", "logins")


# A number that is so long that its text needs an allocation.
EPOCH = {"SOURCE_DATE_EPOCH": "00000000001234567890"}
KEYS = "g.pub other.pub cert.pub certs.pub keys.pub private private-rsa"
RUNS = [
    Run("-l of a key", "-l -f g.pub"),
    Run("-l of keys of all kinds", "-l -f keys.pub"),
    Run("-l with MD5", "-l -E md5 -f keys.pub"),
    Run("-l of standard input", "-l -f -", given="keys.pub"),
    Run("-l of a private key", "-l -f private"),
    Run("-l of a private key of RSA", "-l -f private-rsa"),
    Run("-l of 70 KiB of keys", "-l -f many.pub"),
    Run("-l up to a line that is wrong", "-l -f wrong.pub"),
    Run("-L of certificates", "-L -f certs.pub"),
    Run("-L with MD5", "-L -E md5 -f certs.pub"),
    Run("-L of a file without one", "-L -f g.pub"),
    Run("-Q of one key", "-Q -f key.krl g.pub"),
    Run("-Q of all sections", "-Q -f whole.krl " + KEYS),
    Run("-Q of no file", "-Q -f whole.krl"),
    Run("-Q of 1,024 intervals", "-Q -f scattered.krl cert.pub"),
    Run("-Q of 1,024 intervals that one joins", "-Q -f joined.krl cert.pub"),
    Run("-Q of 70 KiB of keys", "-Q -f whole.krl many.pub"),
    Run("-Q up to a missing file", "-Q -f key.krl g.pub none other.pub"),
    Run("-Q of a list that is cut", "-Q -f cut.krl g.pub"),
    Run("-Q of an unknown section", "-Q -f unknown.krl g.pub"),
    Run("-Q -l of all sections", "-Q -l -f whole.krl " + KEYS),
    Run("-Q -l of 1,024 intervals", "-Q -l -f scattered.krl"),
    Run("-k of all directives", "-k -f made.krl -s ca.pub spec"),
    Run("-k of all directives over a list", "-k -f made.krl -s ca.pub spec", old="key.krl"),
    Run("-k of several files", "-k -f made.krl -s none -z 5 more.spec - keys.pub", given="spec"),
    Run("-k of 1,024 intervals", "-k -f made.krl -s none scattered.spec", old="key.krl"),
    Run("-k of 70 KiB", "-k -f made.krl -s none long.spec", old="key.krl"),
    Run("-k of nothing", "-k -f made.krl empty", old="key.krl"),
    Run("-k at a time of the environment", "-k -f made.krl empty", environment=EPOCH),
    Run("-k -u at one", "-k -u -f made.krl -s none more.spec", old="key.krl", environment=EPOCH),
    Run("-k of a line that is wrong", "-k -f made.krl -s none more.spec wrong.spec", old="key.krl"),
    Run("-k -u of all sections", "-k -u -f made.krl -s ca.pub spec more.spec", old="whole.krl"),
    Run("-k -u by a certificate", "-k -u -f made.krl -s cert.pub more.spec", old="whole.krl"),
    Run("-k -u by a private key", "-k -u -f made.krl -s private more.spec", old="whole.krl"),
    Run("-k -u of a list that is cut", "-k -u -f made.krl -s none more.spec", old="cut.krl"),
    Run("-k -u of the highest version", "-k -u -f made.krl -s none more.spec", old="highest.krl"),
    Run("the help", "-h"),
    Run("an unknown option", "-Y"),
    Run("options that do not go together", "-l -u -f g.pub", is_patient=False),
]

# The same of krl. The folder home has files of each sort, and what is read and reported in it.
KRL_RUNS = [
    Run("an audit of a file", "audit -f key.krl keys.pub", is_patient=False),
    Run("an audit of all sections", "audit -a -f whole.krl " + KEYS, is_patient=False),
    Run("an audit of a directory", "audit -a -f key.krl home", is_patient=False),
    Run("an audit as objects", "audit --json -a -f whole.krl certs.pub", is_patient=False),
    Run(
        "an audit by names",
        "audit -f key.krl --files0-from - g.pub",
        given="names",
        is_patient=False,
    ),
    Run("an audit by a list that is cut", "audit -f cut.krl g.pub", is_patient=False),
    Run(
        "an audit by the list of a text",
        "audit -a -t whole.txt " + KEYS,
        is_patient=False,
        environment=EPOCH,
    ),
    Run(
        "an audit that texts explain, as objects",
        "audit --json -f whole.krl -t whole.txt -t more.txt certs.pub keys.pub",
        is_patient=False,
        environment=EPOCH,
    ),
    Run(
        "an audit by a text that is wrong",
        "audit -t whole.txt -t wrong.txt g.pub",
        is_patient=False,
        environment=EPOCH,
    ),
    Run("a search of logins", "logins -a -f logins.krl auth.log", is_patient=False),
    Run(
        "a search of logins that texts explain, as objects",
        "logins --json -f logins.krl -t whole.txt -t more.txt auth.log",
        is_patient=False,
        environment=EPOCH,
    ),
]
