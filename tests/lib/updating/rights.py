"""The owner, the group and the mode of a list that other users may write too. They never give more
than those of the old list."""

import os
import stat
import struct

from replacing.folder import LIST, OLD
from updating.steps import UPDATE, Steps, same, content, shown

OWNER, MEMBER, STRANGER, GROUP = 65531, 65530, 65529, 65528
ACCESS, DEFAULT = "system.posix_acl_access", "system.posix_acl_default"


class Update(Steps):
    """An update by a user of a group, who is in other groups too."""

    def __init__(self, place, user, groups=()):
        super().__init__(place, UPDATE, user)
        self.groups = list(groups)

    def as_user(self):
        return {"user": self.user, "group": self.user, "extra_groups": self.groups}


def begin(place, mode, folder, owner=OWNER, group=GROUP):
    place.enter()
    os.chown(LIST, owner, group)
    os.chmod(LIST, mode)
    os.chown(".", *folder)
    os.chmod(".", 0o775)


def narrowed(mode):
    """The mode of a list that another group has: for it and for all others only what both had."""
    both = mode >> 3 & mode & 0o007
    return mode & ~0o2077 | both << 3 | both


def found():
    it = os.stat(LIST)
    return it.st_uid, it.st_gid, stat.S_IMODE(it.st_mode)


def kept(place, name, update, wanted, made):
    done = update.run()
    wrong = place.differs(done, 0, b"") + place.stands(made)
    if found() != wanted:
        wrong.append("it has %d:%d %o" % found())
    place.judge(name, wrong)


def groups(place, made):
    """The group is kept by its members and by root, and is worth as much as all others else."""
    for mode in (0o660, 0o664, 0o640, 0o644, 0o604, 0o606, 0o670, 0o2660, 0o666, 0o657, 0o646):
        begin(place, mode, (OWNER, OWNER))
        wanted = (OWNER, OWNER, narrowed(mode))
        kept(place, "an owner out of the group, mode %o" % mode, Update(place, OWNER), wanted, made)
        begin(place, mode, (OWNER, OWNER))
        wanted = (OWNER, GROUP, mode)
        update = Update(place, OWNER, [GROUP])
        kept(place, "an owner in the group, mode %o" % mode, update, wanted, made)
        begin(place, mode, (OWNER, OWNER))
        kept(place, "root, mode %o" % mode, Update(place, 0), wanted, made)
        if not mode & 0o020:
            continue
        # A member of the group that has the folder cannot give the list to its owner.
        begin(place, mode, (OWNER, GROUP))
        wanted = (MEMBER, GROUP, mode)
        update = Update(place, MEMBER, [GROUP])
        kept(place, "a member of the group, mode %o" % mode, update, wanted, made)


def owners(place, made):
    """A user who becomes the owner of another user's list does not keep the set-user-ID or
    set-group-ID bit."""
    for mode, wanted in ((0o4666, 0o666), (0o6666, 0o666), (0o1666, 0o1666)):
        begin(place, mode, (STRANGER, STRANGER))
        update = Update(place, STRANGER)
        kept(place, "another owner, mode %o" % mode, update, (STRANGER, STRANGER, wanted), made)


def at_each_call(place, made):
    """The new file never gives more rights than the list, nor its rights to another group."""
    for user, groups_of in ((OWNER, []), (MEMBER, [GROUP]), (0, [])):
        for mode in (0o660, 0o664):
            folder = (OWNER, OWNER) if user == OWNER else (OWNER, GROUP)
            begin(place, mode, folder)
            update = Update(place, user, groups_of)
            calls, _ = update.calls()
            wrong, seen = [], set()
            for number, call in enumerate(calls, 1):
                begin(place, mode, folder)

                def look():
                    for it in map(os.stat, (it for it in os.listdir() if it.endswith(".new"))):
                        bits = stat.S_IMODE(it.st_mode)
                        seen.add(bits)
                        is_wide = it.st_gid != GROUP and bits & 0o077 & ~narrowed(mode)
                        if bits & ~mode or is_wide:
                            wrong.append("before call %d, %s: %o" % (number, call, bits))

                done = update.stopped(number, look)
                if done.returncode or not same(content(), made):
                    wrong.append("before call %d, %s: %s" % (number, call, shown(done)))
            if not seen:
                wrong.append("no new file was seen")
            name = "the new file of a list of mode %o at each of %d calls, by %d"
            place.judge(name % (mode, len(calls), user), wrong)


def closed_modes(place, made):
    """A list that not even its owner may write is made anew by root, and never gives him more."""
    place.enter()
    os.chmod(LIST, 0o444)
    steps = Steps(place)
    calls, _ = steps.seen()
    modes = [it.more for it in calls if it.name == "create" and it.path.endswith(".new")]
    wrong = [] if modes == ["400"] else ["it is made with the modes %s" % modes]
    if found()[2] != 0o444:
        wrong.append("its mode is %o" % found()[2])
    place.judge("a list that is only read", wrong)


def entries(mode, rights, group):
    """The access control list of a mode, as the system keeps it, with rights for one user more and
    for the group. The middle bits of the mode bound both."""
    user, most, others = mode >> 6 & 7, mode >> 3 & 7, mode & 7
    none = 0xFFFFFFFF
    rows = (
        (1, user, none),
        (2, rights, STRANGER),
        (4, group, none),
        (0x10, most, none),
        (0x20, others, none),
    )
    return struct.pack("<I", 2) + b"".join(struct.pack("<HHI", *it) for it in rows)


def attributes(place, made):
    """The new list has no extended attribute and no access control list of the old one, which its
    other hard links keep. It gets the default one of the folder, bounded by the bits of its group.
    """
    begin(place, 0o640, (0, 0))
    os.link(LIST, "../other")
    try:
        os.setxattr(LIST, ACCESS, entries(0o640, 4, 4))
    except OSError as error:
        print("# no access control list can be set here: %s" % error)
        os.remove("../other")
        return
    os.setxattr(LIST, "user.note", b"a note")
    kept(place, "a list with attributes", Update(place, 0), (OWNER, GROUP, 0o640), made)
    wrong = ["it has %s" % os.listxattr(LIST)] if os.listxattr(LIST) else []
    if sorted(os.listxattr("../other")) != [ACCESS, "user.note"]:
        wrong.append("its other link has %s" % os.listxattr("../other"))
    with open("../other", "rb") as other:
        wrong += [] if other.read() == OLD else ["its other link is changed"]
    place.judge("the attributes of a list", wrong)
    os.remove("../other")
    begin(place, 0o640, (0, 0))
    os.setxattr(".", DEFAULT, entries(0o775, 6, 5))
    kept(place, "a folder with a default list", Update(place, 0), (OWNER, GROUP, 0o640), made)
    got = os.getxattr(LIST, ACCESS)
    place.judge("the default list", [] if got == entries(0o640, 6, 5) else ["it is %s" % got.hex()])


def all_of_them(place):
    if os.geteuid():
        print("# only root takes the place of other users, so no rights of theirs are tried")
        return
    made = place.made()
    groups(place, made)
    owners(place, made)
    at_each_call(place, made)
    closed_modes(place, made)
    attributes(place, made)
