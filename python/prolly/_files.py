"""Files that are mapped, and a file that takes the place of another one."""

import errno
import fcntl
import os
import secrets
import stat
from contextlib import suppress

CHUNK_FILE = b"PRLY"
"""What a chunk file begins with."""

NEW_MODE = 0o666
"""The mode of a new file, of which the system takes what the user's mask takes."""

OWN_MODE = 0o600
"""The mode beside a file that is there, until the new one takes its place: that may be for its owner alone."""

NAME_BYTES = 255
"""How long a name may be in most file systems."""

ACCESS_LIST = "system.posix_acl_access"
"""The attribute of a file in which Linux keeps its access list."""

NO_LIST = (errno.ENODATA, errno.ENOTSUP)
"""Why a file has no access list: it has none, or its file system has none."""


def hold(file):
    """Keeps the program from writing in the place of an open file, and answers how many bytes it has. The lock goes when the
    last number goes by which the file is open, that of a map among them."""
    status = os.fstat(file.fileno())
    if not stat.S_ISREG(status.st_mode):
        raise OSError(errno.EINVAL, "Only a regular file is mapped", file.name)
    try:
        fcntl.flock(file, fcntl.LOCK_SH | fcntl.LOCK_NB)
    except BlockingIOError as error:
        raise OSError(error.errno, "Another run writes the file", file.name) from error
    except OSError:
        pass  # The file system has no locks.
    return os.fstat(file.fileno()).st_size


class Place:
    """Where a new file is to stand. A symbolic link stays, and the file that it names is replaced."""

    def __init__(self, path, force):
        self.target, self.force = os.path.realpath(os.fsdecode(path)), force
        self.old()
        folder = os.path.dirname(self.target)
        if not os.access(folder, os.W_OK | os.X_OK):
            number = errno.EACCES if os.path.isdir(folder) else errno.ENOENT
            raise OSError(number, os.strerror(number), folder)

    def old(self):
        """What the system says of the file that is there, or None where none is. It has to be one that may be replaced."""
        try:
            if not stat.S_ISREG(os.stat(self.target).st_mode):
                raise OSError(errno.EINVAL, "Only a regular file is replaced", self.target)
            with open(self.target, "r+b") as file:
                start = file.read(len(CHUNK_FILE))
                if start not in (b"", CHUNK_FILE) and not self.force:
                    raise OSError(errno.EEXIST, "The file is not a chunk file, and stays without force=True", self.target)
                return os.fstat(file.fileno())
        except FileNotFoundError:
            return None

    def put(self, content):
        """Writes the file beside the place, and renames it once it is whole. Where that fails, what was there stays.

        The new file has the mode, the access list, the owner and the group of the old one, as far as the user may give them.
        """
        old = self.old()
        beside = name_beside(self.target)
        mode = NEW_MODE if old is None else OWN_MODE
        number = os.open(beside, os.O_WRONLY | os.O_CREAT | os.O_EXCL | os.O_CLOEXEC, mode)
        # From here on the name is that of this call's own file, which alone it may take away.
        try:
            with open(number, "wb") as file:
                file.write(content)
                if old is not None:
                    self.give_access(number, old)
            os.replace(beside, self.target)
        except BaseException:
            with suppress(OSError):
                os.unlink(beside)
            raise

    def give_access(self, number, old):
        """Gives the open file of this number the access of an old one. Where the group or the list can't be given, no group
        may use the file: beside a list the group's part of the mode says what the list gives at most."""
        mode = stat.S_IMODE(old.st_mode)
        is_given = has_group(number, old) and has_list(number, self.target)
        os.fchmod(number, mode if is_given else mode & ~stat.S_IRWXG)


def name_beside(target):
    """A name beside a path that no other call has, of this process or of another one that shares the folder. Of a name that
    is too long for that, the end is left out."""
    ending = f".{secrets.token_hex(8)}.tmp".encode()
    folder, name = os.path.split(os.fsencode(target))
    return os.fsdecode(os.path.join(folder, name[: NAME_BYTES - len(ending)] + ending))


def has_group(number, old):
    """Gives the file the owner and the group, or else the group alone: only the superuser may give a file away. Says whether
    it has the group."""
    now = os.fstat(number)
    if (now.st_uid, now.st_gid) == (old.st_uid, old.st_gid):
        return True
    for owner in (old.st_uid, -1):
        with suppress(OSError):
            os.fchown(number, owner, old.st_gid)
            return True
    return False


def has_list(number, target):
    """Gives the file the access list of the one at a path, or none where that has none. Says whether it is so."""
    wanted = None
    try:
        wanted = os.getxattr(target, ACCESS_LIST)
    except OSError as error:
        if error.errno not in NO_LIST:
            return False
    try:
        if wanted is None:
            os.removexattr(number, ACCESS_LIST)
        else:
            os.setxattr(number, ACCESS_LIST, wanted)
    except OSError as error:
        return wanted is None and error.errno in NO_LIST
    return True
