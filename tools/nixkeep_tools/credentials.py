"""Credentials for a proxy: from a file that only its owner may read, from the environment, or from ~/.netrc.

A file and the variable NIXKEEP_CREDENTIALS hold one line: `USER:PASSWORD` for Basic authentication, or `Bearer TOKEN`.
Credentials are sent over https, to this machine and over a Unix socket. They never cross a network in the clear.
"""
# (os.path, here and in what else nixkeep-remote loads: pathlib takes longer to load than a request)
import os
import stat

from .failures import Stop, reason
from .http_place import Place

VARIABLE, NETRC = "NIXKEEP_CREDENTIALS", "~/.netrc"


class Credentials:
    """Credentials for a proxy: the value of the header field `authorization`, the name of the user or None, and the
    file or the variable that they come from."""

    def __init__(self, field: str, user: str | None, source: str):
        self.field, self.user, self.source = field, user, source


def basic(user, password, source):
    import binascii

    encoded = binascii.b2a_base64(f"{user}:{password}".encode(), newline=False)
    return Credentials(f"Basic {encoded.decode()}", user, source)


def read_line(text, source):
    """The credentials of a line `USER:PASSWORD` or `Bearer TOKEN`."""
    line = text.strip()
    user, colon, password = line.partition(":")
    if line.startswith("Bearer ") and line.isascii() and line.isprintable():
        return Credentials(line, None, source)
    if not colon or not user or not line.isprintable():
        raise Stop(f"failed: credentials: {source}: a line USER:PASSWORD or Bearer TOKEN is meant")
    return basic(user, password, source)


def of_file(path):
    """The credentials in a file, which is refused if anybody but its owner may read it."""
    try:
        with open(path, encoding="utf-8") as file:
            seen = os.fstat(file.fileno())
            if seen.st_uid not in (os.geteuid(), 0):
                raise Stop(f"failed: credentials: {path}: it belongs to another user")
            if stat.S_IMODE(seen.st_mode) & 0o077:
                raise Stop(f"failed: credentials: {path}: others may read it; run chmod 600 on it")
            return read_line(file.read(), path)
    except (OSError, UnicodeError) as error:
        raise Stop(f"failed: credentials: {path}: {reason(error)}") from None


def of_netrc(host):
    """The credentials that ~/.netrc has for a host, or None."""
    import netrc

    path = os.path.expanduser(NETRC)
    try:
        # netrc itself refuses a file that others may read, if it isn't told the file's name.
        login = netrc.netrc().authenticators(host)
    except (OSError, UnicodeError, netrc.NetrcParseError) as error:
        raise Stop(f"failed: credentials: {path}: {reason(error)}") from None
    return basic(login[0], login[2], path) if login and login[0] and login[2] else None


def login_name():
    """The login name, or None. (As `getpass` finds it, which takes longer to load than a request.)"""
    import pwd

    named = (os.environ.get(variable) for variable in ("LOGNAME", "USER", "LNAME", "USERNAME"))
    try:
        return next(filter(None, named), None) or pwd.getpwuid(os.getuid()).pw_name
    except KeyError:
        return None


def user_of(credentials: Credentials | None) -> str:
    """The name of the user of some credentials, else the login name."""
    name = credentials and credentials.user or login_name()
    if not name:
        raise Stop("failed: user: nobody knows your name; --me USER or NIXKEEP_USER says it")
    return name


def of_place(place: Place, path: str | None = None, is_first: bool = True) -> Credentials | None:
    """The credentials for a place, or None. `path` names a file of credentials. That file and the variable are for the
    first place of a command: for another one ~/.netrc has them."""
    path, variable = (path, os.environ.get(VARIABLE)) if is_first else (None, None)
    if not path and not variable:
        is_there = place.host and os.path.exists(os.path.expanduser(NETRC))
        return of_netrc(place.host) if is_there and place.is_private else None
    if not place.is_private:
        raise Stop(f"failed: credentials: {place.url}: they would be sent in the clear; use https")
    return of_file(path) if path else read_line(variable, VARIABLE)
