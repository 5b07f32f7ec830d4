"""A team's deployment with a program that knows the users in place of passwords of nginx's own: a stand-in for that
program, which notes what it is asked."""
import base64
import contextlib
from collections.abc import Iterable, Iterator
from typing import Any

from tests.tools.servers import answering
from tests.tools.team_try import TEAM

BOTH = ("nginx.conf", "auth-request.conf")
# Where nginx asks the program. The stand-in has a port.
SOCKET = "unix:/run/login/socket"
# Who the stand-in knows besides the users of team red, and the user that it says of each login.
OTHERS = {"foreign:foreign-secret": "ann@evil.example", "domain:domain-secret": "ann@example.org",
          "odd:odd-secret": "a b", "nameless:nameless-secret": None}
KNOWN = {f"{user}:{user}-secret": user for user in TEAM.PASSWORDS["red"]} | OTHERS


def program(requests):
    """What oauth2-proxy answers: to nginx 202 and the user, or 401; and on the page where a browser signs in."""

    def answer(method, target, fields):
        requests.append((method, target, {key.lower(): value for key, value in fields.items()}))
        if target == "/oauth2/callback":
            return 302, "text/plain", b"", ("location", "/"), ("set-cookie", f"session={'x' * 8000}")
        if target != "/oauth2/auth":
            return 401 if method == "POST" else 200, "text/plain", b"a page\n"
        words = base64.b64decode(fields.get("authorization", "").partition(" ")[2] or b"").decode("latin-1")
        user = KNOWN.get(words)
        return 202 if words in KNOWN else 401, "text/plain", b"", *[
        ("x-auth-request-user", name) for name in [user] if name]

    return answer


@contextlib.contextmanager
def deployed(nixkeep: str, folder: str, conf: str, changes: Iterable[tuple[str, str]] = ()) -> Iterator[Any]:
    """The deployment with one of nginx's files. Nothing of it runs yet. `by_program` says whether a program knows the
    users, and `requests` has what the stand-in for it was asked."""
    requests = []
    with answering(program(requests)) as url:
        site = TEAM.Deployment(nixkeep, folder, conf, [(SOCKET, url.partition("//")[2]), *changes])
        site.by_program, site.requests = conf == BOTH[1], requests
        yield site
