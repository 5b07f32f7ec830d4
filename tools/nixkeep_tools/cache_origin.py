"""Requests that other web pages make with the browser of a user."""
import ipaddress

from aiohttp import web

from .cache_http import READ

# Fetch metadata: by the store's own page, or by the user who typed an address.
OWN = ("same-origin", "none")


def is_of_other_site(request: web.Request) -> bool:
    """Whether a request that changes something comes from a page of another site. A browser says where it comes from
    by `Origin` and `Sec-Fetch-Site`; other clients send neither."""
    if request.method in READ:
        return False
    sites, origins = request.headers.getall("sec-fetch-site", []), request.headers.getall("origin", [])
    hosts = [origin.partition("://")[2] for origin in origins]
    return any(site not in OWN for site in sites) or any(
        host != request.headers.get("host") or not host for host in hosts)


def is_rebound(request: web.Request) -> bool:
    """Whether a request to this machine's loopback names another host: a page whose name was made to lead here."""
    host = request.headers.get("host", "localhost")
    name = host.rpartition(":")[0] if host.rpartition(":")[2].isdigit() and not host.endswith("]") else host
    try:
        return not ipaddress.ip_address(name.strip("[]")).is_loopback
    except ValueError:
        return name != "localhost" and not name.endswith(".localhost")
