"""nginx on a port of this machine."""
import os
import re
import tempfile
from pathlib import Path

import parts
from nixkeep_dev.bench.load import SERVERS, on
from nixkeep_dev.bench.serving import Serving
from nixkeep_dev.testing import packages
from nixkeep_dev.testing.http_messages import free_port

CONFIG = """
daemon off; pid pid; worker_processes {workers}; worker_rlimit_nofile 4096; {user}
events {{ worker_connections 1024; }}
http {{
    access_log off; tcp_nopush on; keepalive_requests 10000000; client_body_temp_path body; proxy_temp_path proxy;
    fastcgi_temp_path fastcgi; uwsgi_temp_path uwsgi; scgi_temp_path scgi;
    {http}
    server {{ listen 127.0.0.1:{port}; location / {{ {location} }} }}
}}
"""
# The connection of the proxy to a server stays open.
KEPT = 'proxy_http_version 1.1; proxy_set_header connection "";'


def nginx(folder: str, location: str, http: str = "", workers: int = 1, processor: int | None = None) -> Serving:
    """nginx with these directives for each request, and these for all, its files in a new folder of that one."""
    port, room, user = free_port(), tempfile.mkdtemp(dir=folder), "user root;" if os.geteuid() == 0 else ""
    text = CONFIG.format(workers=workers, user=user, http=http, port=port, location=location)
    Path(f"{room}/nginx.conf").write_text(text)
    words = [packages.place_of("nginx"), "-p", room, "-e", "errors", "-c", "nginx.conf"]
    return Serving(port, *(words if processor is None else on(processor, *words)))


# Where the team's nginx.conf has archives and records, what it keeps of them, and for how long.
KEEPS = re.compile(r'(?s)    location ~ "\^/\(nar.*?\n    }\n')
WHAT = re.compile(r"proxy_cache +nixkeep;(?= *\n *proxy_pass +http://\$team;)")
LONG = "proxy_ignore_headers         vary;"
# It serves files in place of these.
FILES = '    location ~ "^/(nar/[0-9a-z]{{52}}/|[0-9a-z]{{32}}\\.narinfo$)" {{ set $may_connect -; root {folder}; }}\n'


def of_team(folder: str, places: list[str], kept: str | None = None, files: str | None = None) -> Serving:
    """The nginx of examples/team by a new folder in that one, as the proxy of the team red, whose nixkeep-cache are at
    these places. There is no TLS and no password, and its limits are high, since all clients have one address. What it
    keeps is good for the time `kept`, or it keeps no archive and no record; or it has these in the folder `files`."""
    port, room = free_port(), tempfile.mkdtemp(dir=folder)
    named = {"server unix:/run/nixkeep/red.socket;": " ".join(f"server unix:{place};" for place in places),
             "/var/log/nginx": f"{room}/log", "/var/lib/nginx": f"{room}/nginx",
             "default       nixkeep;": "default off;"}

    def changed(text):
        text = re.sub(r"(?m)^ *ssl_.*\n", "", text).replace(f"127.0.0.1:{port} ssl", f"127.0.0.1:{port}")
        text = re.sub(r"\brate=\d+r/[sm]", "rate=1000000r/s", text)
        text = re.sub(r"(limit_conn +nixkeep_clients) +\d+", r"\1 1000", text)
        text = text.replace(LONG, f"{LONG[:-1]} cache-control;\n    proxy_cache_valid 200 {kept or '1m'};")
        text = KEEPS.sub(lambda _: FILES.format(folder=files), text) if files else text
        return text if kept else WHAT.sub("proxy_cache off;", text)

    how = "worker_processes 2; worker_rlimit_nofile 4096; events { worker_connections 1024; }"
    os.chmod(folder, 0o755)
    file = parts.nginx_conf(room, "nginx.conf", named, port, how, changed)
    return Serving(port, *on(SERVERS, packages.place_of("nginx"), "-p", room, "-e", "errors", "-c", file))
