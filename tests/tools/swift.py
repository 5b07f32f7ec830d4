"""OpenStack Swift on one machine, in a folder of its own, with the requests of S3 (s3api): Debian's packages
swift-proxy, swift-account, swift-container and swift-object."""
import contextlib
import getpass
import os
import subprocess
from collections.abc import Iterator
from concurrent.futures import ThreadPoolExecutor
from pathlib import Path
from typing import Any

import parts

ACCESS, SECRET, BUCKET = "test:tester", "testing", "archives"
TOOLS = [f"swift-{kind}-server" for kind in ("proxy", "account", "container", "object")]
FILTERS = ("catch_errors gatekeeper healthcheck memcache listing_formats bulk s3api tempauth copy slo dlo symlink "
           "versioned_writes")
RINGS = """
import sys
from swift.common.ring import RingBuilder
for kind, port in (word.split("=") for word in sys.argv[2:]):
    made, port = RingBuilder(4, 1, 0), int(port)
    made.add_dev({"id": 0, "region": 1, "zone": 1, "weight": 1, "device": "one", "meta": "", "ip": "127.0.0.1",
                  "port": port, "replication_ip": "127.0.0.1", "replication_port": port})
    made.rebalance()
    made.get_ring().save(f"{sys.argv[1]}/{kind}.ring.gz")
"""
ENVIRONMENT = {"AWS_ACCESS_KEY_ID": ACCESS, "AWS_SECRET_ACCESS_KEY": SECRET, "AWS_DEFAULT_REGION": "us-east-1"}


def settings(folder, port, workers=0):
    return (f"[DEFAULT]\nbind_ip = 127.0.0.1\nbind_port = {port}\nuser = {getpass.getuser()}\nworkers = {workers}\n"
            f"swift_dir = {folder}\ndevices = {folder}/devices\nmount_check = false\nlog_level = ERROR\n"
            # (a machine that does much else is no server that is away)
            f"log_udp_host =\nconn_timeout = 30\nnode_timeout = 120\nclient_timeout = 300\n")


class Swift:
    """The four servers. `url` is where a client of S3 asks."""

    def __init__(self, folder: str):
        self.folder, self.ports = folder, {tool: parts.free_port() for tool in TOOLS}
        os.makedirs(f"{folder}/devices/one")
        Path(f"{folder}/swift.conf").write_text(
            "[swift-hash]\nswift_hash_path_suffix = a\nswift_hash_path_prefix = b\n"
            "[storage-policy:0]\nname = one\ndefault = yes\n")
        for kind in ("account", "container", "object"):
            Path(f"{folder}/{kind}.conf").write_text(
                f"{settings(folder, self.ports[f'swift-{kind}-server'])}[pipeline:main]\npipeline = {kind}-server\n"
                f"[app:{kind}-server]\nuse = egg:swift#{kind}\n")
        self.rings()
        Path(f"{folder}/proxy.conf").write_text(self.proxy())
        self.url = f"http://127.0.0.1:{self.ports['swift-proxy-server']}"
        words = {tool: [parts.place_of(tool), f"{folder}/{tool.split('-')[1]}.conf", "-v"] for tool in TOOLS}
        self.running = [parts.Part(tool, words[tool], self.ports[tool], f"{folder}/{tool}.log") for tool in TOOLS]

    def rings(self):
        """A ring for each kind of server: one device. (swift-ring-builder waits for names of hosts.)"""
        words = [f"{kind}={self.ports[f'swift-{kind}-server']}" for kind in ("account", "container", "object")]
        subprocess.run(["/usr/bin/python3", "-c", RINGS, self.folder, *words], check=True)

    def proxy(self):
        filters = "".join(f"[filter:{word}]\nuse = egg:swift#{word}\n{self.more(word)}" for word in FILTERS.split())
        port = self.ports["swift-proxy-server"]
        return (f"{settings(self.folder, port)}[pipeline:main]\npipeline = {FILTERS} proxy-server\n"
                f"[app:proxy-server]\nuse = egg:swift#proxy\naccount_autocreate = true\n{filters}")

    def more(self, name: str) -> str:
        # (tempauth wants a client of memcached, which needs no server)
        return {"tempauth": f"user_test_tester = {SECRET} .admin\n", "s3api": "s3_acl = false\n",
                "memcache": f"memcache_servers = 127.0.0.1:{parts.free_port()}\n"}.get(name, "")

    def client(self) -> Any:
        import boto3
        import botocore.config

        config = botocore.config.Config(s3={"addressing_style": "path"})
        return boto3.client("s3", endpoint_url=self.url, config=config)

    @contextlib.contextmanager
    def started(self) -> Iterator[None]:
        """All servers, with a bucket."""
        os.environ |= ENVIRONMENT
        with contextlib.ExitStack() as running:
            with ThreadPoolExecutor(4) as pool:
                [*pool.map(lambda part: running.enter_context(part), self.running)]
            self.client().create_bucket(Bucket=BUCKET)
            yield self
