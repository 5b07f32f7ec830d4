"""What `try` tests of fail2ban, as Debian has it and with the three files of `fail2ban`: it finds the logins that
failed, and addresses that guess passwords get no connection, nor do others of their network by IPv6."""
import os
import re
import shutil
import subprocess
from pathlib import Path
from typing import Any

import parts
from parts import check, same

DEBIANS = "/etc/fail2ban"
# (of the firewall of this machine nothing is changed)
ALONE = ["unshare", "--net", *([] if os.geteuid() == 0 else ["--map-root-user"])]
# Starts fail2ban, writes lines to the log, waits for the bans that they cause, and prints the rules of the firewall.
LINES = """set -- -c conf -s "$PWD/socket"
fail2ban-server "$@" -p "$PWD/pid" --logtarget "$PWD/said" --timeout 300 -b start || exit 1
sed "s/@now@/$(date -u +%Y-%m-%dT%H:%M:%S+00:00)/" lines >>nixkeep.log
for _ in $(seq 1000); do
  rules=$(nft list ruleset)
  case $rules in *10.9.8.7*fd09:0:0:7::*) break ;; esac
  sleep 0.3
done
echo "$rules"
ip link set lo up && python3 -c "$CONNECTING"
fail2ban-client "$@" stop >/dev/null"""
# Connects to a server from three addresses, the first two of a network that is blocked, and prints which are answered.
CONNECTING = """import socket, subprocess
with socket.create_server(("::1", 443), family=socket.AF_INET6):
    for address in ("fd09:0:0:7::1", "fd09:0:0:7:1:2:3:4", "fd09:0:0:8::1"):
        subprocess.run(["ip", "addr", "add", address + "/128", "dev", "lo", "nodad"], check=True)
        with socket.socket(socket.AF_INET6) as client:
            client.bind((address, 0))
            print("from", address, client.connect_ex(("::1", 443)) == 0)"""


def counted(file: str, count: int) -> None:
    """fail2ban finds exactly the logins that failed."""
    if parts.skipped("fail2ban's filter", "fail2ban-regex"):
        return
    words = ["fail2ban-regex", "-v", file, f"{parts.HERE}/fail2ban/filter.conf"]
    ran = subprocess.run(words, capture_output=True, text=True)
    total = re.search(r"^Failregex: (\d+) total", ran.stdout, re.M)
    check(f"fail2ban counts the {count} logins that failed", total and int(total[1]) == count, ran.stdout + ran.stderr)


def banned(site: Any, line: str) -> None:
    """Addresses that guess passwords get no connection, and others do. `line` is one of nginx's log, of a login that
    failed."""
    if parts.skipped("fail2ban's bans", "fail2ban-server", "nft", "python3-systemd"):
        return
    if not Path(DEBIANS).is_dir() or subprocess.run([*ALONE, "true"], capture_output=True).returncode:
        return parts.skip("fail2ban's bans: there is no fail2ban of Debian's, or no network namespace")
    os.makedirs(folder := f"{site.folder}/banned")
    shutil.copytree(DEBIANS, f"{folder}/conf")
    for kind in ("filter", "action"):
        shutil.copy(f"{parts.HERE}/fail2ban/{kind}.conf", f"{folder}/conf/{kind}.d/nixkeep.conf")
    jail = Path(f"{parts.HERE}/fail2ban/jail.conf").read_text()
    Path(f"{folder}/conf/jail.d/nixkeep.conf").write_text(jail.replace("/var/log/nginx", folder))
    Path(f"{folder}/conf/fail2ban.local").write_text("[Definition]\ndbfile = None\n")
    Path(f"{folder}/nixkeep.log").touch()
    line = re.sub(r'"time":"[^"]*"', '"time":"@now@"', line)
    came = [("10.9.8.7", 10), ("fd09:0:0:7::", 10), ("10.9.8.6", 9), ("fd09:0:0:8::", 9)]
    text = "".join(re.sub(r'"network":"[^"]*"', f'"network":"{network}"', line) * count for network, count in came)
    Path(f"{folder}/lines").write_text(text)
    ran = subprocess.run([*ALONE, "sh", "-c", LINES], cwd=folder, capture_output=True, text=True,
                         env={**os.environ, "CONNECTING": CONNECTING})
    log = Path(f"{folder}/said").read_text() if Path(f"{folder}/said").exists() else ""
    refused = re.findall(r"tcp dport 443 ip6? saddr (?:& ffff:ffff:ffff:ffff:: == )?@(\S+) reject", ran.stdout)
    check("two addresses that guess passwords get no connection", len(refused) == 2 and
          all(network in ran.stdout for network, count in came if count == 10), ran.stdout + ran.stderr + log)
    same("and no other address is blocked", re.findall(r"10\.9\.8\.6|fd09:0:0:8::[ ,]", ran.stdout), [])
    if not parts.skipped("connections from a network that is blocked", "ip"):
        same("by IPv6 it is a network that gets no connection", re.findall(r"^from (\S+) (\S+)$", ran.stdout, re.M),
             [("fd09:0:0:7::1", "False"), ("fd09:0:0:7:1:2:3:4", "False"), ("fd09:0:0:8::1", "True")])
