#!/usr/bin/env python3
"""Runs the commands of docs/DEPLOYING.md word for word in a fresh Debian, which systemd-nspawn boots, and looks at it.

    debootstrap --variant=minbase --include=systemd,systemd-sysv,dbus,ca-certificates bookworm ROOT
    tools/fresh_root.py ROOT RIPLEY

RIPLEY is the program: the step that proves it is left out. Packages are fetched before ROOT is booted, without a network.
What the commands and the looks put is printed; the status is 0 only where each command had status 0 and each look what is
due. ROOT is changed: take a copy.
"""

import pathlib
import re
import shutil
import subprocess
import sys

TOP = pathlib.Path(__file__).resolve().parent.parent
PACKAGES = "nginx openssl python3 logrotate curl nftables haproxy prometheus python3-prometheus-client"
SECTIONS = ["Once", "What one visitor can take", "Watching", "Several servers"]

# Looks before several servers are behind nginx, and with them: a line of shell, and what it is to put.
LOOKS = [
    ("systemctl is-active ripley@8080 ripley-idle@8080 ripley-anew@8080.path ripley-logs.timer nginx | uniq", "active"),
    ("stat -L -c '%a %U' /var/log/ripley /var/log/ripley/8080.log", "750 ripley\n640 ripley"),
    ("curl -sk https://localhost/ | grep -c loader.js", "1"),
    ("curl -sk -o /dev/null -w '%{http_code}' -H 'Ripley-Open: 1' https://localhost/", "200"),
    ("curl -s -o /dev/null -w '%{redirect_url}' -H 'Host: evil' http://localhost/a", "https://localhost/a"),
    ("for unit in ripley@8080 ripley-idle@8080 ripley-metrics@8080 ripley-logs; do systemd-analyze security --no-pager "
     "--threshold=25 $unit.service > /dev/null || echo $unit is exposed; done", ""),
    ("systemctl start ripley-logs && echo rotated", "rotated"),
    # A log of more than 100 MB is cut, while the server that writes it stands still.
    ("runuser -u ripley -- sh -c 'yes filler | head -n 15000000 >> /var/log/ripley/8080.log'; systemctl start ripley-logs; "
     "stat -c %s /var/log/ripley/8080-*Z.log | awk '$1 < 100000'| wc -l; journalctl -q -u ripley-logs | grep -c 'no process'", "1\n0"),
    ("nft list ruleset | grep -c 'dport.*ct count over 100'", "2"),
    # A visitor, and what close_idle.py and the metrics know of it.
    ("id=$(curl -sk -D - -o /dev/null -H 'Ripley-Open: 1' https://localhost/ | tr -d '\\r' | sed -n 's/^ripley-session: //p'); sleep 3; "
     "curl -sk --data-binary '{\"batch\":1,\"items\":[]}' https://localhost/e/$id | cut -c 1-10", '{"batch":1'),
    ("grep -c . /run/ripley/8080/openings 2>&1 | grep -o 'No such device or address'", "No such device or address"),
    # The metrics are behind the filler by some seconds.
    ("for second in $(seq 60); do count=$(curl -s http://127.0.0.1:18080/metrics | sed -n 's/^ripley_batches_total //p'); "
     "test $count = 1.0 && break; sleep 1; done; echo $count", "1.0"),
    ("curl -s http://127.0.0.1:18080/metrics | sed -n 's/^ripley_sessions_most //p'", "250.0"),
    # A server that is killed is started anew, and with it what follows it.
    ("systemctl kill -s KILL --kill-whom=main ripley@8080; sleep 6; systemctl is-active ripley@8080 ripley-idle@8080 | uniq", "active"),
    ("systemctl is-active ripley-anew@8080.path ripley-metrics@8080 | uniq", "active"),
    ("curl -sk -o /dev/null -w '%{http_code}' -H 'Ripley-Open: 1' https://localhost/", "200"),
    # Where its sessions are spent, another run begins.
    ("ls /var/log/ripley/8080-*Z.log | wc -l", "2"),
    ("touch /run/ripley/8080/spent; sleep 6; ls /var/log/ripley/8080-*Z.log | wc -l; ls /run/ripley/8080", "3\nopenings"),
    ("systemctl is-active ripley@8080 ripley-idle@8080 ripley-anew@8080.path | uniq", "active"),
    ("id=$(curl -sk -D - -o /dev/null -H 'Ripley-Open: 1' https://localhost/ | tr -d '\\r' | sed -n 's/^ripley-session: //p'); sleep 2; "
     "cat /var/log/nginx/*.log | grep -c $id", "0"),
    ("journalctl -q -p err -u 'ripley*' --no-pager | grep -v 'Main process exited\\|Failed with result'", ""),
    ("journalctl -q --no-pager | grep 'systemd.*ripley.*ignoring' | head -n 2", ""),
    ("sleep 20; curl -s 'http://127.0.0.1:9090/api/v1/query?query=up' | grep -o '\"value\":.*\"1\"' | wc -l", "1"),
]
LOOKS_AT_SEVERAL = [
    ("systemctl is-active ripley@8082 ripley-idle@8082 ripley-anew@8082.path haproxy | uniq", "active"),
    ("sleep 2; for each in 1 2 3 4; do curl -sk -o /dev/null -w '%{http_code} ' -H 'Ripley-Open: 1' https://localhost/; done", "200 200 200 200 "),
    ("grep -c '^open' /var/log/ripley/8082.log", "2"),
]

SERVICE = """[Unit]
Description=The commands
After=multi-user.target
[Service]
Type=oneshot
ExecStart=/root/commands.sh
StandardOutput=file:/root/told
StandardError=inherit
ExecStopPost=/bin/systemctl poweroff --no-block
"""


def blocks(section: str) -> list[str]:
    """The commands of a section of docs/DEPLOYING.md, block by block, but for those that `rt` takes part in."""
    text = (TOP / "docs/DEPLOYING.md").read_text()
    body = re.search(rf"^## {section}$(.*?)^## ", text, re.M | re.S)[1]
    found = [re.sub(r"^ {3}", "", block, flags=re.M) if indent else block
             for indent, block in re.findall(r"^( *)```sh\n(.*?)^ *```$", body, re.M | re.S)]
    return [block for block in found if "rt run" not in block]


def commands() -> str:
    """A script that runs each block, and then each look."""
    lines = ["#!/bin/bash", "cd /root/ripley", "install -m 755 crates/ripley/out/ripley /usr/local/bin/ripley",
             "export DEBIAN_FRONTEND=noninteractive HOME=/root"]
    for section in SECTIONS:
        for block in blocks(section):
            lines += [f"cat <<'BLOCK'\n== {section}\n{block}BLOCK", f"( set -e\n{block})", 'test $? = 0 || echo "WRONG status"']
        for line, due in {"Watching": LOOKS, "Several servers": LOOKS_AT_SEVERAL}.get(section, []):
            lines += look(line, due)
    return "\n".join(lines) + "\necho THE END\n"


def look(line: str, due: str) -> list[str]:
    return [f"cat <<'LOOK'\n== {line}\nLOOK", f"got=$({line})", 'echo "$got"', f"due=$(cat <<'DUE'\n{due}\nDUE\n)",
            'test "$got" = "$due" || echo "WRONG in place of $due"']


def prepare(root: pathlib.Path, ripley: str) -> None:
    """The packages, the repository, the program and the commands."""
    fetch = f"apt-get update && apt-get install -y --download-only {PACKAGES}"
    subprocess.run(["systemd-nspawn", "-q", "-D", root, "--register=no", "--keep-unit", "/bin/sh", "-c", fetch], check=True)
    (root / "etc/dpkg/dpkg.cfg.d/fast").write_text("force-unsafe-io\n")
    home = root / "root/ripley"
    shutil.rmtree(home, ignore_errors=True)
    shutil.copytree(TOP, home, ignore=shutil.ignore_patterns(".git", "out"))
    (home / "crates/ripley/out").mkdir(parents=True)
    shutil.copy(ripley, home / "crates/ripley/out/ripley")
    script = root / "root/commands.sh"
    script.write_text(commands())
    script.chmod(0o755)
    (root / "etc/systemd/system/commands.service").write_text(SERVICE)
    wants = root / "etc/systemd/system/default.target.wants"
    wants.mkdir(exist_ok=True)
    (wants / "commands.service").unlink(missing_ok=True)
    (wants / "commands.service").symlink_to("../commands.service")


def main() -> None:
    root = pathlib.Path(sys.argv[1])
    prepare(root, sys.argv[2])
    boot = ["systemd-nspawn", "-q", "-b", "-D", root, "--private-network", "--register=no", "--keep-unit"]
    subprocess.run(boot, stdout=subprocess.DEVNULL, stdin=subprocess.DEVNULL, timeout=1500)
    told = (root / "root/told").read_text()
    print(told)
    sys.exit(1 if "WRONG" in told or "THE END" not in told else 0)


if __name__ == "__main__":
    main()
