#!/usr/bin/env python3
"""Times the reading of configurations at their bounds beside a plain Python script of the same rules.

    bench/config.py PROGRAM [TIMES]

PROGRAM is the built `keep_bench`. The largest configuration has 64 devices, 64 servers, 256 mounts and 1,000 tokens; beside
it one of half of each is read, and one of a quarter, so that a scan that grows with the square would be seen. Each file has
the same configuration on many lines, and each line is read anew; the figures are microseconds for one reading."""
import json
import re
import string
import subprocess
import sys
import tempfile
import time

DEVICES, SERVERS, MOUNTS, TOKENS = 64, 64, 256, 1000

PART = set(string.ascii_lowercase + string.digits)

NAMES = {
    "cluster", "ttl", "skew", "secret", "system_token", "tokens", "devices", "servers", "mounts", "versions",
    "trash_life", "index_digits", "scan_limit",
}


def configuration(share):
    """The configuration whose lists have this share of their bounds."""
    devices, servers, mounts, tokens = (count // share for count in (DEVICES, SERVERS, MOUNTS, TOKENS))
    return json.dumps({
        "cluster": "zzzzz", "ttl": 1209600, "skew": 5, "secret": "s" * 4096, "system_token": "sys",
        "tokens": ["token%045d" % number for number in range(tokens)],
        "devices": [{"capacity": 2 ** 40 - number, "read_only": number % 2 == 1} for number in range(devices)],
        "servers": [
            {"uuid": "zzzzz-bi6l4-%015d" % number, "addresses": ["10.0.0.%d:%d" % (number, port) for port in range(8000, 8008)]}
            for number in range(servers)
        ],
        "mounts": [
            {"uuid": "zzzzz-nyw5e-%015d" % number, "server": number % servers, "device": number % devices}
            for number in range(mounts)
        ],
        "versions": 1000, "trash_life": 1209600, "index_digits": 0, "scan_limit": 1000,
    }, separators=(",", ":"))


def is_number(value, low, high):
    return type(value) is int and low <= value <= high


def is_token(value):
    return isinstance(value, str) and 1 <= len(value) <= 250 and all("!" <= c <= "~" for c in value)


def is_uuid(value, kind):
    return isinstance(value, str) and re.fullmatch("[0-9a-z]{5}-%s-[0-9a-z]{15}" % kind, value) is not None


def is_list(value, low, high):
    return isinstance(value, list) and low <= len(value) <= high


def are_devices(devices):
    return is_list(devices, 1, 64) and all(
        is_number(device.get("capacity"), 0, 2 ** 40) and isinstance(device.get("read_only", False), bool)
        for device in devices
    )


def are_servers(servers):
    return is_list(servers, 1, 64) and all(
        is_uuid(server.get("uuid"), "bi6l4") and is_list(server.get("addresses", []), 0, 8)
        and all(isinstance(address, str) for address in server.get("addresses", []))
        for server in servers
    ) and len({server["uuid"] for server in servers}) == len(servers)


def are_mounts(mounts, devices, servers):
    return is_list(mounts, 1, 256) and all(
        is_uuid(mount.get("uuid"), "nyw5e") and is_number(mount.get("server"), 0, servers - 1)
        and is_number(mount.get("device"), 0, devices - 1)
        for mount in mounts
    ) and len({mount["uuid"] for mount in mounts}) == len(mounts) and len({mount["device"] for mount in mounts}) == devices


def are_known(value):
    return value.keys() <= NAMES and all(
        member.keys() <= names
        for field, names in (
            ("devices", {"capacity", "read_only"}), ("servers", {"uuid", "addresses"}), ("mounts", {"uuid", "server", "device"}),
        )
        for member in value[field]
    )


def read(line):
    """Whether a line is a configuration, by the same rules."""
    value = json.loads(line)
    tokens = value.get("tokens")
    return (
        len(value["cluster"]) == 5 and set(value["cluster"]) <= PART
        and is_number(value.get("ttl"), 1, 10 ** 8)
        and is_number(value.get("skew"), 0, 3600)
        and 1 <= len(value["secret"].encode()) <= 4096
        and is_token(value.get("system_token"))
        and is_list(tokens, 1, 1000) and all(map(is_token, tokens))
        and len(set(tokens)) == len(tokens) and value["system_token"] not in tokens
        and are_devices(value.get("devices"))
        and are_servers(value.get("servers"))
        and are_mounts(value.get("mounts"), len(value["devices"]), len(value["servers"]))
        and is_number(value.get("versions"), 1, 1000)
        and is_number(value.get("trash_life"), 0, 10 ** 8)
        and is_number(value.get("index_digits", 0), 0, 0)
        and is_number(value.get("scan_limit", 1000), 1, 10 ** 5)
        and are_known(value)
    )


def timed(program, line, count):
    """Seconds that the program takes for so many lines, its start and the reading of its input included."""
    with tempfile.TemporaryFile() as file:
        file.write((line + "\n").encode() * count)
        file.seek(0)
        start = time.monotonic()
        said = subprocess.run([program, "config"], stdin=file, stdout=subprocess.PIPE, check=True).stdout.decode().strip()
        taken = time.monotonic() - start
    assert said == "%d configurations" % count, said
    return taken


def main():
    program, count = sys.argv[1], int(sys.argv[2]) if len(sys.argv) > 2 else 500
    before = None
    for share in (4, 2, 1):
        line = configuration(share)
        ours = timed(program, line, count) / count
        start = time.monotonic()
        for _ in range(count):
            assert read(line)
        python = (time.monotonic() - start) / count
        print("%d bytes, %d tokens: keep_config %.0f µs%s, python %.0f µs, keep_config is %.2f times python" % (
            len(line), TOKENS // share, ours * 1e6, " (%.2f times the one before)" % (ours / before) if before else "",
            python * 1e6, ours / python,
        ))
        before = ours


if __name__ == "__main__":
    main()
