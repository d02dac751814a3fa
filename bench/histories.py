#!/usr/bin/env python3
"""Times how long it takes to ask whether a made history is safe, after each of its events: histories.py KEEP_BENCH."""
import json
import subprocess
import sys
import time


def config(devices):
    server = "zzzzz-bi6l4-000000000000000"
    return json.dumps({
        "cluster": "zzzzz", "ttl": 100, "skew": 1, "secret": "sesame", "system_token": "sys",
        "tokens": ["alice"], "versions": 4, "trash_life": 50,
        "devices": [{"capacity": 1000000}] * devices,
        "servers": [{"uuid": server}],
        "mounts": [{"uuid": f"zzzzz-nyw5e-{d:015}", "server": 0, "device": d} for d in range(devices)],
    })


def main():
    for events in (500, 1000, 2000, 4000):
        text = f"{config(3)}\n{events}\n"
        start = time.time()
        out = subprocess.run([sys.argv[1], "histories"], input=text.encode(), capture_output=True, check=True)
        print(f"{events} events: {time.time() - start:.2f} s, {out.stdout.decode().strip()}")


main()
