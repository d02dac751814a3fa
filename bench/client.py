#!/usr/bin/env python3
"""The client over TCP against a plain server of another make: nginx, with its DAV module and a folder of blocks.

    bench/client.py crates/keep_ask/out/keep_ask

Starts two nginx servers over the loopback, asks them, prints what was seen beside what the rules say, and ends with 1 where they differ. A request
of keep_wire has no Host field, and nginx answers 400 to one of HTTP/1.1 without it. So most is asked through a relay that adds that field and passes
all else on as it comes. A PUT is answered 201 or 204 without a locator, which acknowledges nothing; the folder has the block all the same.
"""
import hashlib, json, os, shutil, socket, subprocess, sys, tempfile, threading, time, urllib.request

FOO = hashlib.md5(b"foo").hexdigest()
MOUNT = "zzzzz-nyw5e-000000000000000"


def free_port():
    with socket.socket() as s:
        s.bind(("127.0.0.1", 0))
        return s.getsockname()[1]


def order(digest, servers):
    """Servers by descending MD5 of the digest and the last 15 characters of the UUID."""
    return sorted(range(servers), key=lambda i: hashlib.md5(f"{digest}{i:015}".encode()).hexdigest(), reverse=True)


def config(path, ports):
    servers = [{"uuid": f"zzzzz-bi6l4-{i:015}", "addresses": [f"127.0.0.1:{p}"]} for i, p in enumerate(ports)]
    mounts = [{"uuid": f"zzzzz-nyw5e-{i:015}", "server": i, "device": i} for i in range(len(ports))]
    text = {"cluster": "zzzzz", "ttl": 100, "skew": 1, "secret": "sesame", "system_token": "sys", "tokens": ["alice"],
            "devices": [{"capacity": 1000} for _ in ports], "servers": servers, "mounts": mounts, "versions": 2, "trash_life": 50}
    with open(path, "w") as f:
        f.write(json.dumps(text) + "\n")
    return path


def pump(source, target):
    try:
        while data := source.recv(65536):
            target.sendall(data)
    except OSError:
        pass
    try:
        target.shutdown(socket.SHUT_WR)
    except OSError:
        pass


def relay_one(client, port):
    """Passes one connection on, with a Host field after the request line."""
    with client, socket.create_connection(("127.0.0.1", port)) as server:
        head = b""
        while b"\r\n" not in head:
            data = client.recv(65536)
            if not data:
                return
            head += data
        line, rest = head.split(b"\r\n", 1)
        server.sendall(line + b"\r\nHost: keep\r\n" + rest)
        back = threading.Thread(target=pump, args=(server, client), daemon=True)
        back.start()
        pump(client, server)
        back.join()


def relay(port):
    listener = socket.create_server(("127.0.0.1", 0))

    def serve():
        while True:
            client, _ = listener.accept()
            threading.Thread(target=relay_one, args=(client, port), daemon=True).start()

    threading.Thread(target=serve, daemon=True).start()
    return listener.getsockname()[1]


def nginx(folder, ports):
    servers = ""
    for i, port in enumerate(ports):
        os.makedirs(f"{folder}/blocks{i}")
        servers += (f"server {{ listen 127.0.0.1:{port}; root {folder}/blocks{i}; client_max_body_size 65m; "
                    f"location / {{ dav_methods PUT; }} }}\n")
    temps = "".join(f"{t}_temp_path {folder}/tmp; " for t in ("client_body", "proxy", "fastcgi", "uwsgi", "scgi"))
    user = "user root; " if os.geteuid() == 0 else ""
    with open(f"{folder}/nginx.conf", "w") as f:
        f.write(f"{user}daemon off; master_process off; pid {folder}/pid; error_log {folder}/errors;\n"
                f"events {{ worker_connections 64; }}\nhttp {{ access_log off; {temps}\n{servers} }}\n")
    process = subprocess.Popen(["nginx", "-p", folder, "-c", f"{folder}/nginx.conf", "-e", f"{folder}/errors"])
    for port in ports:
        for _ in range(100):
            try:
                socket.create_connection(("127.0.0.1", port)).close()
                break
            except OSError:
                time.sleep(0.05)
    return process


def ask(program, words, block=b""):
    done = subprocess.run([program] + words, input=block, stdout=subprocess.PIPE)
    return done.stdout.decode().strip()


class Checks:
    wrong = 0

    def see(self, name, seen, wanted):
        if seen != wanted:
            self.wrong += 1
        shown = seen if len(seen) < 80 else f"{seen[:60]}.. ({len(seen)} characters)"
        print(f"{'as the rules say' if seen == wanted else 'NOT ' + wanted}: {name}: {shown}".replace("\n", " / "))


def look(program, folder, ports):
    checks = Checks()
    plain = config(f"{folder}/plain.json", ports)
    related = config(f"{folder}/related.json", [relay(p) for p in ports])
    closed = config(f"{folder}/closed.json", [free_port(), free_port()])
    locator = FOO + "+3"
    put, get = (lambda c, n: ask(program, ["put", c, "alice", str(n)], b"foo")), (lambda c, l: ask(program, ["get", c, "alice", l]))

    checks.see("a put without a Host field is refused by both", put(plain, 1), "TooFew 0 0 2")
    checks.see("a get without one too", get(plain, locator), "Unread 0 0 2")
    checks.see("a put that makes the file (201, no locator)", put(related, 1), "TooFew 0 0 2")
    for i in (0, 1):
        with open(f"{folder}/blocks{i}/{FOO}", "rb") as f:
            checks.see(f"what folder {i} then has", f.read().decode(), "foo")
    checks.see("a put that replaces it (204, no length)", put(related, 1), "TooFew 0 0 2")
    checks.see("a get of what is nowhere", get(related, locator), "NotFound")
    first, last = order(FOO, 2)
    with open(f"{folder}/blocks{last}/{locator}", "wb") as f:
        f.write(b"foo")
    checks.see("a get of what the last server has", get(related, locator), "Bytes 666f6f")
    with open(f"{folder}/blocks{first}/{locator}", "wb") as f:
        f.write(b"bar")
    checks.see("a get past a server with other bytes", get(related, locator), "Bytes 666f6f")
    os.remove(f"{folder}/blocks{last}/{locator}")
    checks.see("a get where one has other bytes and one none", get(related, locator), "Unread 1 0 0")
    os.makedirs(f"{folder}/blocks0/mounts/{MOUNT}/blocks/1")
    with open(f"{folder}/blocks0/mounts/{MOUNT}/blocks/1/ac", "w") as f:
        f.write(f"{locator} 5\n\n")
    checks.see("an index", ask(program, ["index", related, MOUNT, "1", "ac"]), f"{FOO} 3 5\nIndex")
    checks.see("an index of another round", ask(program, ["index", related, MOUNT, "2", "ac"]), "Refused 404")
    checks.see("a put over a refused connection", put(closed, 1), "TooFew 0 2 0")
    checks.see("a get over a refused connection", get(closed, locator), "Unread 0 2 0")
    checks.see("an index over a refused connection", ask(program, ["index", closed, MOUNT, "1", ""]), "LinkFault")
    large(program, folder, ports, related, checks)
    return checks.wrong


def large(program, folder, ports, related, checks):
    """The largest block, and how long it takes beside Python's urllib, which goes to nginx without the relay."""
    block = bytes(range(256)) * (64 * 4096)
    digest = hashlib.md5(block).hexdigest()
    locator = f"{digest}+{len(block)}"
    for i in (0, 1):
        with open(f"{folder}/blocks{i}/{locator}", "wb") as f:
            f.write(block)
    start = time.perf_counter()
    seen = ask(program, ["get", related, "alice", locator])
    took = time.perf_counter() - start
    checks.see("a get of 64 MiB", hashlib.md5(seen.encode()).hexdigest(), hashlib.md5(b"Bytes " + block.hex().encode()).hexdigest())
    start = time.perf_counter()
    with urllib.request.urlopen(f"http://127.0.0.1:{ports[0]}/{locator}") as answer:
        hashlib.md5(answer.read()).hexdigest()
    other = time.perf_counter() - start
    print(f"64 MiB: {took:.2f} s with its digits printed and through the relay; urllib and hashlib without: {other:.2f} s")


def main():
    program = os.path.abspath(sys.argv[1])
    folder = tempfile.mkdtemp(prefix="keep-client-")
    ports = [free_port(), free_port()]
    server = nginx(folder, ports)
    try:
        wrong = look(program, folder, ports)
    finally:
        server.terminate()
        server.wait()
        shutil.rmtree(folder)
    print("all as the rules say" if wrong == 0 else f"{wrong} otherwise")
    sys.exit(1 if wrong else 0)


main()
