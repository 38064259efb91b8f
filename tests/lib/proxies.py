"""Servers with TLS before the gateway of clients/web: nginx and caddy by the files of examples/, asked by curl."""

from __future__ import annotations

import contextlib
import json
import os
import re
import shutil
import subprocess
import time
from collections.abc import Iterator
from typing import Any

from .options import TOP
from .program import SECONDS, free_port

NAME = "till.example"


def certified(folder: str) -> tuple[str, str]:
    """A certificate of the name, and its key."""
    files = os.path.join(folder, "tls.crt"), os.path.join(folder, "tls.key")
    words = ["openssl", "req", "-x509", "-newkey", "rsa:2048", "-nodes", "-days", "2", "-subj", f"/CN={NAME}"]
    words += ["-addext", f"subjectAltName=DNS:{NAME}", "-out", files[0], "-keyout", files[1]]
    subprocess.run(words, check=True, capture_output=True, timeout=SECONDS)
    return files


def example(name: str, gateway: int) -> str:
    """A file of examples/ whose gateway is at this port."""
    with open(os.path.join(TOP, "examples", name), encoding="utf-8") as file:
        return file.read().replace("127.0.0.1:8080", f"127.0.0.1:{gateway}")


def nginx(folder: str, port: int, gateway: int, files: tuple[str, str]) -> list[str]:
    """What starts nginx at a port."""
    text = example("till.nginx", gateway).replace("listen 443", f"listen 127.0.0.1:{port}")
    for ours, real in zip(("fullchain", "privkey"), files):
        text = re.sub(rf"/etc/\S*/{ours}\.pem", real, text)
    kinds = ("client_body", "proxy", "fastcgi", "uwsgi", "scgi")
    paths = "".join(f"{kind}_temp_path {folder}/{kind};" for kind in kinds)
    with open(os.path.join(folder, "nginx.conf"), "w", encoding="utf-8") as file:
        file.write(f"daemon off; pid {folder}/nginx.pid; error_log stderr; events {{}}\n")
        file.write(f"http {{ access_log off; {paths}\n{text}}}\n")
    return ["nginx", "-p", folder, "-e", "stderr", "-c", os.path.join(folder, "nginx.conf")]


def caddy(folder: str, port: int, gateway: int, files: tuple[str, str]) -> list[str]:
    """What starts caddy at a port."""
    site = f"{NAME}:{port} {{\n\ttls {files[0]} {files[1]}"
    text = example("till.caddy", gateway).replace(f"{NAME} {{", site)
    with open(os.path.join(folder, "Caddyfile"), "w", encoding="utf-8") as file:
        file.write(f"{{\n\tadmin off\n\tauto_https disable_redirects\n\tstorage file_system {folder}/caddy\n}}\n{text}")
    return ["caddy", "run", "--adapter", "caddyfile", "--config", os.path.join(folder, "Caddyfile")]


SERVERS = {"nginx": nginx, "caddy": caddy}


def is_here(server: str) -> bool:
    return all(shutil.which(tool) for tool in (server, "curl", "openssl"))


class Proxy:
    """A server before a gateway, and what curl gets from it. `url` is what the address bar shows."""

    def __init__(self, folder: str) -> None:
        self.folder, self.port = folder, free_port()
        self.url, self.files = f"https://{NAME}:{self.port}", certified(folder)

    @contextlib.contextmanager
    def runs(self, server: str, gateway: int) -> Iterator[None]:
        words = SERVERS[server](self.folder, self.port, gateway, self.files)
        env = {**os.environ, "HOME": self.folder}
        with open(os.path.join(self.folder, "web.log"), "ab") as log:
            program = subprocess.Popen(words, cwd=self.folder, stdout=log, stderr=log, env=env)
        try:
            end = time.monotonic() + SECONDS
            while self.curl("/login")[0] != 200 and time.monotonic() < end and program.poll() is None:
                time.sleep(0.1)
            yield
        finally:
            program.terminate()
            program.wait(SECONDS)

    def curl(self, path: str, *more: str, url: str = "", cookies: str = "cookies") -> tuple[int, str]:
        """The status, and heads and body in one text."""
        jar = os.path.join(self.folder, cookies)
        words = ["curl", "-sS", "-i", "--cacert", self.files[0], "-b", jar, "-c", jar, "--max-time", "60"]
        words += ["--resolve", f"{NAME}:{self.port}:127.0.0.1", *more, (url or self.url) + path]
        said = subprocess.run(words, capture_output=True, text=True, timeout=SECONDS, check=False).stdout
        found = re.match("HTTP/[0-9.]+ ([0-9]+)", said)
        return int(found[1]) if found else 0, said

    def post(self, path: str, body: object, *more: str) -> tuple[int, str]:
        heads = ["-H", "Content-Type: application/json", "-H", f"Origin: {self.url}"]
        return self.curl(path, *heads, *more, "-d", json.dumps(body))

    def stream(self) -> Iterator[dict[str, Any]]:
        """What the stream of the pages brings, as it comes."""
        words = ["curl", "-sS", "-N", "--cacert", self.files[0], "-b", os.path.join(self.folder, "cookies")]
        words += ["--resolve", f"{NAME}:{self.port}:127.0.0.1", "--max-time", "120", self.url + "/stream"]
        with subprocess.Popen(words, stdout=subprocess.PIPE, text=True) as curl:
            assert curl.stdout
            try:
                for line in curl.stdout:
                    if line.startswith("data: "):
                        yield json.loads(line[6:])
            finally:
                curl.kill()
