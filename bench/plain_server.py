#!/usr/bin/env python3
"""Serves the plain twin with Python's http.server, for `bench/serve speed`.

usage: plain_server.py PROJECT PORT
PROJECT is a folder with the CSV files of the imports. It prints the port once it listens. It knows only as
much of HTTP as a call needs.
"""
import os
import sys
import time
from http.server import BaseHTTPRequestHandler, HTTPServer

import plain
from plain_formats import Refused
from served import needs


class Server(HTTPServer):
    """A server with the service that answers for it."""

    service: plain.Service


class Handler(BaseHTTPRequestHandler):
    """Answers a POST to /scheduler."""

    server: Server

    def do_POST(self) -> None:
        body = self.rfile.read(int(self.headers["content-length"]))
        try:
            status, answer = 200, self.server.service.scheduler(body, int(time.time()))
        except Refused as refusal:
            status, answer = refusal.status, refusal.body
        content = answer.encode()
        self.send_response(status)
        self.send_header("content-type", "application/json")
        self.send_header("content-length", str(len(content)))
        self.send_header("connection", "close")
        self.end_headers()
        self.wfile.write(content)

    def log_message(self, *_args: object) -> None:
        """Prints nothing: there is no line for each message."""


def main() -> None:
    if len(sys.argv) != 3:
        needs("bench/plain_server.py", "it needs PROJECT, a folder with the CSV files of a project, and PORT")
    folder, port = sys.argv[1], int(sys.argv[2])
    server = Server(("127.0.0.1", port), Handler)
    server.service = plain.Service({**plain.SETTINGS, "max_hosts": 100})
    for kind in ("accounts", "apps", "versions", "workunits"):
        with open(os.path.join(folder, f"{kind}.csv"), newline="") as file:
            server.service.imported(kind, "first", file.read())
    print(port, flush=True)
    server.serve_forever()


if __name__ == "__main__":
    main()
