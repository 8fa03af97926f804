#!/usr/bin/env python3
"""An NTRIP 2 caster for tests: sends standard input to each client, as HTTP/1.1 in chunks.

  examples/station/caster.py --port N [--user NAME:PASSWORD] [--old answer|silence|stream] [--drop BYTES]

  --port N               on 127.0.0.1
  --user NAME:PASSWORD   that a client must send (none)
  --old KIND             what a client of NTRIP 1 gets: a response in HTTP/1.1, which it does not understand; nothing; or, as from a
                         caster of both versions, the stream
  --drop BYTES           the first connection breaks off after so many bytes

Its mountpoint is /MOUNT; / is the list of mountpoints, any other path is not found. It ends by a signal.
"""

import argparse
import base64
import os
import socketserver
import sys
import threading
import time

clients = set()
lock = threading.Lock()


def options():
    parser = argparse.ArgumentParser(usage=__doc__.split("\n\n", 1)[1])
    parser.add_argument("--port", type=int, required=True)
    parser.add_argument("--user")
    parser.add_argument("--old", choices=("answer", "silence", "stream"), default="answer")
    parser.add_argument("--drop", type=int, default=0)
    return parser.parse_args()


class Client(socketserver.StreamRequestHandler):
    """A connection: one request, and then what comes."""

    def handle(self):
        args = self.server.args
        path = (self.rfile.readline().split() + [b"", b""])[1]
        heads = {}
        for line in iter(self.rfile.readline, b"\r\n"):
            if not line:
                return
            name, _, value = line.partition(b":")
            heads[name.strip().lower()] = value.strip()
        self.is_old = heads.get(b"ntrip-version", b"").lower() != b"ntrip/2.0"
        if self.is_old and args.old == "silence":
            time.sleep(3600)
        elif self.is_old and args.old == "answer":
            self.answer("200 OK", "gnss/data")
        elif args.user and heads.get(b"authorization") != b"Basic " + base64.b64encode(args.user.encode()):
            self.answer("401 Unauthorized", "text/plain", 'WWW-Authenticate: Basic realm="/MOUNT"\r\n')
        elif path == b"/":
            self.answer("200 OK", "gnss/sourcetable")
            self.chunk(b"STR;MOUNT;somewhere;RTCM 3.3;1019(30),1046(30);0;GPS+GAL\r\nENDSOURCETABLE\r\n")
            self.chunk(b"")
        elif path != b"/MOUNT":
            self.answer("404 Not Found", "text/plain")
        else:
            if self.is_old:
                self.wfile.write(b"ICY 200 OK\r\n\r\n")
            else:
                self.answer("200 OK", "gnss/data")
            self.stay()

    def answer(self, status, kind, more=""):
        body = "Transfer-Encoding: chunked\r\n" if status[0] == "2" else "Content-Length: 0\r\n"
        self.wfile.write(f"HTTP/1.1 {status}\r\nNtrip-Version: Ntrip/2.0\r\nContent-Type: {kind}\r\n{body}{more}"
                         "Connection: close\r\n\r\n".encode())

    def chunk(self, data):
        self.wfile.write(data if self.is_old else b"%x\r\n%s\r\n" % (len(data), data))

    def stay(self):
        """Sends what comes until the client goes, or the connection is to break off."""
        left, self.server.args.drop = self.server.args.drop, 0
        self.data, self.come = [], threading.Event()
        with lock:
            clients.add(self)
        try:
            while self.come.wait():
                self.come.clear()
                while self.data:
                    data = self.data.pop(0)
                    self.chunk(data[:left] if left else data)
                    if left and left <= len(data):
                        return
                    left -= min(left, len(data))
        except OSError:
            pass
        finally:
            with lock:
                clients.discard(self)


class Caster(socketserver.ThreadingTCPServer):
    allow_reuse_address = True
    daemon_threads = True


def main():
    args = options()
    with Caster(("127.0.0.1", args.port), Client) as caster:
        caster.args = args
        threading.Thread(target=caster.serve_forever, daemon=True).start()
        while data := os.read(0, 4096):
            with lock:
                for client in clients:
                    client.data.append(data)
                    client.come.set()
        threading.Event().wait()


if __name__ == "__main__":
    try:
        sys.exit(main())
    except KeyboardInterrupt:
        sys.exit(130)
