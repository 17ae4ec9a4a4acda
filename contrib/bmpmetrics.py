"""Metrics in the text format of Prometheus, and a server that tells them. It is no part of what is proved."""
import contextlib
import re
from http.server import BaseHTTPRequestHandler, ThreadingHTTPServer

CONTENT_TYPE = "text/plain; version=0.0.4; charset=utf-8"


def escaped(value):
    """A label's value; a control character stands as `\\xHH`."""
    text = re.sub(r"[\x00-\x1f\x7f-\x9f]", lambda m: f"\\x{ord(m[0]):02x}", str(value))
    return text.replace("\\", "\\\\").replace('"', '\\"')


class Metrics:
    """Metrics in the text format of Prometheus, each with its help and type before its first sample."""

    def __init__(self):
        self.texts = {}

    def add(self, name, kind, about, value, /, **labels):
        text = self.texts.setdefault(name, [f"# HELP {name} {about}", f"# TYPE {name} {kind}"])
        inner = ",".join(f'{label}="{escaped(found)}"' for label, found in labels.items())
        text.append(f"{name}{{{inner}}} {value}" if inner else f"{name} {value}")

    def text(self):
        return "".join(line + "\n" for lines in self.texts.values() for line in lines)


def server_of(address, port, scrape):
    """A server over HTTP whose /metrics are what a function gives."""
    class Handler(BaseHTTPRequestHandler):
        def do_GET(self):
            if self.path.split("?")[0] == "/metrics":
                self.reply(200, CONTENT_TYPE, scrape())
            elif self.path == "/":
                self.reply(200, "text/html; charset=utf-8", '<a href="/metrics">metrics</a>\n')
            else:
                self.reply(404, "text/plain; charset=utf-8", "not here\n")

        def reply(self, status, kind, text):
            data = text.encode("utf-8")
            # Who asked may have waited long enough, and have gone.
            with contextlib.suppress(ConnectionError):
                self.send_response(status)
                self.send_header("Content-Type", kind)
                self.send_header("Content-Length", str(len(data)))
                self.end_headers()
                self.wfile.write(data)

        def log_message(self, *_):
            pass

    return ThreadingHTTPServer((address, port), Handler)
