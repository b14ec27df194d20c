"""A server on this machine, which keeps what is asked of it."""
import http.server
import threading


class Server:
    """Serves a folder on this machine, and keeps what is asked of it."""

    def __init__(self, folder):
        asked = self.asked = []

        class Handler(http.server.SimpleHTTPRequestHandler):
            def __init__(self, *words):
                super().__init__(*words, directory=str(folder))

            def end_headers(self):
                # A browser knows a file by the second in which it was written, and tests write one anew within a second.
                self.send_header("Cache-Control", "no-store")
                super().end_headers()

            def log_message(self, *words):
                asked.append(self.path)

        self.server = http.server.ThreadingHTTPServer(("127.0.0.1", 0), Handler)
        threading.Thread(target=self.server.serve_forever, daemon=True).start()
        self.address = f"http://127.0.0.1:{self.server.server_port}"

    def close(self):
        self.server.shutdown()
        self.server.server_close()
