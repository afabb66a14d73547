"""A server of a script: it answers each link in a thread of its own, until its block ends."""
import socketserver
import threading


class Listening(socketserver.ThreadingTCPServer):
    """`handler`: the class that answers a link. `port`: where it listens; one that is free where none is given."""
    allow_reuse_address = daemon_threads = True

    def __init__(self, handler, port=0):
        super().__init__(('127.0.0.1', port), handler)
        self.port = self.server_address[1]
        threading.Thread(target=self.serve_forever, daemon=True).start()

    def __exit__(self, *_):
        self.shutdown()
        super().__exit__()
