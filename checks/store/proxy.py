"""A proxy in front of PostgreSQL that cuts a connection at its COMMIT: before the server has it, or before the reply arrives."""

import contextlib
import socket
import threading


class Proxy:
    """Listens on a free port of loopback. `cut` is `"before"`, `"after"` or None, and applies to the next COMMIT."""

    def __init__(self, path):
        self.path, self.cut, self.cuts = path, None, 0
        self.listening = socket.create_server(("127.0.0.1", 0))
        self.port = self.listening.getsockname()[1]
        threading.Thread(target=self._accept, daemon=True).start()

    def _accept(self):
        while True:
            client, _ = self.listening.accept()
            server = socket.socket(socket.AF_UNIX)
            try:
                server.connect(self.path)
            except OSError:
                client.close()
                continue
            state = {"has_cut": False}
            threading.Thread(target=self._to_server, args=(client, server, state), daemon=True).start()
            threading.Thread(target=self._to_client, args=(client, server, state), daemon=True).start()

    def _to_server(self, client, server, state):
        with contextlib.suppress(OSError):
            while data := client.recv(65536):
                cut = self.cut
                if cut and b"COMMIT\0" in data:
                    self.cut, self.cuts, state["has_cut"] = None, self.cuts + 1, True
                    if cut == "before":  # the server keeps the transaction open, as with a pulled cable
                        _close(client)
                        return
                server.sendall(data)
        with contextlib.suppress(OSError):
            server.shutdown(socket.SHUT_WR)

    def _to_client(self, client, server, state):
        with contextlib.suppress(OSError):
            while data := server.recv(65536):
                if state["has_cut"]:
                    break
                client.sendall(data)
        _close(client)


def _close(connection):
    with contextlib.suppress(OSError):
        connection.shutdown(socket.SHUT_RDWR)
    connection.close()
