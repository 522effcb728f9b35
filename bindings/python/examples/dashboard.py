"""A dashboard: a shop sells in four threads, and an HTTP server on loopback shows what the bank does.

    $ python3 examples/dashboard.py 8080
    $ curl http://127.0.0.1:8080/metrics     the counters, for Prometheus
    $ curl http://127.0.0.1:8080/active      the transactions that have not ended, as JSON
    $ curl http://127.0.0.1:8080/values      the values of one moment and their total, as JSON
    $ curl http://127.0.0.1:8080/ledger      a line for each transaction of the history, as CSV
"""

import dataclasses
import http.server
import json
import random
import sys
import threading

from esr import Bank

ARTICLES = ["apples", "pears", "plums"]


class Dashboard(http.server.ThreadingHTTPServer):
    """Serves a bank on loopback. Port 0 takes a free one: see `url`."""

    daemon_threads = True

    def __init__(self, bank: Bank, port: int = 0) -> None:
        super().__init__(("127.0.0.1", port), Handler)
        self.bank = bank
        self.url = f"http://127.0.0.1:{self.server_port}"

    def page(self, path: str):
        """Returns the type and the text of a page, or None if there is no such page."""
        if path == "/metrics":
            return "text/plain; version=0.0.4; charset=utf-8", self.bank.metrics().to_prometheus()
        if path == "/active":
            return "application/json", json.dumps([dataclasses.asdict(one) for one in self.bank.active()])
        if path == "/values":
            # A snapshot is exact and takes microseconds. A report would say how the sales in progress change the total.
            values = self.bank.snapshot()
            return "application/json", json.dumps({"total": sum(values.values()), "values": values})
        if path == "/ledger":
            return "text/csv; charset=utf-8", self.bank.ledger()
        return None


class Handler(http.server.BaseHTTPRequestHandler):
    def do_GET(self) -> None:
        page = self.server.page(self.path)
        kind, text = page or ("text/plain; charset=utf-8", "no such page\n")
        body = text.encode()
        self.send_response(200 if page else 404)
        self.send_header("Content-Type", kind)
        self.send_header("Content-Length", str(len(body)))
        self.end_headers()
        self.wfile.write(body)

    def log_message(self, *arguments: object) -> None:
        pass


def sell(bank: Bank, seed: int, is_open: threading.Event) -> None:
    draw = random.Random(seed)
    while is_open.is_set():
        article, pieces = draw.choice(ARTICLES), draw.randrange(1, 4)

        def sale(update) -> None:
            update.add(article, -pieces)
            update.add(f"{article}_sold", pieces)

        bank.transact(1_000, sale, name=f"till {seed}")


def main() -> None:
    bank = Bank({**{article: 10**9 for article in ARTICLES}, **{f"{article}_sold": 0 for article in ARTICLES}})
    is_open = threading.Event()
    is_open.set()
    tills = [threading.Thread(target=sell, args=(bank, seed, is_open)) for seed in range(4)]
    for till in tills:
        till.start()
    with Dashboard(bank, int(sys.argv[1]) if len(sys.argv) > 1 else 8080) as dashboard:
        print(dashboard.url, flush=True)
        try:
            dashboard.serve_forever()
        except KeyboardInterrupt:
            is_open.clear()
    for till in tills:
        till.join()


if __name__ == "__main__":
    main()
