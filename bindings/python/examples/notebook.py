"""A notebook as a script: a shop sells while a report counts the stock, and afterwards shows the error of the count.

    $ python3 examples/notebook.py

Its output is stored in notebook.out in the same folder.
"""

import random
import threading

from esr import Bank

# %% The shop: three articles, and what was sold of each.
ARTICLES = ["apples", "pears", "plums"]
bank = Bank({**{article: 100 for article in ARTICLES}, **{f"{article}_sold": 0 for article in ARTICLES}})


# %% Four tills sell, each in a separate thread. A sale that exceeds the stock fails.
def sell(article: str, pieces: int) -> bool:
    def body(update) -> bool:
        left = update.add(article, -pieces)
        if left < 0:
            raise ValueError(f"only {left + pieces} {article}")
        update.add(f"{article}_sold", pieces)
        return True

    try:
        return bank.transact(1_000, body)
    except ValueError:
        return False


def till(seed: int) -> None:
    draw = random.Random(seed)
    for _ in range(50):
        sell(draw.choice(ARTICLES), draw.randrange(1, 4))


tills = [threading.Thread(target=till, args=[seed]) for seed in range(4)]
for thread in tills:
    thread.start()

# %% Meanwhile, count the pieces, sold or not. No lock blocks the count, which may be off by at most 30.
findings = []
while any(thread.is_alive() for thread in tills):
    with bank.report(30) as count:
        pieces = sum(count.read(article) + count.read(f"{article}_sold") for article in ARTICLES)
    finding = count.finding
    assert abs(pieces - 300) <= finding.distance <= finding.charged <= 30
    findings.append(finding)
for thread in tills:
    thread.join()

# %% The result.
with bank.report(0) as count:
    pieces = sum(count.read(article) + count.read(f"{article}_sold") for article in ARTICLES)
print("pieces in the end:", pieces, "off by", count.finding.distance)
print("each count was off by no more than its finding says:", all(f.distance <= f.charged for f in findings))

# %% The next day, with full shelves. Explain one count that was off: a notebook shows the finding as its picture.
with bank.update(0) as morning:
    for article in ARTICLES:
        morning.write(article, 100)
        morning.write(f"{article}_sold", 0)
with bank.update(2) as sale:
    sale.add("plums", -1)
    with bank.report(2) as count:
        pieces = sum(count.read(article) + count.read(f"{article}_sold") for article in ARTICLES)
    sale.add("plums_sold", 1)
print(f"{pieces} in the middle of a sale: {count.finding.explain().splitlines()[-1]}")
print(next(line for line in count.finding.explain().splitlines() if line.startswith("read plums ")))
print("drawn:", count.finding._repr_svg_()[:4] + "..>")
row = bank.ledger().splitlines()[count.number].split(",")
print("its row in the ledger:", row[2], "charged", row[4], "of", row[3])
