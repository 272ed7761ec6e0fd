"""Two processes of one desk send each other messages; prints how many a second of processor time."""

import sys
import time

from pundewo import Body, Config, Pick, open_node

ROUNDS = int(sys.argv[1]) if len(sys.argv) > 1 else 20_000
KIND = Pick("kind", 1)

(desk,) = open_node(1, Config(slots=65_536, lane=8))
a, b = desk.spawn(), desk.spawn()
begin = time.process_time()
for num in range(ROUNDS):
    for sender, to in ((a, b), (b, a)):
        desk.send(sender, to, Body(1, num))
        desk.turn()
        item = desk.receive(to, KIND)
        assert item and item.body and item.body.num == num
print(f"{2 * ROUNDS / (time.process_time() - begin) / 1e6:.3f} million messages a second")
