"""Saves a block and opens it again over five books in memory, with node 3 silent: host/example.c in Python. `deliver` is a network's place."""
import pasis

n, q = pasis.smallest_plan(pasis.REPAIRABLE, t=1, b=1, m=2)
plan = pasis.Plan(N=n, t=1, b=1, Q=q, m=2, F=1024)
books = [bytearray(plan.book_size(4)) for _ in range(n)]
for node, book in enumerate(books):
    pasis.fresh_book(plan, node, book)

def deliver(node, request):  # a node on a disk makes its book durable before the reply goes out; the client looks whose reply it is
    reply = None if node == 3 else pasis.node(plan, request, books[node])
    return reply if reply and pasis.frame_node(reply) == node else None

def drive(session, hear):
    desk = bytearray(plan.desk_size)
    for node in list(range(n)) * (plan.W + 1):  # a pass over the nodes is a round; after W+1 of them the caller gives up
        try:
            reply = deliver(node, pasis.owed(plan, session, node, desk))
        except pasis.RefusedHeard:
            continue
        if reply and (ending := hear(session, reply, desk)):
            return ending
    raise SystemExit("too few nodes answer")

block = bytes(i * i // 7 % 256 for i in range(plan.item_size))
saved = drive(pasis.open_write(plan, 1), lambda session, reply, desk: pasis.write_reply(plan, session, reply, desk, block))
print(f"a plan of {n} nodes\n  saved as time {saved.time}")
opened = drive(pasis.open_read(plan, 1 + plan.W + 1), lambda session, reply, desk: pasis.read_reply(plan, session, reply, desk))
print(f"  opened time {opened.time} in {opened.rounds} round(s)")
print(f"the {len(opened.item)} bytes that came back are {'those that were saved' if opened.item == block else 'OTHERS'}")
