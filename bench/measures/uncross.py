"""What an uncross takes for an order.

Runs `clock uncross` of crates/clock, which uncrosses books of 10,000 bids and as many asks that
fill each other whole, 50 times each: `in-rank-order` has all limits at one tick and the orders in
slots as they came, `slots-used-again` is the same in the second auction of a day, where they are in
slots that the first one's fills left, and `limits-apart` has the limits of each side over 100
ticks. A peer (`--peer-clock NAME=PATH`) is another build of that program.
"""
import argparse

import measuring
from measuring import Figures
from tables import head, row


def measure(asked: argparse.Namespace) -> bool:
    programs = [[measuring.our_clock(asked.clock)], *[peer.words for peer in asked.peer_clock]]
    found: list[Figures] = [{} for _ in programs]
    for _ in range(asked.runs):
        for program, figures in zip(programs, found):
            measuring.collect_figures([*program, "uncross"], figures)
    names = [peer.name for peer in asked.peer_clock]
    columns = [f"{name}, ns an order" for name in ["ours", *names]]
    head("book", *columns, *[f"ours : {name}" for name in names])
    for book in found[0]:
        own, *others = [min(figures[book]) for figures in found]
        ratios = [f"{own / other:.2f}" for other in others]
        row(book, *[f"{it:.1f}" for it in [own, *others]], *ratios)
    return True
