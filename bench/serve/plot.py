#!/usr/bin/env python3
"""Draws sends of 1 KiB a second over the number of links, from the table of docs/SPEED.md: bench/serve/plot.py >docs/speed.svg."""
import math
import os
import re

HERE = os.path.dirname(os.path.abspath(__file__))
WIDTH, HEIGHT = 720, 400
LEFT, RIGHT, TOP, BOTTOM = 80, 190, 30, 50
COLORS = {"mq_broker, binary": "#0b6e4f", "mq_broker, JSON": "#5fad56", "Redis": "#c0392b", "write and sync": "#777777"}


def measured(text):
    """Of each server, its sends of 1 KiB a second by the number of links that have one request in flight each."""
    found = {}
    for links, server, rate in re.findall(r"^\| 1024 B, (\d+) x 1 \| ([^|]+) \| ([\d,]+) \|", text, re.M):
        found.setdefault(server, {})[int(links)] = int(rate.replace(",", ""))
    return found


def across(links):
    return LEFT + (WIDTH - LEFT - RIGHT) * math.log2(links) / 6


def up(rate, most):
    return HEIGHT - BOTTOM - (HEIGHT - TOP - BOTTOM) * rate / most


def text(x, y, words, anchor="start", color="#222222"):
    return f'<text x="{x:.0f}" y="{y:.0f}" text-anchor="{anchor}" fill="{color}">{words}</text>'


def axes(most):
    yield f'<rect width="{WIDTH}" height="{HEIGHT}" fill="white"/>'
    for rate in range(0, most + 1, 20000):
        y = up(rate, most)
        yield f'<line x1="{LEFT}" y1="{y:.0f}" x2="{WIDTH - RIGHT}" y2="{y:.0f}" stroke="#dddddd"/>'
        yield text(LEFT - 8, y + 4, f"{rate:,}", "end")
    for links in (1, 16, 64):
        yield text(across(links), HEIGHT - BOTTOM + 20, links, "middle")
    yield text((LEFT + WIDTH - RIGHT) / 2, HEIGHT - 12, "links, each with one request in flight", "middle")
    yield text(LEFT, TOP - 12, "durable sends of 1 KiB a second")


def line(server, rates, most):
    color = COLORS[server]
    # One thread writes and syncs one message after another, however many links there are.
    points = sorted(rates.items()) if len(rates) > 1 else [(1, rates[1]), (64, rates[1])]
    path = " ".join(f"{across(links):.0f},{up(rate, most):.0f}" for links, rate in points)
    dashes = ' stroke-dasharray="5 4"' if len(rates) == 1 else ""
    yield f'<polyline points="{path}" fill="none" stroke="{color}" stroke-width="2"{dashes}/>'
    yield text(across(64) + 8, up(points[-1][1], most) + 4, server, color=color)


def plot(found):
    most = max(rate for rates in found.values() for rate in rates.values()) // 20000 * 20000 + 20000
    yield f'<svg xmlns="http://www.w3.org/2000/svg" viewBox="0 0 {WIDTH} {HEIGHT}" font-family="sans-serif" font-size="13">'
    yield from axes(most)
    for server, rates in found.items():
        yield from line(server, rates, most)
    yield "</svg>"


with open(os.path.join(HERE, "..", "..", "docs", "SPEED.md")) as table:
    print("\n".join(plot(measured(table.read()))))
