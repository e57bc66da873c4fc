#!/usr/bin/env python3
"""Writes bars.csv: a history of 68 bars, a seeded walk with patterns planted in it.

    python3 make_bars.py

Every run writes the same file. A line is open,close,high,low.
"""

import random
from pathlib import Path

SEED = 546
FIRST = 44.00

# Patterns as (open, close, high, low) from the close before on, oldest bar first.
HAMMER = [(-0.6, -0.2, -0.15, -2.2)]
BULLISH_ENGULFING = [(-0.2, -1.0, 0.1, -1.3), (-1.6, 1.0, 1.5, -1.9)]
DARK_CLOUD = [(0.2, 3.0, 3.3, -0.1), (3.9, 1.1, 4.3, 0.7)]
PIERCING = [(-0.1, -2.2, 0.3, -2.5), (-3.1, -0.5, -0.2, -3.5)]
RISING_THREE = [
    (0.1, 2.6, 2.9, -0.3),
    (2.5, 2.0, 3.3, 1.4),
    (2.1, 1.5, 2.6, 0.9),
    (1.6, 1.0, 2.0, 0.4),
    (1.3, 4.0, 4.5, 1.1),
]
FALLING_SIX = [
    (0.0, -2.6, 0.4, -3.0),
    (-2.5, -2.1, -1.6, -2.9),
    (-2.1, -1.8, -1.0, -2.4),
    (-1.9, -1.4, -0.5, -2.0),
    (-1.7, -4.3, -1.5, -4.8),
]
MORNING_STAR = [(0.0, -2.2, 0.4, -2.5), (-2.9, -2.9, -2.6, -3.5), (-2.3, 0.4, 0.9, -2.7)]
SEPARATING_LINES = [(0.3, -0.8, 0.9, -1.2), (0.3, 2.1, 2.6, -0.2)]
CANDLE = [(0.2, 1.4, 3.4, 0.1)]
HARAMI = [(0.1, 2.4, 2.7, -0.2), (1.5, 1.0, 2.1, 0.4)]
TWO_CROWS = [(0.1, 2.1, 2.4, -0.2), (3.5, 2.8, 4.1, 2.5), (3.4, 1.8, 3.6, 1.5)]
THREE_CROWS = [(0.5, -0.9, 0.9, -1.2), (-0.4, -2.1, 0.1, -2.5), (-1.7, -3.5, -1.2, -3.9)]
DOJI = [(0.3, 0.35, 1.5, -1.1)]
THREE_DOJI = [(0.2, 0.25, 1.0, -0.7), (-0.5, -0.5, 0.4, -1.5), (0.6, 0.65, 1.7, -0.3)]
COUNTERATTACK = [(0.0, -0.5, 0.3, -1.3), (-0.6, -1.6, -0.1, -1.9), (-2.7, -1.65, -1.2, -2.9)]
GAP = [(1.6, 2.6, 3.1, 1.2), (2.5, 1.6, 2.7, 0.8)]
TOWER_TOP = [
    (0.0, 2.2, 2.5, -0.4),
    (2.0, 2.4, 3.1, 1.1),
    (2.5, 2.1, 3.6, 1.5),
    (2.2, 2.6, 3.2, 0.9),
    (2.3, 0.2, 2.6, -0.5),
]

# The walk between the patterns: so many bars, with so much drift a bar.
STORY = [
    (7, -0.4),
    MORNING_STAR,
    (2, 0.7),
    DOJI,
    (1, 0.6),
    DARK_CLOUD,
    (6, -1.3),
    HAMMER,
    BULLISH_ENGULFING,
    GAP,
    RISING_THREE,
    CANDLE,
    HARAMI,
    SEPARATING_LINES,
    TOWER_TOP,
    (1, -1.0),
    FALLING_SIX,
    COUNTERATTACK,
    (2, 1.0),
    THREE_DOJI,
    (1, 1.2),
    TWO_CROWS,
    (1, 1.5),
    THREE_CROWS,
    PIERCING,
    (2, 0.6),
]


def walk(rng, drift):
    """One bar of the walk, from the close before on."""
    opened = rng.uniform(-0.4, 0.4)
    close = opened + drift + rng.uniform(-1.1, 1.1)
    high = max(opened, close) + rng.uniform(0.1, 0.9)
    low = min(opened, close) - rng.uniform(0.1, 0.9)
    return (opened, close, high, low)


def main():
    rng = random.Random(SEED)
    last = FIRST
    lines = []
    for part in STORY:
        if isinstance(part, tuple):
            count, drift = part
            for _ in range(count):
                bar = [last + price for price in walk(rng, drift)]
                lines.append(",".join(f"{price:.2f}" for price in bar))
                last = round(bar[1], 2)
        else:
            bars = [[last + price for price in bar] for bar in part]
            lines += [",".join(f"{price:.2f}" for price in bar) for bar in bars]
            last = round(bars[-1][1], 2)
    path = Path(__file__).with_name("bars.csv")
    path.write_text("".join(line + "\n" for line in lines))
    print(f"{path.name}: {len(lines)} bars")


if __name__ == "__main__":
    main()
