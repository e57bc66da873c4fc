#!/usr/bin/env python3
"""Draws a history and its labels, or a tally of them, as a picture.

    python3 draw.py [BARS LABELS CHART | TALLY PICTURE]

BARS has the lines that the programs labels and tally read, LABELS and TALLY those that they print;
CHART and PICTURE are SVG files. Without names both are drawn, from bars.csv and labels.csv to
chart.svg and from tally.csv to tally.svg beside this program. Of a longer history the newest 80
bars are drawn. The same files always give the same picture.
"""

import math
import re
import sys
from pathlib import Path
from xml.sax.saxutils import escape

WIDTH = 1200
LEFT, RIGHT = 58, 18  # LEFT is more where the prices are long
HEAD = 74  # the title and what the candles mean
AXIS = 52  # the ordinals
LEGEND_ROW = 20
LEGEND_COLUMNS = 3
CANDLES = 380  # from the highest price to the lowest
LEAST_ROOM = 20  # above the highest price, and below the lowest
MOST_BARS = 80
MOST_FONT = 11.0

TALLY_WIDTH = 720
TALLY_ROW = 20
NAME, LABEL, COUNTS = 46, 150, 246  # where the columns of a tally begin
LONGEST = 400  # the bar of the greatest count

UP, DOWN = "#0072b2", "#d55e00"  # told apart by colour-blind people too
INK, GREY, GRID, PAPER = "#222222", "#767676", "#e8e8e8", "#ffffff"
FONTS = (
    "'Noto Sans', 'Noto Sans CJK SC', 'Source Han Sans SC', 'PingFang SC', "
    "'Microsoft YaHei', 'WenQuanYi Zen Hei', sans-serif"
)

# By number: a short name, and the source's.
RECOGNISERS = [
    ("umbrella", "san_xing_xian"),
    ("engulfing", "ten_mo"),
    ("dark cloud", "wu_yun_gai_ding"),
    ("piercing", "ci_tou"),
    ("methods A", "san_fa_v20221118"),
    ("methods B", "san_fa_v20221115"),
    ("star", "xing_xian"),
    ("separating", "fen_shou_xian"),
    ("candle", "zhu_huo_xian"),
    ("harami", "yun_xian"),
    ("tweezers", "ping_tou"),
    ("two crows", "two_crow"),
    ("three crows", "three_crow"),
    ("doji", "szx"),
    ("three doji", "san_szx"),
    ("counter", "fan_ji_xian"),
    ("gap", "gap_yin_yang"),
    ("tower", "ta_xing"),
]

# By code.
LABELS = (
    "其他 任意 满足 锤子 上吊 看涨吞没 看跌吞没 上升三法 下降三法 5K 6K 7K 8K 9K 启明星 黄昏星 中间十字 "
    "下跌分手 上升分手 箭在弦 风中烛 看空 看多 底部 顶部 实体标准 常规 加强 半加强 蜻蜓十字线 墓碑十字线 "
    "长腿十字线 十字线 北方 看涨反击线 看跌反击线 向上跳空 向下跳空"
).split()
OTHER = LABELS[0]  # no pattern was seen

PRICE = re.compile(r"nan|-?[0-9]{1,9}(\.[0-9]{1,6})?")
LABEL_LINE = re.compile(r"([1-9][0-9]{0,6}),([0-9]|1[0-7]),([^,]+),([^,]+)")
COUNT_LINE = re.compile(r"([0-9]|1[0-7]),([^,]+),([1-9][0-9]{0,6})")
REFUSED_LINE = re.compile(r"refused,([0-9]+),([0-9]+)(?:,([1-4]))?")


class Unfit(Exception):
    """A file that cannot be drawn."""


def lines_of(path):
    try:
        text = path.read_bytes().decode("utf-8")
    except OSError as error:
        raise Unfit(f"{path}: {error.strerror}") from None
    except UnicodeDecodeError:
        raise Unfit(f"{path}: not UTF-8 text") from None
    lines = text.split("\n")
    if lines[-1] == "":
        lines.pop()
    return lines


def read_bars(path):
    """The bars, each a list of open, close, high and low."""
    bars = []
    for number, line in enumerate(lines_of(path), 1):
        fields = line.split(",")
        if len(fields) != 4 or not all(map(PRICE.fullmatch, fields)):
            raise Unfit(f"{path}, line {number}: not four prices: {line[:80]!r}")
        bars.append([float(field) for field in fields])
    if not bars:
        raise Unfit(f"{path}: no bars")
    return bars


def stop_at_refusal(path, number, line):
    refused = REFUSED_LINE.fullmatch(line)
    if refused:
        ordinal, refusal, field = refused.groups()
        where = f", field {field}" if field else ""
        raise Unfit(
            f"{path}, line {number}: line {ordinal} of the bars was refused "
            f"(refusal {refusal}{where})"
        )


def stop_unless_rising(path, number, line, before, place):
    if place <= before:
        raise Unfit(f"{path}, line {number}: out of order: {line!r}")


def read_labels(path, count):
    """Texts of labels by the ordinal of their bar."""
    labels = {}
    before = (0, -1)
    for number, line in enumerate(lines_of(path), 1):
        stop_at_refusal(path, number, line)
        match = LABEL_LINE.fullmatch(line)
        if not match or not {match[3], match[4]} <= set(LABELS):
            raise Unfit(f"{path}, line {number}: not ordinal,recogniser,v1,v2: {line[:80]!r}")
        place = (int(match[1]), int(match[2]))
        stop_unless_rising(path, number, line, before, place)
        before = place
        ordinal, recogniser = place
        if ordinal > count:
            raise Unfit(f"{path}, line {number}: bar {ordinal} of {count}: {line!r}")
        name = RECOGNISERS[recogniser][0]
        labels.setdefault(ordinal, []).append((name, f"{match[3]}/{match[4]}"))
    return labels


def read_tally(path):
    """Counts by recogniser and label, in their order, and what each recogniser's add up to."""
    tally = {}
    before = (-1, 0)
    for number, line in enumerate(lines_of(path), 1):
        stop_at_refusal(path, number, line)
        match = COUNT_LINE.fullmatch(line)
        if not match or match[2] not in LABELS:
            raise Unfit(f"{path}, line {number}: not recogniser,label,count: {line[:80]!r}")
        place = (int(match[1]), LABELS.index(match[2]))
        stop_unless_rising(path, number, line, before, place)
        before = place
        tally.setdefault(place[0], {})[match[2]] = int(match[3])
    if not tally:
        raise Unfit(f"{path}: no counts")
    sums = {sum(tally.get(k, {}).values()) for k in range(len(RECOGNISERS))}
    if len(sums) > 1:
        raise Unfit(f"{path}: the counts of the recognisers add up to {sorted(sums)}")
    return tally, sums.pop()


def number(value):
    """A coordinate, always written alike."""
    text = f"{value:.1f}"
    return "0.0" if text == "-0.0" else text


def width_of(text, size):
    """No less than the width of a text in the usual fonts."""
    return size * sum(1.0 if ord(char) > 0x2E80 else 0.58 for char in text)


class Scale:
    """Prices to heights: the highest price stands at top, the lowest at bottom."""

    def __init__(self, bars, top, bottom):
        prices = [price for bar in bars for price in bar if not math.isnan(price)] or [0.0]
        self.least, self.most = min(prices), max(prices)
        if self.least == self.most:
            self.least, self.most = self.least - 1.0, self.most + 1.0
        self.top, self.bottom = top, bottom

    def y(self, price):
        part = (price - self.least) / (self.most - self.least)
        return self.bottom - part * (self.bottom - self.top)

    def ticks(self, top, bottom):
        """Round prices between two heights, some 80 pixels apart, and their decimals."""
        per_pixel = (self.most - self.least) / (self.bottom - self.top)
        least = 60 * per_pixel
        power = math.floor(math.log10(least))
        step, power = next(
            (m * 10.0**p, p)
            for p in (power, power + 1)
            for m in (1, 2, 5)
            if m * 10.0**p >= least
        )
        low = self.least - (bottom - self.bottom) * per_pixel
        high = self.most + (self.top - top) * per_pixel
        first, last = math.ceil(low / step), math.floor(high / step)
        return [k * step for k in range(first, last + 1)], max(0, -power)


def place_labels(labels, edges, top, bottom, size):
    """Lays each label above or below its bar, where its column has more room.

    Gives (column, name, pair, height, whether above) for each label, and whether one goes beyond the
    top or the bottom.
    """
    placed = []
    is_high = is_low = False
    for column, texts in labels.items():
        above, below = edges[column]
        above, below = above - 7, below + 7
        for name, pair in texts:
            length = width_of(f"{name} {pair}", size)
            if above - top >= bottom - below:
                placed.append((column, name, pair, above, True))
                is_high |= above - length < top
                above -= length + 8
            else:
                placed.append((column, name, pair, below, False))
                is_low |= below + length > bottom
                below += length + 8
    return placed, is_high, is_low


def draw(bars, labels):
    first = max(0, len(bars) - MOST_BARS)  # bars before the first one that is drawn
    shown = bars[first:]
    labels = {o - 1 - first: texts for o, texts in labels.items() if o > first}
    left = LEFT
    scale = Scale(shown, 0, CANDLES)
    prices, decimals = scale.ticks(0, CANDLES)
    for price in prices:
        left = max(left, 20 + width_of(f"{price:.{decimals}f}", 11))
    step = min((WIDTH - left - RIGHT) / len(shown), 60.0)
    size = min(MOST_FONT, 0.68 * step)

    # Above and below the candles the plot grows until every label has room.
    above = below = LEAST_ROOM
    placed = None
    while placed is None:
        top, bottom = HEAD, HEAD + above + CANDLES + below
        scale = Scale(shown, top + above, bottom - below)
        edges = []
        for bar in shown:
            ys = [scale.y(p) for p in bar if not math.isnan(p)] or [(top + bottom) / 2]
            edges.append((min(ys), max(ys)))
        placed, is_high, is_low = place_labels(labels, edges, top + 4, bottom - 4, size)
        if is_high or is_low:
            placed = None
            above += 10 * is_high
            below += 10 * is_low

    rows = math.ceil(len(RECOGNISERS) / LEGEND_COLUMNS)
    full = bottom + AXIS + LEGEND_ROW * (rows + 1) + 20
    center = [left + step * (i + 0.5) for i in range(len(shown))]
    out = head(len(bars), first, sum(map(len, labels.values())))
    out += axes(scale, first, center, step, top, bottom)
    for bar, x in zip(shown, center):
        out += candle(bar, x, step, scale, bottom)
    out += texts_of(placed, center, size)
    out += legend(bottom + AXIS)
    return svg(WIDTH, full, "Candlestick patterns of a history", out)


def svg(width, height, title, content):
    out = [
        '<?xml version="1.0" encoding="UTF-8"?>',
        f'<svg xmlns="http://www.w3.org/2000/svg" width="{width}" height="{height}" '
        f'viewBox="0 0 {width} {height}" role="img" font-family="{FONTS}">',
        f"<title>{escape(title)}</title>",
        f'<rect width="{width}" height="{height}" fill="{PAPER}"/>',
        *content,
        "</svg>",
    ]
    return "\n".join(out) + "\n"


def text(x, y, content, size=12, fill=INK, more=""):
    return (
        f'<text x="{number(x)}" y="{number(y)}" font-size="{number(size)}" fill="{fill}"{more}>'
        f"{escape(content)}</text>"
    )


def head(count, first, labelled):
    what = f"bars {first + 1} to {count}, {labelled} labels"
    return [
        text(LEFT, 28, "Candlestick patterns", 18, INK, ' font-weight="600"'),
        text(LEFT, 50, f"{what}; each label stands in the column of its bar", 12, GREY),
        f'<rect x="{WIDTH - 232}" y="19" width="9" height="16" fill="{PAPER}" stroke="{UP}" '
        'stroke-width="1.5"/>',
        text(WIDTH - 216, 31.5, "close above open"),
        f'<rect x="{WIDTH - 232}" y="43" width="9" height="16" fill="{DOWN}" stroke="{DOWN}" '
        'stroke-width="1.5"/>',
        text(WIDTH - 216, 55.5, "close below open"),
        f'<path d="M{WIDTH - 98} 27H{WIDTH - 86}" stroke="{INK}" stroke-width="1.5"/>',
        text(WIDTH - 80, 31.5, "equal"),
    ]


def axes(scale, first, center, step, top, bottom):
    left, right = center[0] - step / 2, center[-1] + step / 2
    out = []
    prices, decimals = scale.ticks(top, bottom)
    for price in prices:
        y = scale.y(price)
        out.append(f'<path d="M{number(left)} {number(y)}H{number(right)}" stroke="{GRID}"/>')
        label = f"{price:.{decimals}f}"
        out.append(text(left - 8, y + 4, label, 11, GREY, ' text-anchor="end"'))
    every = 5 if step < 30 else 1
    for i, x in enumerate(center):
        ordinal = first + i + 1
        is_named = ordinal % every == 0 or i == 0
        length = 7 if is_named else 4
        out.append(f'<path d="M{number(x)} {bottom}v{length}" stroke="{GREY}"/>')
        if is_named:
            out.append(text(x, bottom + 19, str(ordinal), 11, GREY, ' text-anchor="middle"'))
    out += [
        f'<path d="M{number(left)} {top}V{bottom}H{number(right)}" fill="none" stroke="{GREY}"/>',
        text(left - 8, top - 7, "price", 11, GREY, ' text-anchor="end"'),
        text(left - 8, bottom + 19, "bar", 11, GREY, ' text-anchor="end"'),
    ]
    return out


def candle(bar, x, step, scale, bottom):
    opened, close, high, low = bar
    if any(map(math.isnan, bar)):
        return [text(x, bottom + 31, "nan", 9, GREY, ' text-anchor="middle"')]
    colour = UP if close > opened else DOWN if close < opened else INK
    ys = sorted([scale.y(high), scale.y(low)])
    y_top, y_bottom = sorted([scale.y(opened), scale.y(close)])
    wide = min(0.62 * step, 16.0)
    out = [
        f'<path d="M{number(x)} {number(ys[0])}V{number(ys[1])}" stroke="{colour}" '
        'stroke-width="1.5"/>'
    ]
    if close == opened:
        out.append(
            f'<path d="M{number(x - wide / 2)} {number(y_top)}h{number(wide)}" '
            f'stroke="{colour}" stroke-width="2"/>'
        )
    else:
        fill = PAPER if close > opened else DOWN
        out.append(
            f'<rect x="{number(x - wide / 2)}" y="{number(y_top)}" width="{number(wide)}" '
            f'height="{number(max(y_bottom - y_top, 1.0))}" fill="{fill}" stroke="{colour}" '
            'stroke-width="1.5"/>'
        )
    return out


def texts_of(placed, center, size):
    """Labels are read from below; a halo of paper keeps the grid off them."""
    out = [
        f'<g font-size="{number(size)}" fill="{INK}" stroke="{PAPER}" stroke-width="3" '
        'stroke-linejoin="round" paint-order="stroke">'
    ]
    for column, name, pair, y, is_above in placed:
        anchor = "start" if is_above else "end"
        out.append(
            f'<text transform="translate({number(center[column] + 0.36 * size)} {number(y)}) '
            f'rotate(-90)" text-anchor="{anchor}"><tspan fill="{GREY}">{escape(name)}</tspan> '
            f"{escape(pair)}</text>"
        )
    out.append("</g>")
    return out


def legend(top):
    out = [text(LEFT, top + 12, "Labels: recogniser v1/v2", 12, INK, ' font-weight="600"')]
    rows = math.ceil(len(RECOGNISERS) / LEGEND_COLUMNS)
    wide = (WIDTH - LEFT - RIGHT) / LEGEND_COLUMNS
    for k, (name, source) in enumerate(RECOGNISERS):
        x = LEFT + wide * (k // rows)
        y = top + 12 + LEGEND_ROW * (k % rows + 1)
        out.append(text(x + 18, y, str(k), 12, GREY, ' text-anchor="end"'))
        out.append(text(x + 28, y, name))
        out.append(text(x + 120, y, source, 12, GREY))
    return out


def draw_tally(tally, bars):
    """A row for each label that was given; 其他, which would dwarf the others, has none."""
    seen = {k: {label: n for label, n in c.items() if label != OTHER} for k, c in tally.items()}
    greatest = max([count for counts in seen.values() for count in counts.values()], default=1)
    out = tally_head(bars)
    y = HEAD
    for k, counts in sorted(seen.items()):
        out.append(f'<path d="M{NAME - 26} {y}H{TALLY_WIDTH - RIGHT}" stroke="{GRID}"/>')
        out += recogniser_of_tally(k, y)
        for label, count in counts.items() or [(None, 0)]:
            out += count_of_tally(label, count, LONGEST * count / greatest, y)
            y += TALLY_ROW
    return svg(TALLY_WIDTH, y + 20, "Tally of candlestick patterns", out)


def tally_head(bars):
    left = NAME - 26
    what = f"how many of {bars:,} bars got each first label"
    return [
        text(left, 28, "Tally of candlestick patterns", 18, INK, ' font-weight="600"'),
        text(left, 50, f"{what}; {OTHER} (no pattern), the rest, is left out", 12, GREY),
    ]


def recogniser_of_tally(k, y):
    base = y + 14
    return [
        text(NAME - 8, base, str(k), 12, GREY, ' text-anchor="end"'),
        text(NAME, base, RECOGNISERS[k][0]),
    ]


def count_of_tally(label, count, length, y):
    base = y + 14
    if label is None:
        return [text(LABEL, base, "none", 12, GREY)]
    return [
        text(LABEL, base, label),
        f'<rect x="{COUNTS}" y="{y + 4}" width="{number(length)}" height="{TALLY_ROW - 8}" '
        f'fill="{UP}"/>',
        text(COUNTS + length + 6, base, f"{count:,}"),
    ]


def chart_of(bars, labels):
    bars = read_bars(bars)
    return draw(bars, read_labels(labels, len(bars)))


def tally_of(tally):
    return draw_tally(*read_tally(tally))


def main(arguments):
    here = Path(__file__).parent
    beside = [["bars.csv", "labels.csv", "chart.svg"], ["tally.csv", "tally.svg"]]
    pictures = [arguments] if arguments else [[here / n for n in names] for names in beside]
    if len(pictures[0]) not in (2, 3):
        print("draw.py [BARS LABELS CHART | TALLY PICTURE]", file=sys.stderr)
        return 2
    for names in pictures:
        *files, picture = map(Path, names)
        try:
            content = (chart_of if len(files) == 2 else tally_of)(*files)
            picture.write_text(content, encoding="utf-8")
        except Unfit as unfit:
            print(f"draw.py: {unfit}", file=sys.stderr)
            return 1
        except OSError as error:
            print(f"draw.py: {picture}: {error.strerror}", file=sys.stderr)
            return 1
    return 0


if __name__ == "__main__":
    sys.exit(main(sys.argv[1:]))
