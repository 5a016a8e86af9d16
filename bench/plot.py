"""Plots as SVG, readable on a light ground and on a dark one: ratios on a scale of powers of two, and dots on a line."""
import math
from xml.sax.saxutils import escape

# The colours of a light ground and of a dark one; each series has a shape of its own too.
STYLE = '''<style>
text { font: 11px sans-serif; fill: #1f2328 }
.ground { fill: #ffffff }
.line { stroke: #d1d9e0 }
.one { stroke: #59636e; stroke-width: 1.5 }
.s0 { fill: #0969a8 } .s1 { fill: #d1580a } .s2 { fill: #1a7f4e } .s3 { fill: #9a45b0 } .s4 { fill: #8a6a00 } .s5 { fill: #b3214a }
@media (prefers-color-scheme: dark) {
text { fill: #e6edf3 }
.ground { fill: #0d1117 }
.line { stroke: #30363d }
.one { stroke: #9198a1 }
.s0 { fill: #58a6ff } .s1 { fill: #ff9b50 } .s2 { fill: #4fc37f } .s3 { fill: #d89cf0 } .s4 { fill: #e3c04d } .s5 { fill: #ff8fa8 }
}
</style>'''
SHAPES = [
    lambda x, y: '<circle cx="%.1f" cy="%.1f" r="4.5"' % (x, y),
    lambda x, y: '<rect x="%.1f" y="%.1f" width="8" height="8"' % (x - 4, y - 4),
    lambda x, y: '<path d="M%.1f %.1fl5 9h-10z"' % (x, y - 5),
    lambda x, y: '<path d="M%.1f %.1fl5.5 5.5l-5.5 5.5l-5.5 -5.5z"' % (x, y - 5.5),
    lambda x, y: '<path d="M%.1f %.1fl-5 -9h10z"' % (x, y + 5),
    lambda x, y: '<rect x="%.1f" y="%.1f" width="10" height="4"' % (x - 5, y - 2),
]


def mark(number, x, y, words):
    """The mark of a series, with words that show where it is pointed at."""
    at = number % len(SHAPES)
    return '%s class="s%d"><title>%s</title></%s>' % (SHAPES[at](x, y), at, escape(words), SHAPES[at](x, y)[1:].split(' ', 1)[0])


def text(x, y, words, anchor='start'):
    return '<text x="%.1f" y="%.1f" text-anchor="%s">%s</text>' % (x, y, anchor, escape(words))


def line(x, y, to_x, to_y, kind='line'):
    return '<line x1="%.1f" y1="%.1f" x2="%.1f" y2="%.1f" class="%s"/>' % (x, y, to_x, to_y, kind)


def legend(names, x, y):
    parts = []
    for number, name in enumerate(names):
        parts += [mark(number, x + 5, y - 4, name), text(x + 15, y, name)]
        x += 35 + 7 * len(name)
    return parts


def drawing(title, width, height, parts):
    head = '<svg xmlns="http://www.w3.org/2000/svg" width="%d" height="%d" viewBox="0 0 %d %d" role="img">' % (width, height, width, height)
    ground = '<rect class="ground" width="%d" height="%d"/>' % (width, height)
    return '\n'.join([head, '<title>%s</title>' % escape(title), STYLE, ground, text(10, 18, title)] + parts + ['</svg>', ''])


def ratio(power):
    return '%d' % 2 ** power if power >= 0 else '1/%d' % 2 ** -power


def ratios(title, names, rows, left=250, width=820):
    """A mark for each ratio of each row, on a scale of powers of two with a line at 1. A row is its name and a ratio (or none) for each of the names."""
    found = [math.log2(one) for _, row in rows for one in row if one] or [0]
    low, high = min(math.floor(min(found)), -1), max(math.ceil(max(found)), 1)
    scale, step, top = (width - left - 40) / (high - low), 18, 64
    bottom = top + step * len(rows)
    parts = legend(names, 10, 40)
    for power in range(low, high + 1):
        x = left + (power - low) * scale
        parts += [line(x, top - 10, x, bottom, 'line' if power else 'one'), text(x, bottom + 14, ratio(power), 'middle')]
    for number, (name, row) in enumerate(rows):
        y = top + number * step
        parts.append(text(left - 12, y + 4, name, 'end'))
        for i, one in reversed(list(enumerate(row))):
            if one:
                parts.append(mark(i, left + (math.log2(one) - low) * scale, y, '%s: %.2f' % (names[i], one)))
    return drawing(title, width, bottom + 24, parts)


def dots(title, names, rows, low, high, left=360, width=820):
    """A mark for each figure of each row, on a line from the lowest to the highest. Figures outside stand at its ends."""
    scale = (width - left - 40) / (high - low)
    step, top = 14, 64
    bottom = top + step * len(rows)
    parts = legend(names, 10, 40)
    tick = low
    while tick <= high + 0.001:
        x = left + (tick - low) * scale
        parts += [line(x, top - 10, x, bottom), text(x, bottom + 14, '%.1f' % tick, 'middle')]
        tick += 0.5
    for number, (name, row) in enumerate(rows):
        y = top + number * step
        parts.append(text(left - 8, y + 4, name.replace('`', ''), 'end'))
        for i, figure in reversed(list(enumerate(row))):
            if figure:
                parts.append(mark(i, left + (min(max(figure, low), high) - low) * scale, y, '%s: %.2f' % (names[i], figure)))
    return drawing(title, width, bottom + 24, parts)
