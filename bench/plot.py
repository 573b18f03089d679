#!/usr/bin/env python3
"""Draws what `moves` wrote (standard input) as an SVG (standard output): bars of moves a request, curves of moves so far; by the rules in
both profiles, and with even spacing."""

import sys
from collections import defaultdict

STYLE = """
  text { font: 13px sans-serif; fill: #24292f; } .paper { fill: #ffffff; } .small { font-size: 12px; } .head { font-weight: bold; }
  .grid { stroke: #d0d7de; } .axis { stroke: #57606a; } .line { fill: none; stroke-width: 2.2; }
  .rules { fill: #0969da; } .even { fill: #d4781c; } .second { fill: #1a7f37; } .line.rules { fill: none; stroke: #0969da; }
  .line.even { fill: none; stroke: #d4781c; stroke-dasharray: 6 4; } .line.second { fill: none; stroke: #1a7f37; stroke-dasharray: 2 3; }
  @media (prefers-color-scheme: dark) {
    text { fill: #e6edf3; } .paper { fill: #0d1117; } .grid { stroke: #30363d; } .axis { stroke: #8b949e; }
    .rules { fill: #58a6ff; } .even { fill: #f0a050; } .second { fill: #3fb950; }
    .line.rules { stroke: #58a6ff; } .line.even { stroke: #f0a050; } .line.second { stroke: #3fb950; }
  }"""
WIDTH, BARS_LEFT, BARS_TOP, BAND = 800, 190, 80, 62     # the bars, a band to each pattern
KINDS = ('rules', 'second', 'even')                     # what a bar or a curve is of
CURVES = ('sequential up', 'random', 'thirty behind one moment')
PANEL, PANEL_HEIGHT, PANEL_LEFT = 250, 170, 60          # the curves, a panel to each


def text(x, y, words, anchor='start', kind='', turn=''):
    return f'<text x="{x:.1f}" y="{y:.1f}" text-anchor="{anchor}" class="{kind}"{turn}>{words}</text>'


def line(x1, y1, x2, y2, kind):
    return f'<line x1="{x1:.1f}" y1="{y1:.1f}" x2="{x2:.1f}" y2="{y2:.1f}" class="{kind}"/>'


def bar(x, y, width, kind):
    return f'<rect x="{x:.1f}" y="{y:.1f}" width="{width:.1f}" height="16" class="{kind}"/>'


def legend():
    words = ('by the rules, profile 1', 'profile 2 (dotted below)', 'even spacing (dashed below)')
    places = [BARS_LEFT + 190 * n for n in range(len(KINDS))]
    return ([bar(x, 36, 16, kind) for x, kind in zip(places, KINDS)]
            + [text(x + 23, 49, word) for x, word in zip(places, words)])


def bars(patterns):
    """A bar of each kind to each pattern; patterns: the name, and the moves of each kind, a request."""
    bottom = BARS_TOP + BAND * len(patterns)
    top = 10 * (1 + int(max(max(p[1:]) for p in patterns) // 10))
    scale = (WIDTH - BARS_LEFT - 60) / top
    out = [text(16, 24, 'Moves a request, by pattern', kind='head')] + legend()
    for tick in range(0, top + 1, 10):
        x = BARS_LEFT + tick * scale
        out += [line(x, BARS_TOP - 6, x, bottom, 'grid'), text(x, bottom + 17, tick, 'middle', 'small')]
    for n, (name, *each) in enumerate(patterns):
        y = BARS_TOP + BAND * n
        out.append(text(BARS_LEFT - 10, y + 30, name, 'end'))
        for m, (kind, moves) in enumerate(zip(KINDS, each)):
            out += [bar(BARS_LEFT, y + 17 * m, moves * scale, kind),
                    text(BARS_LEFT + moves * scale + 6, y + 13 + 17 * m, f'{moves:.1f}', kind='small')]
    out += [line(BARS_LEFT, BARS_TOP - 6, BARS_LEFT, bottom, 'axis'),
            text(BARS_LEFT + top * scale / 2, bottom + 36, 'moves a request, from an empty list of 4,096 slots', 'middle')]
    return out, bottom + 70


def curve(name, points, left, top, most):
    """Moves so far over requests; points: the request, and the moves of each kind; most: the highest moves of all panels."""
    bottom, last = top + PANEL_HEIGHT, 2048
    across, up = (PANEL - 46) / last, PANEL_HEIGHT / most
    out = [text(left, top - 10, name, kind='small head')]
    for tick in range(0, most + 1, 20000):
        y = bottom - tick * up
        out += [line(left, y, left + last * across, y, 'grid'), text(left - 6, y + 4, f'{tick // 1000}', 'end', 'small')]
    for tick in (0, 1024, 2048):
        out.append(text(left + tick * across, bottom + 17, f'{tick:,}', 'middle', 'small'))
    for n, kind in reversed(list(enumerate(KINDS, 1))):
        path = ' '.join(f'{left + p[0] * across:.1f},{bottom - p[n] * up:.1f}' for p in [(0, 0, 0, 0)] + points)
        out.append(f'<polyline points="{path}" class="line {kind}"/>')
    return out + [line(left, top, left, bottom, 'axis'), line(left, bottom, left + last * across, bottom, 'axis'),
                  text(left + last * across / 2, bottom + 36, 'requests', 'middle')]


def curves(points, top):
    most = 20000 * (1 + max(max(p[1:]) for name in CURVES for p in points[name]) // 20000)
    middle = top + 40 + PANEL_HEIGHT / 2
    out = [text(16, top, 'Moves so far, over the requests', kind='head'),
           text(22, middle, 'thousand moves', 'middle', turn=f' transform="rotate(-90 22 {middle})"')]
    for n, name in enumerate(CURVES):
        out += curve(name, points[name], PANEL_LEFT + PANEL * n, top + 40, most)
    return out, top + 40 + PANEL_HEIGHT + 50


def main():
    patterns, points = [], defaultdict(list)
    for row in sys.stdin:
        kind, name, *numbers = row.rstrip('\n').split('\t')
        numbers = [int(n) for n in numbers]
        if kind == 'curve':
            request, rules, even, second = numbers
            points[name].append((request, rules, second, even))
        elif kind == 'pattern':
            requests, _, moves, _, even, _ = numbers
            patterns.append((name, moves / requests, points[name][-1][2] / requests, even / requests))
    above, below = bars(patterns)
    under, height = curves(points, below)
    print(f'<svg xmlns="http://www.w3.org/2000/svg" viewBox="0 0 {WIDTH} {height}" width="{WIDTH}" height="{height}">')
    print(f'<title>Moves a request by the rules, in both profiles, and with even spacing</title>\n<style>{STYLE}\n</style>')
    print(f'<rect width="{WIDTH}" height="{height}" class="paper"/>')
    print('\n'.join(above + under) + '\n</svg>')


if __name__ == '__main__':
    main()
