"""Pictures as SVG: panels beside each other, each with points over axes from 0."""

WIDTH, HEIGHT, LEFT, BOTTOM, TOP = 460, 320, 70, 60, 60


def ticks(most, count=5):
    step = 10 ** len(str(int(most / count)))
    for finer in (step / 10, step / 5, step / 4, step / 2, step):
        if most / finer <= count:
            step = finer
            break
    return [step * i for i in range(int(most / step) + 1)]


class Panel:
    """Axes, the panel's place from the left; the numbers at the second are of so many (scale)."""

    def __init__(self, place, most_x, most_y, scale):
        self.x, self.most_x, self.most_y, self.scale = WIDTH * place, most_x, most_y, scale

    def at(self, x, y):
        wide, high = WIDTH - LEFT - 20, HEIGHT - BOTTOM - TOP
        return self.x + LEFT + wide * x / self.most_x, HEIGHT - BOTTOM - high * y / self.most_y

    def axes(self, below):
        x0, y0 = self.at(0, 0)
        x1, y1 = self.at(self.most_x, self.most_y)
        yield f'<path d="M{x0:.0f} {y1:.0f}V{y0:.0f}H{x1:.0f}" fill="none" stroke="#444"/>'
        for each in ticks(self.most_x):
            x, _ = self.at(each, 0)
            yield f'<text x="{x:.0f}" y="{y0 + 16:.0f}" text-anchor="middle">{each:g}</text>'
        for each in ticks(self.most_y):
            _, y = self.at(0, each)
            yield f'<path d="M{x0:.0f} {y:.1f}H{x1:.0f}" stroke="#ddd"/>'
            yield f'<text x="{x0 - 6:.0f}" y="{y + 4:.0f}" text-anchor="end">{each / self.scale:g}</text>'
        yield f'<text x="{(x0 + x1) / 2:.0f}" y="{y0 + 34:.0f}" text-anchor="middle">{below}</text>'


def panel(place, below, series, scale=1, most_y=0):
    """The parts of a panel: series are names, colours and points."""
    points = [point for _, _, points in series for point in points]
    axes = Panel(place, max(x for x, _ in points), max(most_y, *(y for _, y in points)), scale)
    yield from axes.axes(below)
    for line, (name, colour, points) in enumerate(series):
        for point in points:
            x, y = axes.at(*point)
            yield f'<circle cx="{x:.1f}" cy="{y:.1f}" r="2.2" fill="{colour}"/>'
        y = TOP - 8 - 16 * (len(series) - 1 - line)
        yield f'<circle cx="{axes.x + LEFT + 8}" cy="{y - 4}" r="4" fill="{colour}"/>'
        yield f'<text x="{axes.x + LEFT + 18}" y="{y}">{name}</text>'


def save(svg, caption, *panels):
    head = [f'<svg xmlns="http://www.w3.org/2000/svg" width="{len(panels) * WIDTH}" height="{HEIGHT}" font-family="sans-serif" font-size="12">',
            '<rect width="100%" height="100%" fill="white"/>', f'<text x="12" y="18">{caption}</text>']
    svg.write_text("\n".join([*head, *(part for each in panels for part in each), "</svg>\n"]), encoding="utf-8")
    print(f"drawn: {svg}")
