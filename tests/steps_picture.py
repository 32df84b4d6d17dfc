"""For tests/steps_tool: a picture of tools/steps shows each record once, in its column and row; no two texts overlap; the way of the chosen share goes
through its cells. A text is taken to be 0.62 of its font size wide a character, from 0.8 of the size above its line to 0.25 below."""
import collections
import sys
import xml.etree.ElementTree

SVG = '{http://www.w3.org/2000/svg}'
Box = collections.namedtuple('Box', 'left top right bottom')


def same(what, seen, expected):
    if seen != expected:
        sys.exit('steps_tool: %s:\n    seen     %.600r\n    expected %.600r' % (what, seen, expected))


def holds(what, fact):
    same(what, bool(fact), True)


def row_label(record, n):
    if record.step == 'output':
        return 'output'
    if record.step == 'refreshed':
        pairs = ['(%d, %d)' % (i, m) for i in range(1, n) for m in range(i + 1, n + 1)]
        return 'pair %d %s: refreshed' % (record.round, pairs[record.round - 1])
    return 'round %d: %s' % (record.round, record.step)


def text_box(text):
    size, x, y = (float(text.get(name)) for name in ('font-size', 'x', 'y'))
    width = 0.62 * size * len(text.text)
    left = x - width / 2 if text.get('text-anchor') == 'middle' else x
    return Box(left, y - 0.8 * size, left + width, y + 0.25 * size)


def rect_box(rect):
    x, y, width, height = (float(rect.get(name)) for name in ('x', 'y', 'width', 'height'))
    return Box(x, y, x + width, y + height)


def apart(one, other):
    return one.right <= other.left or other.right <= one.left or one.bottom <= other.top or other.bottom <= one.top


def inside(box, outer):
    return box.left >= outer.left and box.right <= outer.right and box.top >= outer.top and box.bottom <= outer.bottom


class Picture:
    """A picture's texts, boxes and lines, by their class."""

    def __init__(self, svg):
        self.root = xml.etree.ElementTree.fromstring(svg.encode())
        same('the root', (self.root.tag, self.root.get('version')), (SVG + 'svg', '1.1'))
        self.of = collections.defaultdict(list)
        for part in self.root.iter():
            self.of[part.get('class')].append(part)
        self.texts = [(text, text_box(text)) for text in self.root.iter(SVG + 'text')]
        self.view = Box(*map(float, self.root.get('viewBox').split()))
        same('the size', (self.view[:2], self.root.get('width'), self.root.get('height')), ((0, 0), *self.root.get('viewBox').split()[2:]))

    def lines(self, name):
        return [[tuple(map(float, point.split(','))) for point in line.get('points').split()] for line in self.of[name]]

    def boxes(self, name):
        return [rect_box(rect) for rect in self.of[name]]


def check_texts(picture):
    """No two overlap, and none leaves the picture: texts on one line follow each other, and lines are apart."""
    rows = collections.defaultdict(list)
    for text, box in picture.texts:
        holds('a text within the picture', inside(box, picture.view))
        rows[text.get('y')].append(box)
    for boxes in rows.values():
        boxes.sort()
        holds('texts of a row apart', all(one.right < other.left for one, other in zip(boxes, boxes[1:])))
    bands = sorted((min(box.top for box in boxes), max(box.bottom for box in boxes)) for boxes in rows.values())
    holds('rows apart', all(one[1] <= other[0] for one, other in zip(bands, bands[1:])))


def check_headings(picture, sample, records):
    """The columns' x and the rows' y by which a record is found."""
    columns = sorted((float(text.get('x')), text.text) for text in picture.of['share'])
    same('the shares', [text for _, text in columns], [str(share + 1) for share in range(sample.n)] * (2 * sample.k))
    xs = [x for x, _ in columns]
    names = [text.text for text in sorted(picture.of['bit'], key=lambda text: float(text.get('x')))]
    same('the bits', names, list(dict.fromkeys(record.name for record in records)))
    for bit, text in enumerate(sorted(picture.of['bit'], key=lambda text: float(text.get('x')))):
        holds('a bit above its shares', xs[bit * sample.n] < float(text.get('x')) < xs[(bit + 1) * sample.n - 1])
    rows = sorted((float(text.get('y')), text.text) for text in picture.of['row'])
    same('the rows', [text for _, text in rows], list(dict.fromkeys(row_label(record, sample.n) for record in records)))
    return xs, {text: y for y, text in rows}


def check_values(picture, sample, records):
    """Each record has one text; answers its box."""
    xs, ys = check_headings(picture, sample, records)
    places = [(xs[r.bit * sample.n + r.share - 1], ys[row_label(r, sample.n)]) for r in records]
    drawn = {(float(text.get('x')), float(text.get('y'))): (text.text, text_box(text)) for text in picture.of['value']}
    same('the number of values', (len(picture.of['value']), len(drawn)), (len(records), len(records)))
    same('the values', [drawn.get(place, ('',))[0] for place in places], [str(record.value) for record in records])
    return {record: drawn[place][1] for record, place in zip(records, places)}


def check_way(picture, boxes, chosen):
    """A line for each bit goes through the chosen share's cells from b to output, and through no other text; each is in a box, the first 200 looked at in one of its own."""
    ways = picture.lines('way')
    same('the ways', len(ways), len({record.bit for record in chosen}))
    for bit, way in enumerate(ways):
        cells = [boxes[record] for record in chosen if record.bit == bit]
        same('the cells of a way', len(way), len(cells))
        holds('a way through its cells', all(cell.left < x < cell.right and cell.top < y < cell.bottom for (x, y), cell in zip(way, cells)))
        column = Box(way[0][0] - 1, way[0][1], way[0][0] + 1, way[-1][1])
        same('the texts on a way', sum(not apart(column, box) for _, box in picture.texts), len(cells))
    marks = picture.boxes('mark')
    same('the marks', len(marks), len(chosen))
    for mark, record in zip(marks, chosen):
        holds('a mark around its value', inside(boxes[record], mark))
    marked = sum(not apart(mark, box) for mark in marks[:200] for _, box in picture.texts)
    same('the texts in marks', marked, len(marks[:200]))


def check_carries(picture, boxes, chosen):
    """A line from each output to the next, clear of all texts; the last outputs are framed, and nothing else."""
    outputs = [boxes[record] for record in chosen if record.step == 'output']
    carries = picture.lines('carry')
    same('the lines between outputs', len(carries), len(outputs) - 1)
    for carry, one, other in zip(carries, outputs, outputs[1:]):
        start, end, heights = carry[0][0], carry[-1][0], [y for _, y in carry]
        centre = (one.left + one.right) / 2, (other.left + other.right) / 2
        holds('an output before the next', abs(start - centre[0]) < 30 and abs(end - centre[1]) < 30 and centre[0] < start < end < centre[1])
        lane = Box(start, min(heights), end, max(heights))
        holds('a line clear of texts', lane.top >= one.bottom and all(apart(lane, box) for _, box in picture.texts))
    frame, = picture.boxes('result')
    last = max(record.bit for record in chosen)
    framed = {record for record, box in boxes.items() if not apart(frame, box)}
    same('the frame', framed, {record for record in boxes if record.bit == last and record.step == 'output'})
    holds('the frame around the outputs', all(inside(boxes[record], frame) for record in framed))


def check_picture(sample, records, share, svg):
    picture = Picture(svg)
    check_texts(picture)
    same('the title', [text.text for text in picture.of['title']], ['A sample step by step: n %d, k %d, the way of share %d' % (sample.n, sample.k, share)])
    boxes = check_values(picture, sample, records)
    chosen = [record for record in records if record.share == share]
    check_way(picture, boxes, chosen)
    check_carries(picture, boxes, chosen)
