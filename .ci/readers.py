"""What a page of `burnt` has for every reader (RULES, Floor log): in which language it is, a title, its place on a phone,
names for pictures, heads for cells, colours apart, dark and print, and nothing from elsewhere. `faults(text)` gives what
is wrong with a page, in words; `marks(text)` the least contrasts."""
import re
from html.parser import HTMLParser

VOID = {'meta', 'br', 'col', 'link', 'img', 'input', 'hr'}
TEXT_LEAST, MARK_LEAST = 4.5, 3.0


class Element:
    def __init__(self, name, attributes, around):
        self.name, self.attributes, self.around = name, dict(attributes), around
        self.inside, self.text = [], ''

    def all(self, name=None):
        for element in self.inside:
            if name in (None, element.name):
                yield element
            yield from element.all(name)

    def words(self):
        return (self.text + ' ' + ' '.join(e.words() for e in self.inside)).strip()


class Page(HTMLParser):
    def __init__(self, text):
        super().__init__()
        self.root = self.open = Element('', [], None)
        self.feed(text)
        self.close()

    def handle_starttag(self, name, attributes):
        element = Element(name, attributes, self.open)
        self.open.inside.append(element)
        if name not in VOID:
            self.open = element

    def handle_startendtag(self, name, attributes):
        self.open.inside.append(Element(name, attributes, self.open))

    def handle_endtag(self, name):
        if self.open.name == name:
            self.open = self.open.around

    def handle_data(self, data):
        self.open.text += data


def rules(style):
    """Each rule with the medium that it is for, '' for all: (medium, selectors, properties)."""
    found, medium, at = [], '', 0
    for match in re.finditer(r'(@media[^{]*)\{|([^{}]+)\{([^{}]*)\}|\}', style):
        if style[at:match.start()].strip():
            raise ValueError(f'not read: {style[at:match.start()]!r}')
        at = match.end()
        if match[1]:
            medium = match[1].removeprefix('@media').strip()
        elif match[2]:
            properties = dict(part.split(':', 1) for part in match[3].strip().split(';') if part)
            found += [(medium, selector.strip(), properties) for selector in match[2].split(',')]
        else:
            medium = ''
    return found


def luminance(colour):
    if not re.fullmatch('#[0-9a-f]{6}', colour):
        raise ValueError(f'no colour: {colour}')
    parts = [int(colour[k:k + 2], 16) / 255 for k in (1, 3, 5)]
    red, green, blue = [p / 12.92 if p <= .04045 else ((p + .055) / 1.055) ** 2.4 for p in parts]
    return .2126 * red + .7152 * green + .0722 * blue


def contrast(one, other):
    """As WCAG 2.2 has it."""
    high, low = sorted([luminance(one), luminance(other)], reverse=True)
    return (high + .05) / (low + .05)


def said(found, media, selector, name):
    """What the last rule for these media says of a selector."""
    values = [p[name] for medium, of, p in found if medium in media and of == selector and name in p]
    return values[-1] if values else None


def contrasts(style):
    """(what, the least that it has to be, what it is), in light, which is print too, and in dark."""
    found, every = rules(style), []
    for scheme, media in [('light', {''}), ('dark', {'', 'screen and (prefers-color-scheme:dark)'})]:
        def of(selector, name):
            colour = said(found, media, selector, name)
            if colour is None:
                raise ValueError(f'{selector} has no {name}')
            return colour
        ground, band = of('body', 'background'), of('.b', 'fill')
        border = of('td', 'border' if scheme == 'light' else 'border-color').split()[-1]
        every += [
            (f'{scheme}: text', TEXT_LEAST, contrast(of('body', 'color'), ground)),
            (f'{scheme}: a bar on its band', MARK_LEAST, contrast(of('.l', 'fill'), band)),
            (f'{scheme}: a bar on the page', MARK_LEAST, contrast(of('.l', 'fill'), ground)),
            (f'{scheme}: a stripe on its bar', MARK_LEAST, contrast(of('.m', 'fill'), of('.l', 'fill'))),
            (f'{scheme}: an hour on a band', MARK_LEAST, contrast(of('.h', 'stroke'), band)),
            (f'{scheme}: a band\'s edge', MARK_LEAST, contrast(of('.b', 'stroke'), ground)),
            (f'{scheme}: a cell\'s edge', MARK_LEAST, contrast(border, ground)),
        ]
    return every


def faults(text):
    """What is wrong with a page."""
    wrong = []

    def ask(holds, words):
        if not holds:
            wrong.append(words)
    html = next(Page(text).root.all('html'), None)
    if html is None:
        return ['it has no element html']
    all_of = lambda name: list(html.all(name))
    ask(html.attributes.get('lang') == 'en', 'it does not say that it is in English')
    ask([t.words() for t in all_of('title') if t.around.name == 'head'] not in ([], ['']), 'it has no title')
    viewport = [m.attributes.get('content') for m in all_of('meta') if m.attributes.get('name') == 'viewport']
    ask(viewport == ['width=device-width,initial-scale=1'], 'a phone shows it as on a wide screen')
    ask(len(all_of('main')) == 1 and len(all_of('h1')) == 1, 'it has not one main part with one heading')
    for name in ['script', 'link', 'img', 'iframe', 'object', 'embed', 'base', 'form']:
        ask(not all_of(name), f'it has an element {name}')
    for element in html.all():
        for name, value in element.attributes.items():
            ask(not name.startswith('on') and name not in ('src', 'href', 'tabindex', 'title'), f'{element.name} has {name}')
            ask('url(' not in (value or ''), f'{element.name} takes something from elsewhere')
    # pictures: each with a name of its own
    names = []
    for picture in all_of('svg'):
        ask(picture.attributes.get('role') == 'img', 'a picture is none for a screen reader')
        names.append(picture.attributes.get('aria-label', '').strip())
        ask(not list(picture.all('text')), 'a picture has text in it, which shrinks with it')
    ask('' not in names, 'a picture has no name')
    ask(len(names) == len(set(names)), 'two pictures have one name')
    # tables: a name, heads of columns and rows
    for table in all_of('table'):
        ask(table.inside and table.inside[0].name == 'caption' and table.inside[0].words(), 'a table has no name')
        ask([part.name for part in table.inside[1:]] == ['thead', 'tbody'], 'a table has not one head and one body')
        for head in table.all('th'):
            ask(head.attributes.get('scope') in ('col', 'row'), 'a head does not say of what it is one')
            ask(head.words(), 'a head is empty')
        wide = None
        for row in table.all('tr'):
            ask(row.inside and row.inside[0].name == 'th', 'a row has no head')
            cells = sum(int(cell.attributes.get('colspan', 1)) for cell in row.inside)
            ask(wide in (None, cells), 'a row has more cells than another, or fewer')
            wide = cells
    # terms, each with what is said of it
    for terms in all_of('dl'):
        ask([part.name for part in terms.inside] == ['dt', 'dd'] * (len(terms.inside) // 2), 'a term has nothing said of it')
        ask(all(part.words() for part in terms.inside), 'a term is empty, or nothing is said of it')
    # a stripe is said in words too
    is_marked = any(', over ' in title.words() for title in all_of('title'))
    legends = [p for p in all_of('p') if p.words().startswith('A bar with a stripe ')]
    ask(not is_marked or len(legends) == 1, 'it does not say what a stripe says')
    for bar in all_of('rect'):
        if bar.attributes.get('class') == 'm':
            ask(float(bar.attributes['height']) < 16, 'a stripe hides its bar')
    # styles
    style = '\n'.join(s.text for s in all_of('style'))
    ask('url(' not in style and '@import' not in style, 'a style takes something from elsewhere')
    ask('outline' not in style, 'a style takes the mark of the focus away')
    try:
        found = rules(style)
        for what, least, is_now in contrasts(style):
            ask(is_now >= least, f'{what} has a contrast of {is_now:.2f} to 1, under {least}')
        ask(said(found, {'screen'}, ':root', 'color-scheme') == 'light dark', 'it leaves its dark colours to a guess')
        ask(said(found, {'print'}, 'thead', 'display') == 'table-header-group', 'the hours are not on every page of paper')
        ask(said(found, {'print'}, 'tr', 'break-inside') == 'avoid', 'a row breaks between two pages of paper')
        for mark in ['.b', '.l', '.m']:
            ask(said(found, {'print'}, mark, 'print-color-adjust') == 'exact', f'{mark} is not printed')
            ask(said(found, {'(forced-colors:active)'}, mark, 'fill'), f'{mark} is not seen in forced colours')
        ask(said(found, {''}, 'svg', 'width') == '100%', 'a picture is not as wide as there is room')
    except (ValueError, KeyError) as error:
        wrong.append(f'its styles are not understood: {error}')
    return wrong


# Pages that someone might write, each of which has to be refused: what is replaced, by what.
SPOILT = [
    (' lang="en"', ''),
    ('<title>', '<title></title><b>'),
    ('<meta name="viewport" content="width=device-width,initial-scale=1">', ''),
    (' scope="col"', ''),
    (' scope="row"', ''),
    (' role="img"', ''),
    (re.compile(' aria-label="[^"]*"'), ' aria-label="a day"'),
    (re.compile(' aria-label="[^"]*"'), ''),
    (re.compile('<caption>[^<]*</caption>'), ''),
    ('color:#111111', 'color:#8a8a8a'),
    ('.h{stroke:#767676}', '.h{stroke:#bbbbbb}'),
    ('.l{fill:#0b5394', '.l{fill:#a0c4e8'),
    ('.l{fill:#6fb7f2', '.l{fill:#0b5394'),
    ('color:#eeeeee;background:#111111', 'color:#000000;background:#111111'),
    (':root{color-scheme:light dark}', ''),
    ('thead{display:table-header-group}', ''),
    ('tr,svg{break-inside:avoid}', ''),
    ('-webkit-print-color-adjust:exact;print-color-adjust:exact', 'color:#111111'),
    ('.l{fill:CanvasText', '.l{stroke-width:1'),
    ('svg{display:block;width:100%}', 'svg{display:block}'),
    ('</main>', '<script>1</script></main>'),
    ('</main>', '<img src="x.png"></main>'),
    ('<td colspan="3">', '<td>'),
    ('.m{fill:#ffffff}', '.m{fill:#3d7ab5}'),
    ('.m{fill:#111111}', '.m{fill:#4f8fc2}'),
    ('.m{fill:Canvas}', ''),
    ('.b,.l,.m{-webkit', '.b,.l{-webkit'),
    ('<p>A bar with a stripe ', '<p>A bar '),
    (re.compile('<dd>[^<]*</dd>'), '<dd></dd>'),
    (re.compile('<dt>[^<]*</dt>'), ''),
    ('<rect class="m" height="4"', '<rect class="m" height="16"'),
    ('<th ', '<th title="more" '),
]
