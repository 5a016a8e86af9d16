"""The page to try the library on, in headless Chromium: what is typed is marked and shown, nothing of it is run, and nothing is loaded from elsewhere."""
import json
import socket
import threading
import time
import unittest
from unittest import mock
from urllib.parse import quote

import browser
from markdown_inline import play
from markdown_inline.inline import Kind, html, text

HOSTILE = [
    '<script>document.title = "run"</script>', '</iframe><script>top.document.title = "run"</script>', '<img src=x onerror="top.document.title = \'run\'">', '[a](javascript:top.document.title=1)',
    '</textarea></pre></style></template><b>x</b>', '<svg/onload=alert(1)>', '"><script>alert(1)</script>', '<!--', '<!--><script>alert(1)</script>', '<base href="http://127.0.0.1:1/">',
    '<style>body{display:none}</style>', '<meta http-equiv="refresh" content="0;url=http://127.0.0.1:1/">', '<form action="http://127.0.0.1:1/"><input autofocus onfocus=alert(1)>',
    '<iframe srcdoc="<script>top.document.title=1</script>"></iframe>', '<a href="javascript:alert(1)" target=_top>x</a>', '&lt;script&gt;', '<plaintext>', '\u202e\u0001<x>', '<title>',
]
# What the page says of the text that it shows.
SHOWN = '''(() => ({
  marked: document.getElementById('marked').textContent, tree: [...document.querySelectorAll('#tree li')].map(it => it.textContent), why: document.getElementById('why').hidden ? null : document.getElementById('why').textContent,
  boxes: [...document.querySelectorAll('#marked span')].map(it => it.title || it.dataset.name + ' ' + it.textContent), events: document.getElementById('events').textContent,
  html: document.getElementById('html').textContent, frame: document.getElementById('shown').srcdoc, hidden: document.querySelector('.result').hidden, most: document.getElementById('most').hidden ? '' : document.getElementById('most').innerText }))()'''


@unittest.skipUnless(browser.FOUND, 'no browser')
class OnThePage(unittest.TestCase):
    @classmethod
    def setUpClass(cls):
        cls.server = play.Server(0)
        cls.url = cls.server.url
        cls.thread = threading.Thread(target=cls.server.serve_forever)
        cls.thread.start()
        cls.browser = browser.Browser()

    @classmethod
    def tearDownClass(cls):
        cls.browser.close()
        cls.server.shutdown()
        cls.server.server_close()
        cls.thread.join()

    def setUp(self):
        self.browser.events.clear()
        self.page = self.opened()

    def tearDown(self):
        """Nothing fails on the page, and nothing is loaded but the page and its answers."""
        self.page.value('0')
        self.assertEqual([it['params'] for it in self.browser.events if it['method'] == 'Runtime.exceptionThrown'], [])
        loaded = {it['params']['request']['url'].split('#')[0] for it in self.browser.events if it['method'] == 'Network.requestWillBeSent'}
        self.assertLessEqual(loaded - {'about:srcdoc', 'about:blank'}, {self.url, self.url + 'read'})

    def opened(self, state=None):
        page = self.browser.open(self.url + ('#' + quote(json.dumps(state)) if state else ''))
        page.wait('document.body?.dataset.shown')
        return page

    def typed(self, words, page=None):
        """What is shown after these words are typed in the place of all that stood there."""
        page = page or self.page
        page.value("document.getElementById('text').focus(); document.getElementById('text').select(); delete document.body.dataset.shown")
        page.type(words)
        page.wait('document.body.dataset.shown')
        return page.value(SHOWN)

    def test_what_is_typed(self):
        for words in ('a *b* **c _d_**', 'é `漢` [😀](/e "f\ng") &amp; \\*', '\ta<b>', '[](c)'):
            shown, found = self.typed(words), text(words)
            self.assertEqual((shown['marked'], shown['events'], shown['html'], shown['why']), (words, '\n'.join(map(str, found)), html(words), None))
            document = words.encode()
            wanted = ['%s %s' % (found[at].name, document[start:end].decode()) for at, (_, start, end, _) in zip(
                (at for at, it in enumerate(found) if it.kind == Kind.Enter), found.spans())]
            self.assertEqual(shown['boxes'], wanted)
            self.assertEqual([it.split()[0] for it in shown['tree']], [it.split()[0] for it in wanted])
            self.assertIn('<p>', shown['frame'])

    def test_why_nothing_is_shown(self):
        self.assertTrue(self.typed('a\n')['hidden'])
        self.assertEqual(self.page.value(SHOWN)['why'], 'The text ends with a line ending. A paragraph ends without one.')
        self.assertIn('Line 2 is blank', self.typed('a\n\nb')['why'])
        self.assertEqual(self.typed('a')['why'], None)

    def test_switches_and_definitions(self):
        self.typed('~a~ $b$ [c] <d> [^e] [f](g:h)')
        self.page.value("document.getElementById('options').open = true; document.querySelector('[data-set=\"gfm math\"]').click(); document.getElementById('raw').click(); document.getElementById('any').click();"
                        "const [label, to, title] = document.querySelectorAll('#definitions input'); label.value = 'C'; to.value = '/to'; title.value = 't'; document.getElementById('footnotes').value = 'e';"
                        "delete document.body.dataset.shown; title.dispatchEvent(new Event('input', {bubbles: true}))")
        self.page.wait('document.body.dataset.shown')
        wanted = html('~a~ $b$ [c] <d> [^e] [f](g:h)', gfm=True, math=True, definitions={'C': ('/to', 't')}, footnotes=['e'], html='raw', any_link=True)
        self.assertEqual(self.page.value(SHOWN)['html'], wanted)
        self.assertEqual(self.page.value("document.querySelectorAll('#definitions input').length"), 6)
        # The link holds all of it.
        other = self.browser.open(self.page.value("document.getElementById('link').href"))
        other.wait('document.body?.dataset.shown')
        self.assertEqual(other.value(SHOWN)['html'], wanted)
        for name in self.page.value("[...document.querySelectorAll('input[name]')].map(it => it.name)"):
            self.page.value("delete document.body.dataset.shown; document.querySelector('[name=%s]').click()" % name)
            self.page.wait('document.body.dataset.shown')

    def test_links_to_texts(self):
        self.assertEqual(self.opened({'text': 'é\n*b* #%'}).value(SHOWN)['marked'], 'é\n*b* #%')
        for state in ({'text': 5}, {'no': 1}, {'text': 'a', 'options': 5}, {'text': 'a', 'definitions': [[1]]}, 5):
            self.opened(state)
        for hash in ('%', 'abc', '%7B'):
            page = self.browser.open(self.url + '#' + hash)
            page.wait('document.body?.dataset.shown')
            self.assertEqual(page.value(SHOWN)['why'], 'The link holds no text of this page.')
            self.assertEqual(self.typed('a *b*', page)['why'], None)

    def test_hostile_texts(self):
        for raw in (False, True):
            self.page.value("document.getElementById('raw').checked = document.getElementById('any').checked = %s" % json.dumps(raw))
            for words in HOSTILE + [' '.join(HOSTILE)]:
                shown = self.typed(words)
                self.assertEqual((shown['marked'], shown['html']), (words, html(words, html='raw' if raw else 'escape', any_link=raw)))
                self.assertEqual(self.page.value("[document.title, document.querySelectorAll('script, iframe, img, b').length - document.querySelectorAll('#tree b, #path b').length, document.baseURI]"), [
                    'markdown_inline: try a paragraph', 3, self.url])
        time.sleep(0.3)
        self.assertEqual(self.page.value('document.title'), 'markdown_inline: try a paragraph')

    def test_nothing_is_asked_of_other_machines(self):
        """What raw HTML, images and links of a text lead to is asked for nothing, not even for a connection."""
        with socket.create_server(('127.0.0.1', 0)) as other:
            other.settimeout(2)
            to = 'http://127.0.0.1:%d/' % other.getsockname()[1]
            self.page.value("document.getElementById('raw').checked = document.getElementById('any').checked = true")
            self.typed(' '.join(it.replace('TO', to) for it in (
                '![a](TO)', '<img src="TO"><link rel=stylesheet href="TO"><link rel=preconnect href="TO"><link rel=prefetch href="TO"><link rel=icon href="TO"><object data="TO"></object><embed src="TO">',
                '<iframe src="TO"></iframe><video poster="TO" src="TO"></video><meta http-equiv=refresh content="0;url=TO"><script src="TO"></script><svg><image href="TO"/><use href="TO#a"/></svg>',
                '<a id=a href="TO" target=_self>b</a><input type=image src="TO"><body background="TO"><style>@import "TO"; p { background: url(TO) }</style><p style="background: url(TO)">c</p>')))
            self.assert_nobody_came(other)

    def assert_nobody_came(self, other):
        try:
            came = other.accept()[0]
        except socket.timeout:
            return
        with came:
            came.settimeout(2)
            self.fail('somebody came: %r' % came.recv(200))

    def test_a_link_of_the_text_is_clicked(self):
        with socket.create_server(('127.0.0.1', 0)) as other:
            other.settimeout(2)
            self.typed('[' + 'a' * 500 + '](http://127.0.0.1:%d/)' % other.getsockname()[1])
            place = self.page.value("(() => { const it = document.getElementById('shown'); it.scrollIntoView(); const {x, y} = it.getBoundingClientRect(); return [x + 60, y + 30]; })()")
            time.sleep(0.3)
            for kind in ('mousePressed', 'mouseReleased'):
                self.page.call('Input.dispatchMouseEvent', type=kind, x=place[0], y=place[1], button='left', clickCount=1)
            self.assert_nobody_came(other)
        self.assertTrue(self.page.value('location.href').startswith(self.url))

    def test_a_long_text(self):
        for words in (('word *emphasis* `code` [link](to) ' * 2950)[:100000] + '.', '[' * 100000, '*a _b ' * 1000 + '_ *' * 1000 + 'c'):
            shown = self.typed(words)
            self.assertEqual((shown['marked'], shown['html']), (words, html(words)))
            found = text(words)
            self.assertEqual(shown['events'], '\n'.join(map(str, found[:4000])))
            self.assertEqual('The first 4,000 of' in shown['most'], len(found) > 4000)
            self.assertEqual(len(shown['tree']), sum(it.kind == Kind.Enter for it in found[:4000]))
        words = '*a* `b` ' * 400 + 'c'
        self.assertIn('The first 4,000 of', self.typed(words)['most'])
        self.page.value("delete document.body.dataset.shown; document.querySelector('#most button').click()")
        self.page.wait('document.body.dataset.shown')
        shown = self.page.value(SHOWN)
        self.assertEqual((shown['most'], shown['events']), ('', '\n'.join(map(str, text(words)))))

    def test_a_long_question(self):
        with mock.patch.object(play, 'LONGEST', 2000):
            self.assertEqual(self.typed('a' * 2000)['why'], 'The server does not answer: the question is longer than 2000 bytes.')

    def test_two_tabs(self):
        """Each tab gets the answer to its own text, the last one, also where they ask at once."""
        other = self.opened()
        for page in (self.page, other):
            # Answers come in another order than questions.
            page.value('''(() => { const real = fetch; let count = 0; window.fetch = async (...words) => { const mine = count++; const found = await real(...words);
                await new Promise(done => setTimeout(done, mine % 2 ? 0 : 150)); return found; }; })()''')
        for at in range(6):
            for page, name in ((self.page, 'one'), (other, 'two')):
                page.value('''document.getElementById('text').value = '*%s %d*'; document.getElementById('text').dispatchEvent(new Event('input', {bubbles: true}))''' % (name, at))
            time.sleep(0.07)
        time.sleep(1)
        for page, name in ((self.page, 'one'), (other, 'two')):
            page.wait("document.getElementById('html').textContent === '<em>%s 5</em>'" % name)

    def test_pointing(self):
        self.typed('a *b **c** d*')
        place = self.page.value("(() => { const {x, y, width, height} = [...document.querySelectorAll('#marked span')].find(it => it.dataset.name === 'Data' && it.textContent === 'c').getBoundingClientRect(); return [x + width / 2, y + height / 2]; })()")
        self.page.call('Input.dispatchMouseEvent', type='mouseMoved', x=place[0], y=place[1])
        path = "document.getElementById('path').textContent"
        self.page.wait(path + ".includes('Strong')")
        self.assertEqual(self.page.value(path), 'Emphasis › EmphasisText › Strong › StrongText › Data 1:8–1:9 bytes 7–8')
        self.assertEqual(self.page.value("[...document.querySelectorAll('.here')].map(it => it.tagName)"), ['SPAN', 'LI'])
        self.assertEqual(self.page.value("document.querySelector('#marked .here').title"), 'Data 1:8–1:9')
        self.page.value("document.getElementById('marked').focus()")
        for key, name in (('ArrowUp', 'StrongText 1:8–1:9'), ('ArrowUp', 'Strong 1:6–1:11'), ('ArrowDown', 'StrongSequence 1:6–1:8'), ('ArrowDown', 'StrongSequence 1:6–1:8'), ('ArrowLeft', 'Strong 1:6–1:11'),
                          ('ArrowRight', 'StrongSequence 1:6–1:8'), ('End', 'EmphasisSequence 1:13–1:14'), ('ArrowRight', 'EmphasisSequence 1:13–1:14')):
            self.page.press(key)
            self.assertIn(name + ' bytes', self.page.value(path), key)

    def test_names_of_controls(self):
        """Each control has a name for those who hear the page."""
        self.page.value("document.getElementById('options').open = true")
        nodes = self.page.call('Accessibility.getFullAXTree')['nodes']
        controls = [it for it in nodes if it['role']['value'] in ('textbox', 'checkbox', 'button', 'link', 'Iframe', 'list', 'group', 'DisclosureTriangle') and not it.get('ignored')]
        self.assertEqual([it['role']['value'] for it in controls if not it.get('name', {}).get('value') and it['role']['value'] != 'group'], [])
        self.assertGreater(len(controls), 30)

    def test_contrast(self):
        """Words have a contrast of 4.5 with what is behind them, in both colour schemes."""
        self.typed('*a* **b** `c` <d:e> [f](g "h") ![i](j) &amp; \\* <k>\nl')
        for scheme in ('light', 'dark'):
            self.page.call('Emulation.setEmulatedMedia', features=[{'name': 'prefers-color-scheme', 'value': scheme}])
            self.page.value("new Promise(done => requestAnimationFrame(() => requestAnimationFrame(done)))")
            low = self.page.value('''(() => {
              const context = new OffscreenCanvas(1, 1).getContext('2d', {willReadFrequently: true});
              const light = ([r, g, b]) => [r, g, b].map(it => it / 255).map(it => it <= 0.04045 ? it / 12.92 : ((it + 0.055) / 1.055) ** 2.4).reduce((sum, it, at) => sum + it * [0.2126, 0.7152, 0.0722][at], 0);
              const painted = colors => { for (const it of colors) { context.fillStyle = it; context.fillRect(0, 0, 1, 1); } return light(context.getImageData(0, 0, 1, 1).data); };
              const low = [];
              for (const element of document.querySelectorAll('body *')) {
                if (![...element.childNodes].some(it => it.nodeType === 3 && it.data.trim()) || !element.getClientRects().length || element.closest('script')) continue;
                const backs = [];
                for (let at = element; at; at = at.parentElement) backs.unshift(getComputedStyle(at).backgroundColor);
                const [one, two] = [painted(backs), painted([...backs, getComputedStyle(element).color])].sort((a, b) => b - a);
                if ((one + 0.05) / (two + 0.05) < 4.5) low.push([element.tagName, element.className, element.textContent.slice(0, 20), (one + 0.05) / (two + 0.05)]);
              }
              return low; })()''')
            self.assertEqual(low, [], scheme)
