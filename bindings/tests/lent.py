"""The array that a call is lent belongs to that call: what runs meanwhile in the same thread or in another gets its own, and little is kept."""
import ctypes
import gc
import mmap
import pickle
import signal
import sys
import threading
import tracemalloc
import unittest
from concurrent.futures import ThreadPoolExecutor
from unittest import mock

from markdown_inline import _library, parse, render
from markdown_inline.inline import Content, html, htmls, identifier, leaves, reference, short_texts, string, strings, text, texts

LONG = 'a' * 20 + '*b* ' * 60 + 'c'
CALLS = (
    lambda: text(LONG), lambda: text('~d~ `e`' * 9, gfm=True), lambda: string('&amp; \\* ' * 30), lambda: leaves(LONG), lambda: html(LONG), lambda: render(LONG),
    lambda: texts('*a*\n\n`b`', [Content([(0, 3)]), Content([(5, 8)])]), lambda: identifier('A ' * 50), lambda: reference('&copy;'),
    lambda: [(it, list(it.events), it.html) for it in parse('# a *b*\n\n> [c]\n\n[c]: d')],
)


def answers():
    return [repr(call()) for call in CALLS]


class Lent(unittest.TestCase):
    def test_a_call_within_each_line_of_another(self):
        wanted, wrong, count = answers(), [], [0]

        def trace(frame, what, _):
            if frame.f_code.co_filename != _library.__file__:
                return None
            # What runs here is not traced.
            count[0] += 1
            at = count[0] % len(CALLS)
            if repr(CALLS[at]()) != wanted[at]:
                wrong.append(at)
            return trace

        sys.settrace(trace)
        try:
            found = answers()
        finally:
            sys.settrace(None)
        self.assertEqual((found, wrong), (wanted, []))
        self.assertGreater(count[0], 100)

    def test_a_call_by_the_collector(self):
        wanted, counts = answers(), []

        class Cycle:
            def __init__(self):
                self.me = self

            def __del__(self):
                counts.append(len(text('`a` ' * 1500)))

        was, least = gc.get_threshold(), 0
        gc.set_threshold(20, 1, 1)
        try:
            while len(counts) < 50 and least < 2000:
                least += 1
                Cycle()
                self.assertEqual(answers(), wanted)
        finally:
            gc.set_threshold(*was)
        gc.collect()
        self.assertGreater(len(counts), 20)
        self.assertEqual(set(counts), {len(text('`a` ' * 1500))})

    @unittest.skipUnless(hasattr(signal, 'setitimer'), 'no timer')
    def test_a_call_by_a_signal_handler(self):
        wanted, count, running = answers(), [0], [True]

        def handle(*_):
            count[0] += 1
            text('`a` ' * 30)
            if running:
                signal.setitimer(signal.ITIMER_REAL, 0.0005)

        was = signal.signal(signal.SIGALRM, handle)
        signal.setitimer(signal.ITIMER_REAL, 0.0005)
        try:
            for _ in range(20):
                self.assertEqual(answers(), wanted)
        finally:
            running.clear()
            signal.setitimer(signal.ITIMER_REAL, 0)
            signal.signal(signal.SIGALRM, was)
        self.assertGreater(count[0], 0)

    def test_threads_do_not_meet(self):
        documents = ['%s *b%d* `c` ' % ('a' * at, at) * (20 + at) + 'd' for at in range(8)]
        wanted, wrong, together = [repr(text(it)) for it in documents], [], threading.Barrier(8)

        def run(at):
            together.wait()
            for _ in range(30):
                if repr(text(documents[at])) != wanted[at]:
                    wrong.append(at)

        self.assertEqual(len(set(wanted)), 8)
        threads = [threading.Thread(target=run, args=(at,)) for at in range(8)]
        for it in threads:
            it.start()
        for it in threads:
            it.join()
        self.assertEqual(wrong, [])

    def test_threads_share_contents(self):
        parts = ['*a* %d `b`' % at + ' [c](d)' * (at % 7) for at in range(200)]
        document, at, contents = '\n\n'.join(parts), 0, []
        for it in parts:
            contents.append(Content([(at, at + len(it))]))
            at += len(it) + 2
        shares = [contents[at:at + 25] for at in range(0, 200, 25)]
        with ThreadPoolExecutor(4) as pool:
            found = [events for share in pool.map(lambda it: texts(document, it), shares) for events in share]
        self.assertEqual(found, texts(document, contents))

    def test_an_answer_stays_where_others_come(self):
        first = text(LONG)
        wanted = repr(first)
        answers()
        self.assertEqual(repr(first), wanted)

    def test_little_is_kept(self):
        text('[a](b)' * 20000)
        kept = []

        def nested(depth):
            lent = _library._lend(1)
            kept.append(lent)
            if depth:
                nested(depth - 1)
            _library._give_back(lent)

        nested(3 * _library.KEPT)
        self.assertEqual(len({id(it) for it in kept}), 3 * _library.KEPT + 1)
        self.assertLessEqual(len(_library._free), _library.KEPT)
        self.assertLessEqual(sum(len(it) for it in _library._free), 2 << 20)
        self.assertEqual(len({id(it) for it in _library._free}), len(_library._free))

    def test_an_array_is_lent_again(self):
        text('a')
        arrays = sorted(id(it) for it in _library._free)
        self.assertGreaterEqual(len(arrays), 1)
        answers()
        self.assertEqual(sorted(id(it) for it in _library._free), arrays)

    def test_an_array_is_used_to_its_end_and_no_further(self):
        whole, guard = text(LONG), b'\xa5' * 4096
        for call, wanted, size in (
            (lambda: text(LONG), whole, 56), (lambda: leaves(LONG), leaves(LONG), 96), (lambda: identifier('A' * 90), 'a' * 90, 1),
            (lambda: html('a' * 90), 'a' * 90, 1), (lambda: render('# ' + 'a' * 90), '<h1>' + 'a' * 90 + '</h1>\n', 1), (lambda: texts(LONG, [Content([(0, len(LONG))])]), [whole], 56),
            (lambda: string('\\*' * 16), string('\\*' * 16), 56),
        ):
            count = len(wanted[0]) if wanted == [whole] else len(wanted)
            # Arrays of one element too few, of just as many, and of one more, some with a part of an element behind.
            for room in (0, 1, count - 1, count, count + 1):
                for part in (0, size - 1):
                    lent = []

                    def lend(least):
                        length = room * size + part if not lent else least
                        memory = bytearray(length) + guard
                        lent.append((memory, length))
                        return (ctypes.c_char * length).from_buffer(memory)

                    with mock.patch.object(_library, '_lend', lend), mock.patch.object(_library, '_give_back', lambda _: None):
                        self.assertEqual(call(), wanted)
                    self.assertEqual(len(lent), 1 if room >= count else 2)
                    for memory, length in lent:
                        self.assertEqual(memory[length:], guard)

    def test_what_has_room_is_kept_and_the_others_are_found_by_a_second_call(self):
        document, contents, at = 'a*b* [c] &amp; [^d] ' * 3, [], 0
        for length in (3, 0, 7, 12, 1, 25, 12):
            contents.append(Content([(at, at + length)] if length else []))
            at += length
        parts = [[it] for content in contents for it in content.pieces] + [[]]
        calls = (
            lambda: texts(document, contents), lambda: short_texts(document, contents, definitions=['c']), lambda: strings(document, parts),
            lambda: htmls(document, contents, gfm=True), lambda: htmls(document, contents, gfm=True, footnotes=['d']))
        for call in calls:
            wanted = call()
            for room in range(0, 8000, 37):
                with mock.patch.object(_library, 'KEPT_SIZE', 0), \
                        mock.patch.object(_library, '_lend', lambda size, first=[room]: ctypes.create_string_buffer(first.pop() if first else size)):
                    self.assertEqual(call(), wanted)

    def test_sixty_four_events(self):
        documents, lengths = ['a' + '\\*' * count + 'b' for count in (9, 10, 11)], []
        wanted = [text(it) for it in documents]

        def lend(size):
            lengths.append(size)
            return ctypes.create_string_buffer(size)

        with mock.patch.object(_library, '_events_room', lambda *_: 64 * 56), mock.patch.object(_library, '_lend', lend):
            self.assertEqual([text(it) for it in documents], wanted)
        self.assertEqual([len(it) for it in wanted], [58, 64, 70])
        self.assertEqual(lengths, [64 * 56, 64 * 56, 64 * 56, 70 * 56])

    def test_more_bytes_than_an_int_of_c_counts(self):
        """What stands there is not written, and so takes no memory of its own."""
        length = 2 ** 32 + 56

        def call(lent, room, count):
            count.value = room
            return _library.DONE

        with mock.patch.object(_library, '_lend', lambda _: (ctypes.c_char * length).from_buffer(mmap.mmap(-1, length))):
            status, found = _library.filled(call, 56, length)
        self.assertEqual((status, len(found), bytes(found[-3:])), (_library.DONE, length // 56 * 56, b'\0\0\0'))
        self.assertTrue(found.readonly)

    def test_large_answers_are_kept_once(self):
        document = '*a* ' * 50000 + 'b'
        several = [Content([(at, at + 3999)]) for at in range(0, 200000, 4000)]
        for call in (lambda: text(document), lambda: leaves(document), lambda: texts(document, [Content([(0, len(document))])]), lambda: texts(document, several),
                     lambda: short_texts(document, several)):
            tracemalloc.start()
            try:
                found = call()
                _, most = tracemalloc.get_traced_memory()
            finally:
                tracemalloc.stop()
            size = len(found._raw)
            self.assertGreater(size, 2 * len(document))
            # The first array of a call has room for an event for each four bytes.
            self.assertLess(most, size + 17 * len(document))
            self.assertEqual(pickle.loads(pickle.dumps(found))[-1], found[-1])

    def test_a_library_that_never_has_room_enough(self):
        calls = []

        def call(lent, room, count):
            self.assertLessEqual(room * 56, len(lent))
            calls.append(room)
            count.value = room + 1
            return _library.TOO_SMALL

        self.assertRaises(RuntimeError, _library.filled, call, 56, 64 * 56)
        self.assertEqual(len(calls), 2)
