"""pip makes a package of bindings/python that works by itself. Without pip or wheel it cannot be tried."""
import glob
import importlib.util
import os
import subprocess
import sys
import tempfile
import unittest

HERE = os.path.dirname(os.path.abspath(__file__))
PROJECT = os.path.join(HERE, '..', 'python')


@unittest.skipUnless(all(map(importlib.util.find_spec, ('pip', 'setuptools', 'wheel'))), 'pip or wheel is not there')
class Install(unittest.TestCase):
    def test_a_package_that_is_installed(self):
        before = sorted(os.listdir(PROJECT))
        with tempfile.TemporaryDirectory() as room:
            words = ['install', '--quiet', '--no-cache-dir', '--no-index', '--no-deps', '--no-build-isolation', '--disable-pip-version-check', '--no-warn-script-location', '--target', room]
            made = subprocess.run([sys.executable, '-m', 'pip', *words, PROJECT], stdout=subprocess.PIPE, stderr=subprocess.STDOUT, timeout=300)
            self.assertEqual(made.returncode, 0, made.stdout.decode())
            environment = {name: it for name, it in os.environ.items() if name != 'MARKDOWN_INLINE_LIBRARY'}
            environment['PYTHONPATH'] = room
            code = 'import os, pkgutil; import markdown_inline as m, markdown_inline.play as p; print(m.__file__); print(m.render("a"), end=""); print(os.path.getsize(p.PAGE) > 0); ' \
                'from importlib import metadata; print(metadata.version("markdown_inline") == m.__version__); print(*(it.name for it in pkgutil.iter_modules(m.__path__) if "lib" in it.name))'
            found = subprocess.run([sys.executable, '-c', code], stdout=subprocess.PIPE, cwd=room, env=environment, check=True, timeout=60).stdout.decode()
            self.assertEqual(found.splitlines(), [os.path.join(room, 'markdown_inline', '__init__.py'), '<p>a</p>', 'True', 'True', '_library'])
            with open(glob.glob(room + '/markdown_inline-*.dist-info/WHEEL')[0], encoding='utf-8') as file:
                self.assertRegex(file.read(), '(?m)^Tag: py3-none-linux_')
            said = subprocess.run([room + '/bin/markdown_inline'], input=b'*a*', stdout=subprocess.PIPE, env=environment, check=True, timeout=60).stdout
            self.assertEqual(said, b'<p><em>a</em></p>\n')
        self.assertEqual(sorted(os.listdir(PROJECT)), before)
