"""Builds the package with the library inside, and with the header, which it reads. The library stands where MARKDOWN_INLINE_LIB_DIR says, else where
bindings/build left it in the repository, else, for a source package, where pkg-config finds it."""
import os
import shutil
import subprocess

from setuptools import setup
from setuptools.command.build_py import build_py
from setuptools.dist import Distribution

try:
    from setuptools.command.bdist_wheel import bdist_wheel
except ImportError:
    # Before version 70.1 of setuptools.
    try:
        from wheel.bdist_wheel import bdist_wheel
    except ImportError:
        bdist_wheel = None

HERE = os.path.dirname(os.path.abspath(__file__))
BINDINGS = os.path.dirname(HERE)
HEADER = os.path.join(BINDINGS, 'c', 'markdown_inline.h')
SHARED = 'libmarkdown_inline.so.1'
# A source package stands by itself and has the header inside.
IS_REPOSITORY = os.path.exists(HEADER)


def folder_of_the_library():
    """Where the shared library stands, or nothing."""
    told = os.environ.get('MARKDOWN_INLINE_LIB_DIR')
    if told or IS_REPOSITORY:
        return told or os.path.join(BINDINGS, 'out', 'lib')
    try:
        ran = subprocess.run(['pkg-config', '--variable=libdir', 'markdown_inline'], stdin=subprocess.DEVNULL, stdout=subprocess.PIPE, stderr=subprocess.DEVNULL)
    except OSError:
        return None
    return os.fsdecode(ran.stdout).rstrip('\n').replace('\\', '') or None


class Build(build_py):
    """Puts the library and the header beside the package's files."""

    def run(self):
        super().run()
        folder = folder_of_the_library()
        library = os.path.join(folder or '', SHARED)
        if not folder or not os.path.exists(library):
            what = 'run bindings/build first' if IS_REPOSITORY else 'set MARKDOWN_INLINE_LIB_DIR to its folder, or PKG_CONFIG_PATH to that of markdown_inline.pc'
            raise SystemExit('%s is not there: %s' % (library, what))
        package = os.path.join(self.build_lib, 'markdown_inline')
        shutil.copyfile(library, os.path.join(package, SHARED))
        if IS_REPOSITORY:
            shutil.copyfile(HEADER, os.path.join(package, 'markdown_inline.h'))


class Native(Distribution):
    """A package for one kind of machine."""

    def has_ext_modules(self):
        return True


def commands():
    """What is done in another way: the files are built with the library, and a wheel is for each Python on one kind of machine."""
    if bdist_wheel is None:
        return {'build_py': Build}

    class Tagged(bdist_wheel):
        def get_tag(self):
            return ('py3', 'none', super().get_tag()[2])

    return {'build_py': Build, 'bdist_wheel': Tagged}


def rooms():
    """What comes up on the way stands in bindings/out, so that the repository stays as it is."""
    if not IS_REPOSITORY:
        return {}
    room = os.path.join(BINDINGS, 'out', 'pip')
    os.makedirs(room, exist_ok=True)
    return {'build': {'build_base': room}, 'egg_info': {'egg_base': room}}


setup(license='MIT', cmdclass=commands(), distclass=Native, options=rooms())
