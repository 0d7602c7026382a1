#!/usr/bin/env python3
"""archive.py BEGAN: builds crates/prophesee_raw_c/out/libprophesee_raw_c.a right behind an `rt ci` that passed and began when the file BEGAN was made.

It does what `rt lib` does in that folder, but over the libraries that this `rt ci` has just proved and left in the crates' out/ folders. `rt lib` takes no such
library: in a fresh clone it would prove each of them a second time. They are removed then: no command of rt's takes them, and the next `rt ci` would put them back
in the place of its own. `rt lib` itself runs where a library in out/ is not from this `rt ci` (but what `rt check`, `rt lib` or an `rt ci` by hand had left there
before), and where the kit's `rtlib` isn't as it is known here. Exit status 0: built; else rt's.
"""
import importlib.machinery
import importlib.util
import os
import shutil
import subprocess
import sys

NAME = 'prophesee_raw_c'
ROOT = os.path.dirname(os.path.dirname(os.path.abspath(__file__)))
FOLDER = os.path.join(ROOT, 'crates', NAME)


def kit_library():
    """The module of the kit by which rt itself works, beside the program."""
    page = subprocess.run(['rt', 'doc'], stdout=subprocess.PIPE, text=True, check=True).stdout.strip()
    loader = importlib.machinery.SourceFileLoader('rtlib', os.path.join(os.path.dirname(page), 'bin', 'rtlib.py'))
    module = importlib.util.module_from_spec(importlib.util.spec_from_loader('rtlib', loader))
    sys.modules['rtlib'] = module
    loader.exec_module(module)
    return module


def build_over_proved(began):
    """Builds it over what rt ci left, and returns whether it did."""
    try:
        rtlib = kit_library()
        rtlib.guarded()
        crate = rtlib.Crate(FOLDER, ROOT, {})
        libraries = [(it.rlib, os.path.join(os.path.dirname(it.rlib), 'stamp')) for it in crate.below()]
        # a library of `rt lib` or `rt check` has a stamp beside it, one of `rt ci` has none
        if not all(os.path.isdir(made) and os.stat(made).st_mtime_ns > began and not os.path.exists(stamp) for made, stamp in libraries):
            return False
        os.makedirs(os.path.join(FOLDER, 'out'), exist_ok=True)
        if crate.build_static([]):
            return False
        for made, _ in libraries:
            shutil.rmtree(os.path.dirname(made), ignore_errors=True)
        return True
    except (AttributeError, TypeError, KeyError, OSError, subprocess.SubprocessError, SystemExit) as error:
        print(f'archive: {error!r}', flush=True)
        return False


if len(sys.argv) != 2:
    sys.exit(__doc__)
if not build_over_proved(os.stat(sys.argv[1]).st_mtime_ns):
    print('archive: by rt lib', flush=True)
    sys.exit(subprocess.run(['rt', 'lib'], cwd=FOLDER).returncode)
