"""The library for C: what `rt lib` makes of crates/paqlluri_c, under the name that its callers link."""
import glob, importlib.machinery, importlib.util, os, shutil, subprocess, sys
from .files import Failed

ROOT = os.path.dirname(os.path.dirname(os.path.dirname(os.path.realpath(__file__))))
FOLDER, PROVED = ROOT + '/crates/paqlluri_c', ROOT + '/target/staticlib/libpaqlluri.a'
ARCHIVE = 'out/libpaqlluri_c.a'

# whether it is there now
def proved(**how):
    return delivered(rt('lib', cwd=FOLDER, **how).returncode)

# over libraries that earlier checks built `rt lib` is as quick; over those of rt ci, which have no stamp, it would prove each once more
def proved_of_ci():
    if glob.glob(ROOT + '/crates/*/out/rlib/stamp'):
        return proved()
    kit = os.path.dirname(rt('doc', stdout=subprocess.PIPE).stdout.decode().strip())
    rtlib = module(kit + '/bin/rtlib.py')
    crate = rtlib.Crate(FOLDER, ROOT, {})
    words = [*crate.words(['--jobs', '1'], keeps=False), '--toolchain', kit + '/toolchain', '--backend', 'llvm', '-o', ARCHIVE]
    os.makedirs(FOLDER + '/out', exist_ok=True)
    return delivered(subprocess.run([rtlib.RATTLE, 'build', *words], cwd=FOLDER).returncode)

def delivered(status):
    if status != 0 or not os.path.exists(f'{FOLDER}/{ARCHIVE}'):
        return False
    os.makedirs(os.path.dirname(PROVED), exist_ok=True)
    shutil.copy(f'{FOLDER}/{ARCHIVE}', PROVED + '.new')
    os.replace(PROVED + '.new', PROVED)
    return True

def rt(*words, **how):
    try:
        return subprocess.run(['rt', *words], **how)
    except OSError as e:
        raise Failed(f"rt of Rattle's kit is needed to build the loader, and cannot be run: {e.strerror}") from None

# the kit's own words for a crate's build
def module(path):
    loader = importlib.machinery.SourceFileLoader('rtlib', path)
    made = importlib.util.module_from_spec(importlib.util.spec_from_loader('rtlib', loader))
    sys.modules['rtlib'] = made
    loader.exec_module(made)
    return made
