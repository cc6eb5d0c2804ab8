"""The loader as a program: tools/native/load.c linked with the library, built where it is not here or where one of them has changed."""
import fcntl, glob, hashlib, os, shutil, subprocess, sys, tempfile
from .files import Failed, say
from .library import PROVED, ROOT, proved, rt

BUILT = ROOT + '/target/tools'
SOURCE, HEADER = ROOT + '/tools/native/load.c', ROOT + '/bindings/c/paqlluri.h'
PROVES = "'tools/library' proves {}"
AGAIN = 'where a file below target/tools or target/staticlib is damaged, remove it and try again'

# the program's path, and what is to be said of its verdicts; its name is by what it was built from, so that a change of that builds another
def program(tool):
    linked = library(tool)
    path = f'{BUILT}/load-{digest(SOURCE, HEADER, linked)}'
    if not os.path.exists(path):
        wants_cc()
        with alone(tool):
            os.path.exists(path) or link(linked, path)
    return path, rests_on(linked)

# asked for before anything is built, so that nobody waits for the rest in vain
def wants_cc():
    if not shutil.which('cc'):
        raise Failed('a C compiler, cc, is needed to link the loader, and is not here')

# the proved library, which is proved first where it is not here
def library(tool):
    if not os.path.exists(PROVED):
        wants_cc()
        with alone(tool):
            os.path.exists(PROVED) or prove(tool)
    return PROVED

# what must be said of verdicts of this library, or nothing
def rests_on(path):
    if not says_proved(path):
        return f'the verdict is that of a loader which was not proved; {PROVES.format("it")}'
    if newest() > os.path.getmtime(path):
        changed = 'crates/ has changed since the loader was built, and the verdict is that of the loader before'
        return f'{changed}; {PROVES.format("the present one")}'
    return None

def digest(*paths):
    made = hashlib.sha256()
    for path in paths:
        with open(path, 'rb') as f:
            made.update(hashlib.sha256(f.read()).digest())
    return made.hexdigest()[:16]

# the compiler leaves this mark in what it builds of a proved crate, and another in the rest
def says_proved(path):
    with open(path, 'rb') as f:
        return b'rattle logic=' in f.read()

# two tools at once do not build into one folder
class alone:
    def __init__(self, tool):
        self.tool = tool

    def __enter__(self):
        os.makedirs(BUILT, exist_ok=True)
        self.lock = open(BUILT + '/lock', 'w')
        try:
            fcntl.flock(self.lock, fcntl.LOCK_EX | fcntl.LOCK_NB)
        except BlockingIOError:
            say(self.tool, 'another tool is building the loader; waiting for it')
            fcntl.flock(self.lock, fcntl.LOCK_EX)

    def __exit__(self, *_):
        self.lock.close()

# the crates that the library is made of, itself first
def crates():
    with open(ROOT + '/crates.txt', encoding='utf-8') as f:
        uses = {line.split()[0].rstrip(':'): line.split(':')[1].split() for line in f if ':' in line.split('#')[0]}
    found = ['paqlluri_c']
    for crate in found:
        found += [used for used in uses[crate] if used in uses and used not in found]
    return found

# code, definitions and proofs of these crates, and their folders, whose time changes where a file goes
def newest():
    parts = [f'{ROOT}/crates/{crate}/{part}' for crate in crates() for part in ('src', 'specs', 'proofs')]
    below = [path for part in parts if os.path.isdir(part) for path in glob.glob(part + '/**', recursive=True)]
    return max(map(os.path.getmtime, [ROOT + '/crates.txt', *below]))

def prove(tool):
    rt('doc', stdout=subprocess.DEVNULL, stderr=subprocess.DEVNULL)  # that it is there at all
    say(tool, f'the loader is not here; {PROVES.format("it")}')
    if not proved(stdout=sys.stderr or subprocess.DEVNULL):
        raise Failed("the loader could not be built: 'tools/library' failed")

def link(linked, path):
    with tempfile.TemporaryDirectory(dir=BUILT) as folder:
        taken = shutil.copy(linked, folder + '/taken.a')
        if not path.endswith(digest(SOURCE, HEADER, taken)):
            raise Failed('the library has changed while it was linked; try again')
        command = ['cc', '-std=c99', '-O2', '-I', os.path.dirname(HEADER), SOURCE, taken, '-o', folder + '/load']
        done = subprocess.run(command, stdout=sys.stderr or subprocess.DEVNULL)
        if done.returncode != 0 or not os.path.exists(folder + '/load'):
            raise Failed(f'the loader could not be linked: cc failed; {AGAIN}')
        put(folder + '/load', path, 'load-*')

# in the place of those before it
def put(made, path, before):
    os.replace(made, path)
    for old in set(glob.glob(f'{BUILT}/{before}')) - {path}:
        os.unlink(old)
