"""Arguments, files in and files out, and how a tool ends."""
import os, re, sys, tempfile
from types import SimpleNamespace
from .lexer import OVER, Wrong, word_of

# a byte more than 4,096 blocks shows that there are more; a text of such a sheet can be longer
MOST, MOST_TEXT = 4096 * 512 + 1, 1 << 27
USAGE = dict(write='write TEXT [-o FILE]', show='show [--hosts] FILE [-o TEXT]', table='table SHEET [HOSTS]',
             families='families SHEET [--by-depth | --svg FILE | --dot FILE]', nearest='nearest SHEET HOSTS TYPE TYPE')
OPTIONS = dict(write=['-o'], show=['-o', '--hosts'], table=[], families=['--by-depth', '--svg', '--dot'], nearest=[])
# options without a file behind them
PLAIN = ['--hosts', '--by-depth']
# of these at most one
EITHER = ['by_depth', 'svg', 'dot']
# how many words stand beside the options, at least and at most
NAMES = dict(write=(1, 1), show=(1, 1), table=(1, 2), families=(1, 1), nearest=(4, 4))

class Failed(Exception):
    """What cannot be tried, and why."""

# where standard error cannot be written nothing, and that changes no exit status; print would take standard output if there is none
def say(tool, message):
    try:
        if sys.stderr:
            print(f'{tool}: {message}', file=sys.stderr, flush=True)
    except OSError:
        sys.stderr = None

# a tool's exit status: 1 is a verdict, or a wrong text, so nothing that goes wrong in the tool itself may end with it
def ended(tool, main):
    try:
        return main()
    except KeyboardInterrupt:
        return 130
    # who reads has enough
    except BrokenPipeError:
        return 141
    except Failed as failed:
        say(tool, failed)
    except Exception as fault:
        say(tool, f'{type(fault).__name__}: {fault}')
    return 2

# what is asked for
def arguments(given):
    if not given or given[0] not in USAGE:
        raise Failed(f'usage: tools/sheet {"|".join(USAGE)} ...; tools/sheet --help says more')
    command, rest = given[0], given[1:]
    usage = f'usage: tools/sheet {USAGE[command]}'
    out, names = SimpleNamespace(command=command, o=None, hosts=None, by_depth=None, svg=None, dot=None, under=None), []
    while rest:
        first = rest.pop(0)
        name = first.lstrip('-').replace('-', '_')
        if not first.startswith('-') or first == '-':
            names.append(first)
        elif first not in OPTIONS[command] or getattr(out, name) is not None or (first not in PLAIN and not rest):
            raise Failed(usage)
        else:
            setattr(out, name, True if first in PLAIN else rest.pop(0))
    least, most = NAMES[command]
    several = sum(getattr(out, name) is not None for name in EITHER) > 1
    if not least <= len(names) <= most or several or names[:2] == ['-', '-']:
        raise Failed(usage)
    out.file, out.under, out.types = names[0], names[1] if len(names) > 1 else None, list(map(type_of, names[2:]))
    return out

# a type's number, else its name; no loader can be asked about a number that is no word
def type_of(given):
    if not re.fullmatch('[0-9]+', given):
        return given
    number = word_of(given)
    if number is None:
        raise Failed(f'{given}: {OVER}')
    return number

# a word of the command line as text; bytes that are no UTF-8 as \xff
def title(word):
    return os.fsencode(word).decode('utf-8', 'backslashreplace')

def name_of(path):
    return 'standard input' if path == '-' else path

def read_bytes(path, most=MOST):
    try:
        with open(0 if path == '-' else path, 'rb', closefd=path != '-') as f:
            return f.read(most)
    except (OSError, ValueError) as e:
        raise Failed(f'{name_of(path)}: {getattr(e, "strerror", None) or e}') from None

def read_text(path):
    data = read_bytes(path, MOST_TEXT)
    if len(data) == MOST_TEXT:
        raise Wrong(1, 1, f'a text of {MOST_TEXT} bytes or more; expected one that a sheet of 4096 blocks needs')
    try:
        return data.decode('utf-8-sig')
    except UnicodeDecodeError as e:
        before = data[:e.start].decode('utf-8', 'replace')
        line, column = before.count('\n') + 1, len(before) - before.rfind('\n')
        raise Wrong(line, column, 'expected UTF-8') from None

# a file gets all of it or stays as it was
def deliver(path, data):
    try:
        if path in (None, '-'):
            with open(1, 'wb', closefd=False) as f:
                f.write(data)
        elif os.path.exists(path) and not os.path.isfile(path):
            with open(path, 'wb') as f:
                f.write(data)
        else:
            replace(os.path.realpath(path), data)
    except BrokenPipeError:
        raise
    except (OSError, ValueError) as e:
        raise Failed(f'{"standard output" if path in (None, "-") else path}: {getattr(e, "strerror", None) or e}') from None

def replace(path, data):
    handle, made = tempfile.mkstemp(dir=os.path.dirname(path), prefix='.sheet-')
    try:
        with os.fdopen(handle, 'wb') as f:
            f.write(data)
        os.chmod(made, mode(path))
        os.replace(made, path)
    except BaseException:
        os.unlink(made)
        raise

# that of the file that is replaced, or of a new one
def mode(path):
    if os.path.exists(path):
        return os.stat(path).st_mode & 0o777
    mask = os.umask(0)
    os.umask(mask)
    return 0o666 & ~mask
