"""What the scripts of this folder share: what was tried, what did not go as expected, proved programs, false loaders, the end of a run."""
import os, shutil, subprocess, sys, tempfile

ROOT = os.path.dirname(os.path.dirname(os.path.abspath(__file__)))

TRIED, WRONG = [], []

# long ones are cut: the start says what matters
def compare(name, found, expected):
    TRIED.append(name)
    if found != expected:
        WRONG.append(f'{name}\n    found    {str(found)[:600]}\n    expected {str(expected)[:600]}')

# where rt ci and `rt run` leave a proved program
def built(program):
    return f'crates/{program}/out/{program}'

# what a proved program prints of a sheet on standard input, under the host list in the file `hosts` or under none
def answered(program, sheet, hosts=None):
    with tempfile.TemporaryDirectory() as folder:
        if hosts is not None:
            with open(folder + '/hosts', 'wb') as f:
                f.write(hosts)
        return subprocess.run([f'{ROOT}/{built(program)}'], cwd=folder, input=sheet, stdout=subprocess.PIPE).stdout.decode()

# the tools in a folder of their own, beside the sources, with nothing built
def copy_tools(folder):
    for part in ('tools', 'bindings/c'):
        shutil.copytree(f'{ROOT}/{part}', f'{folder}/{part}')
    for part in ('crates', 'crates.txt'):
        os.symlink(f'{ROOT}/{part}', f'{folder}/{part}')

# in such a folder a compiler that puts a script in the loader's place; the environment that has it
def fake_loader(folder, does):
    for made in (folder + '/bin', folder + '/target'):
        os.makedirs(made, exist_ok=True)
    if not os.path.exists(folder + '/target/staticlib'):
        os.symlink(ROOT + '/target/staticlib', folder + '/target/staticlib')
    shutil.rmtree(folder + '/target/tools', ignore_errors=True)
    for name, text in (('fake', f'cat >/dev/null\n{does}'), ('cc', f'while [ "$1" != -o ]; do shift; done\ncp {folder}/bin/fake "$2"')):
        with open(f'{folder}/bin/{name}', 'w') as f:
            f.write(f'#!/bin/sh\n{text}\n')
        os.chmod(f'{folder}/bin/{name}', 0o755)
    return dict(os.environ, PATH=f"{folder}/bin:{os.environ['PATH']}")

# what a script wants of the test run before it: these programs, and the library
def wants(script, *programs):
    wanted = {**{built(name): f'rt run in crates/{name}' for name in programs}, 'target/staticlib/libpaqlluri.a': 'tools/library'}
    for path, command in wanted.items():
        if not os.path.exists(f'{ROOT}/{path}'):
            sys.exit(f'{script}: {path} is not here: {command}')

# says how many cases went as expected and, where some did not, the first of them
def finish(script):
    print(*[f'{script}: {w}' for w in WRONG[:20]], f'{script}: {len(TRIED)} cases, {len(WRONG)} not as expected', sep='\n')
    sys.exit(1 if WRONG else 0)
