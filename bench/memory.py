#!/usr/bin/env python3
"""Refuses memory to the built program, one allocation after another, and tells what it answers: bench/memory.py

`plan` answers a trip over two regions, and `region` one connection, both with the N-th call for memory refused, for each
N until no call has that number. Told is how often each answer came: the status, and what was written. An answer is
`whole` where it is what comes with ample memory, `503` where it is just the fixed response for want of memory. The region
listens at PORT (47656). A small library that is loaded before the C library refuses the calls: it is compiled with `cc`.
"""
import argparse
import collections
import os
import pathlib
import shutil
import socket
import subprocess
import sys
import tempfile

TOP = pathlib.Path(__file__).resolve().parent.parent
PROGRAM = TOP / 'crates/ojp/out/ojp'
PORT = int(os.environ.get('PORT', '47656'))
NO_MEMORY = b'HTTP/1.1 503 Service Unavailable\r\nContent-Length: 0\r\nConnection: close\r\n\r\n'

SHIM = r'''
#include <errno.h>
#include <fcntl.h>
#include <stdlib.h>
#include <unistd.h>
extern void *__libc_malloc(size_t), *__libc_realloc(void *, size_t);
static long calls, refused = -1;
static int refuse(void) {
  if (refused < 0) refused = atol(getenv("REFUSED"));
  if (++calls != refused) return 0;
  close(open(getenv("MARK"), O_CREAT | O_WRONLY, 0600));
  errno = ENOMEM;
  return 1;
}
void *malloc(size_t size) { return refuse() ? NULL : __libc_malloc(size); }
void *realloc(void *old, size_t size) { return refuse() ? NULL : __libc_realloc(old, size); }
'''

PLAN = {
    'aa.tt': '''ojp-timetable 1
region AA
zone +00:00
stop AA:a 60 a
exchange x:P 60 P
neighbour x:P BB 300
service W 2024-01-01 2024-12-31 1111111
journey J1 W L1
call AA:a - 28800
call x:P 30600 -
''',
    'bb.tt': '''ojp-timetable 1
region BB
zone +00:00
stop BB:z 60 z
exchange x:P 60 P
neighbour x:P AA 600
service W 2024-01-01 2024-12-31 1111111
journey K1 W L1
call x:P - 31200
call BB:z 32400 -
journey K2 W L1
call x:P - 34800
call BB:z 36000 -
''',
}


def with_refused(folder, number):
    """The surroundings of a run in which the call with the number is refused, and the file that tells that it was."""
    mark = folder / 'mark'
    mark.unlink(missing_ok=True)
    return {'LD_PRELOAD': str(folder / 'refuse.so'), 'REFUSED': str(number), 'MARK': str(mark)}, mark


def plan_once(folder, request, number):
    surroundings, mark = with_refused(folder, number)
    run = subprocess.run([PROGRAM, 'plan', 'aa.tt', 'bb.tt'], cwd=folder, env=surroundings, input=request, capture_output=True)
    return mark.exists(), run.returncode, run.stdout


def post(request):
    """What comes back for the request."""
    head = b'POST /ojp HTTP/1.1\r\nHost: AA\r\nContent-Length: %d\r\n\r\n' % len(request)
    with socket.create_connection(('127.0.0.1', PORT)) as link:
        link.sendall(head + request)
        answer = b''
        while piece := link.recv(65536):
            answer += piece
    return answer


def region_once(folder, request, number):
    surroundings, mark = with_refused(folder, number)
    words = [PROGRAM, 'region', TOP / 'examples/plan/a.tt', str(PORT), '--count', '1']
    with subprocess.Popen(words, env=surroundings, stdout=subprocess.PIPE, stderr=subprocess.DEVNULL) as server:
        is_ready = server.stdout.readline() == b'ready\n'
        answer = post(request) if is_ready else b''
        status = server.wait(30)
    return mark.exists(), status, answer


def named(answer, whole):
    if answer == whole:
        return 'whole'
    if answer == NO_MEMORY:
        return '503'
    return 'nothing' if not answer else f'other: {answer!r}'


def table(what, once):
    """Tries one call after another, and tells how often each answer came."""
    _, status, whole = once(0)
    if status != 0 or not whole:
        sys.exit(f'{what}: no answer with ample memory, status {status}')
    answers = collections.Counter()
    number = 1
    while True:
        was_refused, status, answer = once(number)
        if not was_refused:
            break
        answers[status, named(answer, whole)] += 1
        number += 1
    print(f'{what}: {number - 1} calls for memory')
    for (status, answer), count in sorted(answers.items()):
        print(f'  {count} times status {status}, written {answer}')


def main():
    argparse.ArgumentParser(description=__doc__, formatter_class=argparse.RawDescriptionHelpFormatter).parse_args()
    if not os.access(PROGRAM, os.X_OK):
        sys.exit('memory.py: build the program first: ./ojp check < examples/plan/request.xml')
    if not shutil.which('cc'):
        sys.exit('memory.py: cc is not installed')
    request = (TOP / 'examples/plan/request.xml').read_bytes()
    far = request.replace(b'AA:b', b'BB:z').replace(b'08:00:00Z', b'07:55:00Z')
    with tempfile.TemporaryDirectory() as name:
        folder = pathlib.Path(name)
        for file, text in PLAN.items():
            (folder / file).write_text(text)
        (folder / 'refuse.c').write_text(SHIM)
        subprocess.run(['cc', '-O1', '-shared', '-fPIC', '-fno-builtin', '-o', folder / 'refuse.so', folder / 'refuse.c'], check=True)
        table('plan over two regions', lambda number: plan_once(folder, far, number))
        table('one connection of region', lambda number: region_once(folder, request, number))


if __name__ == '__main__':
    main()
