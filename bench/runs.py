"""How much processor time a run takes, and how much memory it holds."""
import os
import re
import subprocess
import sys
import tempfile
import time


def processor_seconds(words, stdin):
    """The status of a run, and the seconds that it had a processor, in the program itself and in the system: other work on the machine,
    and waiting, do not count."""
    p = subprocess.Popen(words, stdin=stdin, stdout=subprocess.DEVNULL, stderr=subprocess.DEVNULL)
    _, status, used = os.wait4(p.pid, 0)
    p.returncode = os.waitstatus_to_exitcode(status)
    return p.returncode, used.ru_utime, used.ru_stime


def instructions(words, stdin):
    """The status of a run, and its millions of instructions by callgrind, which are the same on a busy machine; None where there is no count."""
    with tempfile.NamedTemporaryFile() as profile:
        counted = ['valgrind', '--tool=callgrind', '--callgrind-out-file=' + profile.name]
        p = subprocess.run(counted + words, stdin=stdin, stdout=subprocess.DEVNULL, stderr=subprocess.PIPE)
    count = re.search(rb'Collected : (\d+)', p.stderr)
    return p.returncode, int(count.group(1)) / 1e6 if count else None


def held(words, path, may_fail=False):
    """Kilobytes that a run on the file held at most: the kernel's high-water mark of its memory, read until it ends."""
    most = 0
    with open(path, 'rb') as f:
        p = subprocess.Popen(words, stdin=f, stdout=subprocess.DEVNULL, stderr=subprocess.DEVNULL if may_fail else None)
        while p.poll() is None:
            with open('/proc/%d/status' % p.pid) as status:
                for line in status:
                    if line.startswith('VmHWM:'):
                        most = max(most, int(line.split()[1]))
            time.sleep(0.0001)
    if p.returncode and not may_fail:
        sys.exit('%s: status %d' % (' '.join(words), p.returncode))
    return most
