"""The quads of a document as lines, one by one, from a run of the program: in little memory however long the document is.

    import gzip, stream
    with gzip.open('dump.ttl.gz') as dump:
        for line in stream.lines(dump, 'ttl', '--base', 'http://example.org/'):
            ...
"""
import contextlib
import os
import re
import subprocess
import tempfile
import threading


class Refused(Exception):
    """A document that is refused: the reason, the byte from 0, and its line from 1."""

    def __init__(self, reason, offset, line):
        super().__init__(reason, offset, line)
        self.reason, self.offset, self.line = reason, offset, line

    def __str__(self):
        return f'{self.reason} at byte {self.offset}, line {self.line}'


def feed(read, run, failures):
    """Hands over what is read. Where that fails the run is killed: no beginning of a document passes for the whole."""
    try:
        while (piece := read(1 << 16)) != b'':
            try:
                run.stdin.write(piece)
                run.stdin.flush()
            except BrokenPipeError:
                return  # the run has ended, and its status says how
    except BaseException as failure:
        failures.append(failure)
        run.kill()
    finally:
        with contextlib.suppress(OSError):
            run.stdin.close()


def lines(source, format='trig', *options, program='rdfconv'):
    """The lines, as bytes, of a document that is named by its path, or is an open binary file. After the lines before a refusal comes
    Refused; what a read of the file raises is raised as it is. A caller that stops early ends the run; a read of an open file that is
    under way then ends by itself."""
    is_path, failures = isinstance(source, (str, os.PathLike)), []
    read = None if is_path else getattr(source, 'read1', None) or source.read  # read1 gives what is there, and waits for no more
    with tempfile.TemporaryFile() as said, open(source, 'rb') if is_path else contextlib.nullcontext(subprocess.PIPE) as given:
        run = subprocess.Popen([program, 'convert', '--format', format, *options], stdin=given, stdout=subprocess.PIPE, stderr=said)
        try:
            if not is_path:
                threading.Thread(target=feed, args=(read, run, failures), daemon=True).start()
            for line in run.stdout:
                if line.endswith(b'\n'):  # as each line does, unless the run was killed
                    yield line
            status = run.wait()
        finally:
            run.kill()
            run.stdout.close()
            run.wait()
        said.seek(0)
        text = said.read().decode(errors='replace').strip()
    if failures:
        raise failures[0]
    place = re.search(r'^rdfconv: (.*) at byte (\d+), line (\d+)$', text, re.M)
    if status == 1 and place:
        raise Refused(place[1], int(place[2]), int(place[3]))
    if status:
        raise RuntimeError(f'{program} ended with status {status}: {text}')
