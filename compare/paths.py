"""Where the files are that are compared."""
import os
import shutil

HERE = os.path.dirname(os.path.abspath(__file__))
TOP = os.path.dirname(HERE)
INDEPENDENT = os.path.join(HERE, 'independent')      # the folder of reader.py, cases.py and documents.py


def specs_file(crate, module):
    """The file of a module of a crate's definitions."""
    return os.path.join(TOP, 'crates', crate, 'specs', module + '.antt')


def kit_file(path):
    """A file of the Rattle kit by its place in the kit's folder `rattle`, or None where no kit is on the PATH."""
    rt = shutil.which('rt')
    if rt is None:
        return None
    found = os.path.join(os.path.dirname(os.path.dirname(os.path.realpath(rt))), 'rattle', path)
    return found if os.path.exists(found) else None
