"""The program that is in this package: the command rdfconv."""
import os
import sys

PROGRAM = os.path.join(os.path.dirname(os.path.abspath(__file__)), 'bin', 'rdfconv')


def main():
    os.execv(PROGRAM, ['rdfconv', *sys.argv[1:]])
