import os
from typing import BinaryIO, Iterator, Mapping, Tuple, Union

Text = Union[str, bytes, bytearray, memoryview]
PROGRAM: str

class Refused(Exception):
    reason: str
    offset: int
    line: int
    lines: bytes
    def __init__(self, reason: str, offset: int, line: int, lines: bytes) -> None: ...

class BadPrefixes(Exception):
    reason: str
    line: int
    def __init__(self, reason: str, line: int) -> None: ...

def convert(document: Text, format: str = ..., base: Text = ..., prefixes: Union[Text, Mapping[str, str]] = ..., word: Text = ..., *,
            token: int = ..., depth: int = ..., bindings: int = ..., iri: int = ..., ascii: bool = ...) -> bytes: ...

def check(document: Text, format: str = ..., base: Text = ..., prefixes: Union[Text, Mapping[str, str]] = ..., *,
          token: int = ..., depth: int = ..., bindings: int = ..., iri: int = ..., ascii: bool = ...) -> Tuple[int, int, int]: ...

def lines(source: Union[str, 'os.PathLike[str]', BinaryIO], format: str = ..., base: Text = ...,
          prefixes: Union[Text, Mapping[str, str]] = ..., word: Text = ..., *,
          token: int = ..., depth: int = ..., bindings: int = ..., iri: int = ..., ascii: bool = ...) -> Iterator[bytes]: ...
