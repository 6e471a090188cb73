"""The types of arguments, for type checkers and for `typing.get_type_hints`."""

import collections.abc
from typing import TYPE_CHECKING, Any, Iterable, Mapping, Tuple, Union

if TYPE_CHECKING:
    from _typeshed import ReadableBuffer as ReadableBuffer
    from _typeshed import WriteableBuffer as WriteableBuffer
else:
    # Before Python 3.12 there is no class of all that has a buffer.
    ReadableBuffer = WriteableBuffer = getattr(collections.abc, "Buffer", Any)

Text = Union[str, ReadableBuffer]
# A list of bytes or texts, and of None if a row has none, or an array with a row for each.
Column = Iterable[Any]
OptionalBlocks = Union[Mapping[str, str], Iterable[Tuple[str, str]]]
