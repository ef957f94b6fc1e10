"""Types, operations and items as the words of a script: Python's, numpy's and mpi4py's. Neither numpy nor mpi4py is needed."""
from typing import Any, List, Optional, Sequence

OPS = "max min sum prod land lor lxor band bor bxor maxloc minloc affine".split()
TYPES = "i8 i16 i32 i64 u8 u16 u32 u64 2int".split()
_SIGNED = "SIGNED_CHAR SHORT INT LONG LONG_LONG INT8_T INT16_T INT32_T INT64_T".split()
_UNSIGNED = "UNSIGNED_CHAR UNSIGNED_SHORT UNSIGNED UNSIGNED_LONG UNSIGNED_LONG_LONG UINT8_T UINT16_T UINT32_T UINT64_T".split()


def op_word(op: Any) -> str:
    """'sum', or mpi4py's MPI.SUM."""
    if isinstance(op, str):
        return op
    from mpi4py import MPI
    for word in OPS[:-1]:
        if op == getattr(MPI, word.upper()):
            return word
    raise ValueError("%r is none of %s" % (op, " ".join(OPS)))


def type_word(type: Any, values: Sequence[Any] = ()) -> str:
    """'i64', numpy's dtype, mpi4py's MPI.INT, or None: then that of the first array among the values."""
    if isinstance(type, str) and type in TYPES:
        return type
    if type is None:
        arrays = [it for it in values if hasattr(it, "dtype")]
        if not arrays:
            raise ValueError("a type is needed where the items aren't arrays of numpy: one of %s" % " ".join(TYPES))
        type = arrays[0].dtype
    if hasattr(type, "Get_size") and hasattr(type, "Get_envelope"):
        return _mpi_word(type)
    if isinstance(type, str) or not hasattr(type, "kind"):
        raise ValueError("%r is none of %s" % (type, " ".join(TYPES)))
    word = "%s%d" % (type.kind, 8 * type.itemsize)
    if word not in TYPES:
        raise ValueError("%s is none of %s" % (type, " ".join(TYPES)))
    return word


def _mpi_word(type: Any) -> str:
    from mpi4py import MPI
    if type == MPI.TWOINT or type == MPI.INT_INT:
        return "2int"
    for letter, names in (("u", _UNSIGNED), ("i", _SIGNED)):
        if any(type == getattr(MPI, name) for name in names):
            return "%s%d" % (letter, 8 * type.Get_size())
    raise ValueError("%s is none of %s" % (type.Get_name(), " ".join(TYPES)))


def items_of(own: Any) -> List[int]:
    """Items as numbers: a list, an array, or one number. What isn't whole is refused."""
    flat = own.ravel().tolist() if hasattr(own, "ravel") else [own] if not hasattr(own, "__iter__") else list(own)
    for it in flat:
        if int(it) != it:
            raise ValueError("%r is no integer" % (it,))
    return [int(it) for it in flat]


def list_word(numbers: Optional[Sequence[Any]]) -> str:
    """Numbers with commas between, or `-`."""
    return ",".join(str(it) for it in numbers) if numbers else "-"
