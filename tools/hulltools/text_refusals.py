"""A file that is no JSON text, refused by a reader of this package as the program refuses it: with its code, its place and its words."""
from .errors import HullError, Name, shown_name
from .faults import told_text
from .json_places import located
from .json_texts import STATUS
from .named_files import Files


def text_refusal(name: Name, what: str, data: bytes, why: str) -> HullError:
    """The error of a file's bytes, where `what` is what they should be, as 'a case', and `why` is what a reader says of them.

    The status is None of files that the program doesn't read, as zones.
    """
    shown, kind = shown_name(name), what.split()[-1]
    line, file = f"{shown}: no JSON text as {what} has it: {why}", located(shown, data)
    if not file.faults:
        return HullError(line)
    code, at = file.faults[0].code, file.byte(file.faults[0].at)
    files = Files({kind: shown}, held={kind: data}, paths={(kind, at): file.faults[0].path})
    said, status = f"{shown}: {told_text(files, kind, code, at)}.", STATUS.get(kind)
    told = line if status is None else f"{line}: fault {status} {kind} {code} at {at}"
    return HullError(told, status, code, sentence=said, at_byte=at, at_line=data.count(b"\n", 0, at) + 1)
