"""Records of fields: how they are read, by the default settings of `csv`, and how they are printed."""
import re

MARK = b"\xef\xbb\xbf"
END = re.compile(rb"[,\r\n]|\Z")


def field_at(data, place):
    """The field that begins at a place, and the place behind it."""
    text = b""
    if data[place : place + 1] == b'"':
        place += 1
        while True:
            end = data.find(b'"', place)
            if end < 0:
                return text + data[place:], len(data)
            text, place = text + data[place:end], end + 1
            if data[place : place + 1] != b'"':
                break
            text, place = text + b'"', place + 1
    end = END.search(data, place).start()
    return text + data[place:end], end


def records(data):
    """The records of some bytes, each a list of its fields."""
    data = data.removeprefix(MARK)
    place = 0
    while place < len(data):
        if data[place] in b"\r\n":
            place += 1
            continue
        fields = []
        while True:
            field, place = field_at(data, place)
            fields.append(field)
            if data[place : place + 1] != b",":
                break
            place += 1
        yield fields


def is_utf8(data):
    """Whether some bytes are UTF-8."""
    try:
        data.decode()
    except UnicodeDecodeError:
        return False
    return True


def bytes_of(field):
    """What a field is printed as, before it is quoted: a number, a text, bytes, or nothing where it is null."""
    return b"" if field is None else field if isinstance(field, bytes) else str(field).encode()


def quoted(field):
    """A printed field."""
    return b'"' + field.replace(b'"', b'""') + b'"' if re.search(rb'[,"\r\n]', field) else field


def printed(*fields):
    """A printed record."""
    return b",".join(quoted(bytes_of(field)) for field in fields) + b"\n"
