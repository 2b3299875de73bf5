"""Writing into lent outputs."""

from .advertising import advertisement
from .stored_list import stored_list


def put(data, out):
    """The lent output with the data at its start."""
    # "Bytes past those written stay."
    return data + out[len(data) :]


def put_or_refuse(data, out):
    """0 and the output written, or 13 and the output as it was."""
    # "Answer 13 if the output is shorter than the whole structure."
    if len(out) < len(data):
        return 13, out
    return 0, put(data, out)


def write_stored_list(device, out):
    """ "Writing needs 4 + 16n bytes, else 13." """
    return put_or_refuse(stored_list(device), out)


def write_advertisement(device, hide, out):
    """ "Asking for a payload changes no state and needs no clock." """
    return put_or_refuse(advertisement(device, hide), out)
