#!/usr/bin/env python3
"""Prints the output of a list.

    print.py libcppunits.so dump|deps|text|faults < LIST
"""
import ctypes
import sys

MODES = ("dump", "deps", "text", "faults")


def load(path):
    """Returns the call of the library at a path."""
    call = ctypes.CDLL(path).cppunits_print
    number, size, text = ctypes.c_uint32, ctypes.c_size_t, ctypes.c_char_p
    call.argtypes = [text, size, number, text, size, ctypes.POINTER(size), ctypes.POINTER(number)]
    call.restype = number
    return call


def output(call, data, mode, room=65536):
    """Returns the status, the output and the refusal of a list."""
    out, length, refusal = ctypes.create_string_buffer(room), ctypes.c_size_t(), ctypes.c_uint32()
    status = call(data, len(data), MODES.index(mode), out, room, length, refusal)
    if length.value > room:
        return output(call, data, mode, length.value)
    return status, out.raw[:length.value], refusal.value


if __name__ == "__main__":
    status, text, refusal = output(load(sys.argv[1]), sys.stdin.buffer.read(), sys.argv[2])
    sys.stdout.buffer.write(text)
    if refusal:
        print("list refused L%d" % refusal, file=sys.stderr)
    sys.exit(status)
