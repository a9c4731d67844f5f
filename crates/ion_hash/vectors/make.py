"""Prints the expected bytes and hashes of the tests, from the Ion Hash specification by itself.

It shares nothing with the crate: values are tuples, and times in UTC come from the datetime module.
Run it as `python3 vectors/make.py`.
"""

import hashlib
from datetime import datetime, timedelta


def groups(number, first_bits):
    """Groups of 7 bits, the first of which has only so many bits."""
    found = [number & 0x7F]
    number >>= 7
    while number:
        found.insert(0, number & 0x7F)
        number >>= 7
    if found[0] >> first_bits:
        found.insert(0, 0)
    return found


def var_uint(number):
    found = groups(number, 7)
    found[-1] |= 0x80
    return bytes(found)


def var_int(negative, number):
    found = groups(number, 6)
    if negative:
        found[0] |= 0x40
    found[-1] |= 0x80
    return bytes(found)


def magnitude(number):
    return number.to_bytes((number.bit_length() + 7) // 8, "big")


def int_field(negative, number):
    if number == 0 and not negative:
        return b""
    found = bytearray(number.to_bytes(number.bit_length() // 8 + 1, "big"))
    if negative:
        found[0] |= 0x80
    return bytes(found)


def frame(qualifier, content):
    return bytes([0x0B, qualifier]) + content + b"\x0e"


def escape(content):
    for control in (b"\x0c", b"\x0b", b"\x0e"):
        content = content.replace(control, b"\x0c" + control)
    return content


def scalar(qualifier, representation):
    return frame(qualifier, escape(representation))


def symbol(text):
    return scalar(0x70, text.encode())


def integer(number):
    return scalar(0x30 if number < 0 else 0x20, magnitude(abs(number)))


def decimal(coefficient, exponent, negative_zero=False):
    if (coefficient, exponent, negative_zero) == (0, 0, False):
        return scalar(0x50, b"")
    negative = negative_zero or coefficient < 0
    return scalar(0x50, var_int(exponent < 0, abs(exponent)) + int_field(negative, abs(coefficient)))


def sequence(qualifier, members):
    return frame(qualifier, b"".join(members))


def struct(fields):
    hashes = sorted(hashlib.sha256(symbol(name) + value).digest() for name, value in fields)
    return frame(0xD0, escape(b"".join(hashes)))


def annotated(names, value):
    return frame(0xE0, b"".join(map(symbol, names)) + value)


def time(written, offset, precision, fraction=""):
    """The local parts as written, the offset in minutes or None, how many parts count, the digits."""
    utc = datetime(*written) - timedelta(minutes=offset or 0)
    found = var_int(True, 0) if offset is None else var_int(offset < 0, abs(offset))
    for part in (utc.year, utc.month, utc.day, utc.hour, utc.minute, utc.second)[:precision]:
        found += var_uint(part)
    if fraction:
        found += var_int(True, len(fraction)) + int_field(False, int(fraction))
    return found


def show(name, found):
    print(f"{name}: {found.hex(' ')}")


show("2007T", time((2007, 1, 1), None, 1))
show("2007-02T", time((2007, 2, 1), None, 2))
show("2007-02-03", time((2007, 2, 3), None, 3))
show("2008-02-29T23:30-01:15", time((2008, 2, 29, 23, 30), -75, 5))
show("2008-01-01T00:30+01:15", time((2008, 1, 1, 0, 30), 75, 5))
show("2008-03-01T00:30+01:15", time((2008, 3, 1, 0, 30), 75, 5))
show("2007-12-31T23:30-23:59", time((2007, 12, 31, 23, 30), -1439, 5))
show("2007-02-03T04:05:06Z", time((2007, 2, 3, 4, 5, 6), 0, 6))
show("2007-02-03T04:05:06.070-00:00", time((2007, 2, 3, 4, 5, 6), None, 6, "070"))
show("2007-02-03T04:05:06.0Z", time((2007, 2, 3, 4, 5, 6), 0, 6, "0"))
show("2007-02-03T04:05:06.123456789Z", time((2007, 2, 3, 4, 5, 6), 0, 6, "123456789"))
show("-128d64", decimal(-128, 64))
show("2^127 d-32767", decimal(2**127 - 1, -32767))
show("-2^127 d8192", decimal(-(2**127), 8192))
show("0d5", decimal(0, 5))
show("-2^127", integer(-(2**127)))
show("(null.int {{0B0C0E}})", sequence(0xC0, [scalar(0x2F, b""), scalar(0xA0, b"\x0b\x0c\x0e")]))
repeated = struct([("b", integer(2)), ("a", integer(1)), ("a", integer(1)), ("", struct([]))])
show("{b:2,a:1,a:1,'':{}}", repeated)
show("hash of it", hashlib.sha256(repeated).digest())
named = annotated(["x", "\x0b"], sequence(0xB0, [scalar(0x80, b"\xc3\xa9"), frame(0x11, b"")]))
show("x::'\\x0b'::[\"e acute\",true]", named)
show("hash of it", hashlib.sha256(named).digest())
