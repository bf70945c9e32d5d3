#!/usr/bin/env python3
"""Compares texts of floats, each behind its bits on a line of the input, with Python's `repr` laid out as the kit's `ryu` does:

usage: shortest.py KIND < LINES"""
import re
import struct
import sys


def laid_out(x):
    """The digits of `repr`, with a point or an exponent: an exponent beyond 16 digits before the point or 4 zeros behind it."""
    sign, whole, fraction, exponent = re.fullmatch(r"(-?)(\d+)(?:\.(\d+))?(?:e([+-]\d+))?", repr(x)).groups()
    fraction = fraction or ""
    digits = (whole + fraction).lstrip("0")
    place = len(whole) + int(exponent or 0) - (len(whole + fraction) - len(digits))
    digits = digits.rstrip("0")
    if not digits:
        return sign + "0.0"
    if 0 < place <= 16:
        if place < len(digits):
            return f"{sign}{digits[:place]}.{digits[place:]}"
        return f"{sign}{digits}{'0' * (place - len(digits))}.0"
    if -4 <= place <= 0:
        return f"{sign}0.{'0' * -place}{digits}"
    rest = "." + digits[1:] if len(digits) > 1 else ""
    return f"{sign}{digits[0]}{rest}e{place - 1}"


def main():
    same = other = 0
    for line in sys.stdin:
        bits, text = line.split()
        x = struct.unpack("<d", struct.pack("<Q", int(bits)))[0]
        if text == laid_out(x) and float(text) == x:
            same += 1
        else:
            other += 1
            if other <= 10:
                print(f"{sys.argv[1]}: {bits}: {text}, and not {laid_out(x)}")
    print(f"{sys.argv[1]}: {same} as Python's, {other} others")


main()
