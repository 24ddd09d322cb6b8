#!/usr/bin/env python3
"""A trace of five slots: pressures and readings that are none, damage by hand and from a seed, mended or not; then a survey.

The argument is the path of the shared object. include/mizbulett.h documents every call, number and value.
"""
import ctypes
import sys

CODE_36_O = 1
UNDER = 0
OVER = 4095
SLOTS = 5
SIZE = 11 * SLOTS + 8

NUMBER = ctypes.c_uint64
SEED = ctypes.c_uint32
NUMBERS = ctypes.POINTER(NUMBER)
BYTES = ctypes.POINTER(ctypes.c_uint8)
LENGTH = ctypes.c_size_t


def fitting(kind, number):
    """A number that fits its type. ctypes cuts one that does not, so it is refused here."""
    if not 0 <= number < 256 ** ctypes.sizeof(kind):
        raise ValueError(f"{number} does not fit its type")
    return number


def passed(kind, argument):
    """What C gets for an argument: a number, or the address and length of a list."""
    if kind is not NUMBERS:
        return [fitting(kind, argument)]
    return [(NUMBER * len(argument))(*(fitting(NUMBER, number) for number in argument)), len(argument)]


def declared(library, name, *kinds, values=0):
    """A trace call on a buffer's bytes: its answer is the number that it returns, and where it has values, these behind it."""
    call = library[f"mizbulett_{name}"]
    behind = [kind for given in kinds for kind in ([NUMBERS, LENGTH] if given is NUMBERS else [given])]
    call.argtypes = [BYTES, LENGTH] + behind + [NUMBERS] * (values > 0)
    call.restype = NUMBER

    def on_bytes(trace, *arguments):
        buf = (ctypes.c_uint8 * len(trace)).from_buffer(trace)
        given = [value for kind, argument in zip(kinds, arguments) for value in passed(kind, argument)]
        if values == 0:
            return call(buf, len(trace), *given)
        out = (NUMBER * values)()
        return call(buf, len(trace), *given, out), list(out)

    return on_bytes


def main():
    library = ctypes.CDLL(sys.argv[1])
    make = declared(library, "make", NUMBER, NUMBER)
    put, put_list = declared(library, "put", NUMBER, NUMBER, NUMBER), declared(library, "put_list", NUMBER, NUMBERS, NUMBERS)
    flip, mark = declared(library, "flip", NUMBER, NUMBER), declared(library, "mark", NUMBER, NUMBER)
    load = declared(library, "load", NUMBER, SEED, NUMBER, values=1)
    read, survey = declared(library, "read", NUMBER, values=5), declared(library, "survey", values=11)

    trace = bytearray(SIZE)
    answers = [make(trace, CODE_36_O, SLOTS)]

    # Slots 0 to 2 from lists, as a pump sends them, and slot 3 by itself.
    steps, readings = [74, 75, 76], [2385, OVER, 2401]
    answers += [put_list(trace, 0, steps, readings), put(trace, 3, 77, UNDER)]

    # Slot 0: two wrong bits and three marks, one of them on a wrong bit: 2 * 1 + 3 is at most 7, and it is mended.
    answers += [flip(trace, 0, position) for position in (3, 35)]
    answers += [mark(trace, 0, position) for position in (35, 20, 21)]

    # Slot 2: four wrong bits, one too many.
    answers += [flip(trace, 2, position) for position in (0, 9, 18, 27)]

    # Slots 1 and 3: as many wrong bits as are mended, the same ones wherever these loads are made.
    # The number that the first load hands back is the seed of the second.
    seed = 1
    for slot in (1, 3):
        number, (handed_back,) = load(trace, slot, seed, 3)
        answers.append(number)
        print(f"load {slot} {seed} 3: handed back {handed_back}")
        seed = handed_back
    assert not any(answers), answers

    # A step that the code has no room for, lists past the end, and more bits than a word has: refused, and nothing changes.
    print("put 4 128 900: refused", put(trace, 4, 128, 900))
    print("puts 3 74,75,76 2385,4095,2401: refused", put_list(trace, 3, steps, readings))
    print("load 0 1 37: refused", load(trace, 0, 1, 37)[0])

    for slot in range(SLOTS):
        number, (step, reading, wrong, marks, marked_wrong) = read(trace, slot)
        if number != 0:
            print(f"slot {slot}: refused {number}")
        else:
            # A reading under or over the converter's range is no pressure.
            note = "" if UNDER < reading < OVER else ", no pressure"
            print(f"slot {slot}: step {step} reading {reading}, {wrong} wrong, {marks} marked, {marked_wrong} of them wrong{note}")

    number, (blank, pressures, over, under, lost, bad, _, present, smallest, largest, mean) = survey(trace)
    assert number == 0, number
    print(f"blank {blank} read {pressures} over {over} under {under} lost {lost} bad {bad}")
    print(f"pressures from {smallest} to {largest}, mean {mean}" if present else "no pressure")


if __name__ == "__main__":
    main()
