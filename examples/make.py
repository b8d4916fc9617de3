#!/usr/bin/env python3
"""Writes the example circuits beside this script as tagged files.

Each is a textbook construction, said at its function. A literal is 2 * index, plus 1 if complemented.
"""
import os


class Circuit:
    """A graph in the making: inputs first, then nodes in index order."""

    def __init__(self, inputs):
        self.inputs, self.nodes, self.outputs = inputs, [], []

    def input(self, k):
        return 2 * (1 + k)

    def node(self, *literals):
        self.nodes.append(literals)
        return 2 * (self.inputs + len(self.nodes))

    def bytes(self):
        def field(tag, *numbers):
            payload = b"".join(n.to_bytes(4, "big") for n in numbers)
            return bytes([tag]) + len(payload).to_bytes(2, "big") + payload

        fields = [field(1, self.inputs, len(self.nodes), len(self.outputs))]
        fields += [field(2 if len(x) == 3 else 3, *x) for x in self.nodes]
        fields += [field(4, x) for x in self.outputs]
        return b"".join(fields) + field(5)


FALSE = 0


def inverted(literal):
    return literal ^ 1


def full_adder(c, x, y, carry):
    """The full adder of three majorities: carry = <x y z>, sum = <carry' <x y z'> z>."""
    out = c.node(x, y, carry)
    return c.node(inverted(out), c.node(x, y, inverted(carry)), carry), out


def and_gate(c, x, y):
    """x and y is <0 x y>."""
    return c.node(FALSE, x, y)


def or_gate(c, x, y):
    """x or y as an and-inverter graph has it: the opposite of the AND of the opposites."""
    return inverted(and_gate(c, inverted(x), inverted(y)))


def half_adder(c, x, y):
    """The half adder: an XOR and an AND."""
    return c.node(x, y), and_gate(c, x, y)


def two_half_adders(c, x, y, carry):
    """The full adder of two half adders and an OR."""
    part, first = half_adder(c, x, y)
    total, second = half_adder(c, part, carry)
    return total, or_gate(c, first, second)


def one_adder():
    """One full adder of three majorities: inputs x, y, z; outputs sum, carry."""
    c = Circuit(3)
    c.outputs = list(full_adder(c, c.input(0), c.input(1), c.input(2)))
    return c


def ripple_adder(width):
    """The ripple-carry adder: a full adder a place, each carry into the next. Inputs x, y, carry in, lowest bit first."""
    c = Circuit(2 * width + 1)
    carry = c.input(2 * width)
    for k in range(width):
        total, carry = full_adder(c, c.input(k), c.input(width + k), carry)
        c.outputs.append(total)
    c.outputs.append(carry)
    return c


def adder_stage(width):
    """One step of serial addition: the lowest bits are added, and both numbers move on by one place, x with the bit of the sum above it.
    Inputs x, y, carry, lowest bit first, and outputs likewise: joined with itself `width` times it leaves the sum, y and the carry."""
    c = Circuit(2 * width + 1)
    x, y = ([c.input(start + k) for k in range(width)] for start in (0, width))
    total, carry = full_adder(c, x[0], y[0], c.input(2 * width))
    c.outputs = x[1:] + [total] + y[1:] + [y[0], carry]
    return c


def array_multiplier(width):
    """The array multiplier: a row of ANDs for each bit of y, added to the rows above it by half adders and by full
    adders of two half adders and an OR."""
    c = Circuit(2 * width)
    row = [and_gate(c, c.input(k), c.input(width)) for k in range(width)]
    c.outputs.append(row[0])
    above = row[1:]
    for j in range(1, width):
        row = [and_gate(c, c.input(k), c.input(width + j)) for k in range(width)]
        total, carry = half_adder(c, row[0], above[0])
        sums = [total]
        for k in range(1, width):
            if k < len(above):
                total, carry = two_half_adders(c, row[k], above[k], carry)
            else:
                total, carry = half_adder(c, row[k], carry)
            sums.append(total)
        c.outputs.append(sums[0])
        above = sums[1:] + [carry]
    c.outputs += above
    return c


def value(c, assignment):
    """The outputs' values, to hold the circuit to what it is meant to compute."""
    bits = [0] + list(assignment)
    at = lambda x: bits[x // 2] ^ (x & 1)
    for x in c.nodes:
        bits.append(sum(map(at, x)) // 2 if len(x) == 3 else at(x[0]) ^ at(x[1]))
    return sum(at(x) << k for k, x in enumerate(c.outputs))


def number_bits(n, width):
    return [n >> k & 1 for k in range(width)]


def main():
    adder, eight, four, stage = one_adder(), ripple_adder(8), array_multiplier(4), adder_stage(4)
    for n in range(8):
        assert value(adder, number_bits(n, 3)) == bin(n).count("1")
    for x in range(256):
        for y in range(256):
            assert value(eight, number_bits(x, 8) + number_bits(y, 8) + [x & 1]) == x + y + (x & 1)
    for x in range(16):
        for y in range(16):
            assert value(four, number_bits(x, 4) + number_bits(y, 4)) == x * y
            for carry in range(2):
                state = x + 16 * y + 256 * carry
                for _ in range(4):
                    state = value(stage, number_bits(state, 9))
                assert (state & 15) + 16 * (state >> 8) == x + y + carry and state >> 4 & 15 == y
    here = os.path.dirname(os.path.abspath(__file__))
    for name, c in [("full_adder", adder), ("adder8", eight), ("multiplier4", four), ("adder_stage4", stage)]:
        with open(os.path.join(here, name + ".mig"), "wb") as f:
            f.write(c.bytes())
        print(f"{name}.mig: {c.inputs} inputs, {len(c.nodes)} nodes, {len(c.outputs)} outputs, {len(c.bytes())} bytes")


main()
