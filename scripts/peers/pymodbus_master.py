#!/usr/bin/python3
"""pymodbus, of version 3.0, as the master on a line, for scripts/modbus_peers: pymodbus_master.py DEVICE BAUD. It reads and
writes the lines that libmodbus_master.c does."""

import logging
import sys

from pymodbus.client import ModbusSerialClient
from pymodbus.constants import Endian
from pymodbus.exceptions import ModbusIOException
from pymodbus.payload import BinaryPayloadBuilder, BinaryPayloadDecoder


def number_in(registers):
    return BinaryPayloadDecoder.fromRegisters(registers, byteorder=Endian.Big, wordorder=Endian.Big).decode_32bit_uint()


def registers_of(number):
    builder = BinaryPayloadBuilder(byteorder=Endian.Big, wordorder=Endian.Big)
    builder.add_32bit_uint(number)
    return builder.to_registers()


def carry_out(client, slave, name, numbers):
    """What pymodbus answers to a request."""
    if name == "read":
        return client.read_holding_registers(numbers[0], numbers[1], slave=slave)
    if name == "number":
        return client.read_holding_registers(numbers[0], 2, slave=slave)
    if name == "inputs":
        return client.read_input_registers(numbers[0], numbers[1], slave=slave)
    if name == "coils":
        return client.read_coils(numbers[0], numbers[1], slave=slave)
    if name == "coil":
        return client.write_coil(numbers[0], bool(numbers[1]), slave=slave)
    if name == "one":
        return client.write_register(numbers[0], numbers[1], slave=slave)
    if name == "set":
        return client.write_registers(numbers[0], registers_of(numbers[1]), slave=slave)
    return client.write_registers(numbers[0], numbers[1:], slave=slave)


def shown(name, answer):
    if isinstance(answer, ModbusIOException):
        return "no reply"
    if answer.isError():
        return f"exception {answer.exception_code}"
    if name == "number":
        return str(number_in(answer.registers))
    if name in ("read", "inputs"):
        return " ".join(map(str, answer.registers))
    if name == "coils":
        return " ".join(str(int(bit)) for bit in answer.bits)
    return "written"


def main():
    # A reply that does not come is an answer here, and no error to be told of.
    logging.disable(logging.CRITICAL)
    client = ModbusSerialClient(
        port=sys.argv[1], baudrate=int(sys.argv[2]), bytesize=8, parity="N", stopbits=2, timeout=1, retries=0
    )
    for line in sys.stdin:
        slave, name, *numbers = line.split()
        if not client.connect():
            sys.exit("pymodbus_master: no line")
        print(shown(name, carry_out(client, int(slave), name, list(map(int, numbers)))), flush=True)
    client.close()


if __name__ == "__main__":
    main()
