#!/usr/bin/python3
"""A server made of pymodbus and of nothing of this repository, for interop.py: 47 registers from 0100 on, each with A000 and its address, and a coil at
0300, which is on. It is station 1 at 9600.

  pymodbus_server.py LINE
"""
import asyncio
import logging
import sys

from pymodbus.datastore import ModbusSequentialDataBlock, ModbusServerContext, ModbusSlaveContext
from pymodbus.framer.rtu_framer import ModbusRtuFramer
from pymodbus.server import StartAsyncSerialServer

STATION, FIRST, REGISTERS, COIL, FRESH = 1, 0x0100, 47, 0x0300, 0xA000


async def serve(line):
    registers = ModbusSequentialDataBlock(FIRST, [FRESH + FIRST + k for k in range(REGISTERS)])
    store = ModbusSlaveContext(hr=registers, co=ModbusSequentialDataBlock(COIL, [True]), zero_mode=True)
    context = ModbusServerContext(slaves={STATION: store}, single=False)
    server = await StartAsyncSerialServer(context=context, framer=ModbusRtuFramer, port=line, baudrate=9600, bytesize=8, parity="N", stopbits=1,
                                          defer_start=True)
    await server.start()
    print("server on", flush=True)
    await server.serve_forever()


if __name__ == "__main__":
    logging.disable(logging.ERROR)    # pymodbus logs each error that it answers with, and the steps ask for some
    asyncio.run(serve(sys.argv[1]))
