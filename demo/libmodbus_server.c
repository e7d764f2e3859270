/* A server made of libmodbus and of nothing of this repository, for interop.py: 47 registers from 0100 on, each with A000 and its address, and a coil
   at 0300, which is on. It is station 1 at 9600.
   usage: libmodbus_server LINE */
#include <errno.h>
#include <modbus/modbus.h>
#include <stdio.h>
#include <string.h>

enum { STATION = 1, FIRST = 0x0100, REGISTERS = 47, COIL = 0x0300, FRESH = 0xA000 };

static modbus_mapping_t *make_mapping(void)
{
    modbus_mapping_t *mapping = modbus_mapping_new_start_address(COIL, 1, 0, 0, FIRST, REGISTERS, 0, 0);
    if (!mapping)
        return NULL;
    mapping->tab_bits[0] = 1;
    for (int k = 0; k < REGISTERS; k++)
        mapping->tab_registers[k] = (uint16_t)(FRESH + FIRST + k);
    return mapping;
}

/* libmodbus numbers its own errors, as a bad check, from a base on: these leave the line as it is. */
static void serve(modbus_t *server, modbus_mapping_t *mapping)
{
    uint8_t query[MODBUS_RTU_MAX_ADU_LENGTH];
    for (;;) {
        int n = modbus_receive(server, query);
        if (n > 0)
            modbus_reply(server, query, n, mapping);
        else if (n < 0 && errno < MODBUS_ENOBASE)
            return;
    }
}

int main(int argc, char **argv)
{
    modbus_t *server = argc == 2 ? modbus_new_rtu(argv[1], 9600, 'N', 8, 1) : NULL;
    modbus_mapping_t *mapping = make_mapping();
    if (!server || !mapping || modbus_set_slave(server, STATION) != 0 || modbus_connect(server) != 0) {
        fprintf(stderr, "no server of libmodbus: %s\n", argc == 2 ? modbus_strerror(errno) : "usage: libmodbus_server LINE");
        return 1;
    }
    puts("server on");
    fflush(stdout);
    serve(server, mapping);
    fprintf(stderr, "the server's line is gone: %s\n", strerror(errno));
    return 1;
}
