#include "machine.h"

/* ---- Ports */

static inline void out8(uint16_t port, uint8_t value) {
    __asm__ volatile("outb %0, %1" ::"a"(value), "Nd"(port));
}
static inline uint8_t in8(uint16_t port) {
    uint8_t value;
    __asm__ volatile("inb %1, %0" : "=a"(value) : "Nd"(port));
    return value;
}
static inline void out32(uint16_t port, uint32_t value) {
    __asm__ volatile("outl %0, %1" ::"a"(value), "Nd"(port));
}
static inline uint32_t in32(uint16_t port) {
    uint32_t value;
    __asm__ volatile("inl %1, %0" : "=a"(value) : "Nd"(port));
    return value;
}

/* ---- Text */

void text(const char *s) {
    for (; *s; s++) {
        while (!(in8(0x3fd) & 0x20))
            ;
        out8(0x3f8, (uint8_t)*s);
    }
}

static void in_base(uint64_t n, unsigned base) {
    char digits[21];
    int i = 20;
    digits[20] = 0;
    do
        digits[--i] = "0123456789abcdef"[n % base];
    while (n /= base);
    text(digits + i);
}

void number(uint64_t n) {
    in_base(n, 10);
}

void hex(uint64_t n) {
    text("0x");
    in_base(n, 16);
}

void power_off(bool differs) {
    out8(0xf4, 16 + differs); /* N ends it with 2 * N + 1 */
    for (;;)
        ;
}

/* ---- Devices: QEMU's edu, of vendor 0x1234 */

enum { EDU = 0x11e81234, BUFFER = 0x40000, SOURCE = 0x80, TARGET = 0x88, COUNT = 0x90, COMMAND = 0x98 };

static struct {
    uint32_t number;
    uint64_t registers;
} devices[DEVICES];

static uint32_t config_read(uint32_t device, uint32_t at) {
    out32(0xcf8, 0x80000000u | device << 11 | at);
    return in32(0xcfc);
}

static void config_write(uint32_t device, uint32_t at, uint32_t value) {
    out32(0xcf8, 0x80000000u | device << 11 | at);
    out32(0xcfc, value);
}

bool find_devices(void) {
    unsigned found = 0;
    for (uint32_t device = 0; device < 16 && found < DEVICES; device++)
        if (config_read(device, 0) == EDU) {
            config_write(device, 4, (config_read(device, 4) & 0xffff) | 6); /* memory, bus master */
            devices[found].number = device;
            devices[found++].registers = config_read(device, 0x10) & ~15u;
        }
    return found == DEVICES;
}

uint64_t device_number(unsigned device) {
    return devices[device].number;
}

/* A transfer takes the device 100 ms of the machine's clock; a poll costs more than a turn of the loop. */
static void transfer(unsigned device, uint64_t from, uint64_t to, uint32_t command) {
    uint64_t at = devices[device].registers;
    *word64(at + SOURCE) = from;
    *word64(at + TARGET) = to;
    *word64(at + COUNT) = 8;
    *word64(at + COMMAND) = command | 1;
    uint32_t turns = 47000;
    __asm__ volatile("1: dec %0; jnz 1b" : "+r"(turns));
    while (*word64(at + COMMAND) & 1)
        ;
}

void device_reads(unsigned device, uint64_t address, unsigned word) {
    transfer(device, address, BUFFER + 8 * word, 0);
}

void device_writes(unsigned device, uint64_t address, unsigned word) {
    transfer(device, BUFFER + 8 * word, address, 2);
}
