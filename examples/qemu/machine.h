/* The machine: a serial line, and two devices that can be told to read and write memory (QEMU's `edu`). */
#ifndef MACHINE_H
#define MACHINE_H

#include <stdbool.h>
#include <stddef.h>
#include <stdint.h>

enum { DEVICES = 2, PAGE = 4096 };

/* A word of memory or a register, at its address. */
static inline volatile uint32_t *word32(uint64_t address) {
    return (volatile uint32_t *)address;
}
static inline volatile uint64_t *word64(uint64_t address) {
    return (volatile uint64_t *)address;
}

/* Text on the serial line. */
void text(const char *s);
void number(uint64_t n);
void hex(uint64_t n);

/* Ends the machine: QEMU's status is 33 where nothing differed, else 35. QEMU itself ends with 1 where it can't begin. */
void power_off(bool differs);

/* Finds the devices, and lets them reach memory. False where there are too few. */
bool find_devices(void);

/* The number of a device on bus 0, which is its number for the manager too. */
uint64_t device_number(unsigned device);

/* Has a device write 8 bytes, or read as many, at an address: from a word of its own buffer, or into it. */
void device_writes(unsigned device, uint64_t address, unsigned word);
void device_reads(unsigned device, uint64_t address, unsigned word);

#endif
