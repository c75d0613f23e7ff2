/* Borewizard: a proved model of up to eight AT21CS01/AT21CS11 devices on one wire.
 *
 * Link with libborewizard.a, which `tools/build library` writes to target/staticlib/.
 * No function allocates, keeps a pointer after it returns, or needs a call before it. Each returns a number of the refusals, 0 for done:
 *
 *    1  bus file longer than 1,344 bytes or no multiple of 168
 *    2  a record's mark              3  part                4  slave address over 7
 *    5  slave address not above the one before
 *    6  flag bit 6 or 7 set          7  a reserved byte that is not FFh
 *    8  event file over 49,152 bytes, or an event torn by the end
 *    9  an event's mark             10  kind over 5
 *   11  answer room below the number of events
 *   14  zone over 3, or no such slave address
 *
 * The first fault counts: bus file, then events, then the room. On a refusal the counts and *from are 0 and nothing else lent has changed.
 * A length of 0 is good; its pointer may then be any non-null pointer. No two of the lent memories may overlap.
 */
#ifndef BOREWIZARD_H
#define BOREWIZARD_H

#include <stddef.h>
#include <stdint.h>

#ifdef __cplusplus
extern "C" {
#endif

/* Carries out an event file on the devices of a bus file. answers gets one byte an event: the wire's level 00h or 01h for a bit frame, 02h for a Null, 03h for
 * a Wait, 04h (a device is there) or 05h (none) for a Reset or Cut, 80h for an event that is not carried out because a device programs. The rest of the room
 * is left. The bus file is left with the stored fields as they are after the last event; a cycle that still runs is not applied.
 * *count is the number of events, *refused the number of 80h answers. */
uint32_t borewizard_run(uint8_t *bus, size_t bus_len, const uint8_t *events, size_t events_len, uint8_t *answers, size_t answers_len, size_t *count, size_t *refused);

/* Finds the 32 bytes of zone 0 to 3 of the device with a slave address: they start at bus + *from. */
uint32_t borewizard_zone(const uint8_t *bus, size_t bus_len, uint8_t slave, uint8_t zone, size_t *from);

#ifdef __cplusplus
}
#endif

#endif
