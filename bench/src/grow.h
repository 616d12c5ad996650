/* Documents of any size, as archives are: groups in groups, stations in them,
 * remarks on stations, stations in remarks. */
#ifndef GROW_H
#define GROW_H

#include <stddef.h>
#include <stdint.h>

/* Writes a TRE file of so many elements, 1 to 127, and answers its length. */
size_t grow(uint8_t *tre, size_t elements);

#endif
