/* A library of other declarations: its number is none of those that there were. */
#include <stdint.h>

uint32_t enforce_abi(void);
uint32_t enforce_abi(void) { return 4096; }
