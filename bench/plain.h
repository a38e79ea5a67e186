#include <stdint.h>

uint32_t plain_play(uint32_t *surface, uint32_t width, uint8_t *journal, uint64_t *used, const uint8_t *record, uint32_t brush);
uint32_t plain_undo(uint32_t *surface, uint32_t width, uint32_t height, const uint8_t *journal, uint64_t *used);
