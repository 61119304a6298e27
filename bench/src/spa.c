// SPA's ring, whose calls are inline in its header, behind one call for a write and one for a read.
#include <spa/utils/ringbuffer.h>

uint32_t spa_ring_write(struct spa_ringbuffer *ring, void *memory, uint32_t size, const void *src, uint32_t len)
{
	uint32_t index;
	uint32_t space = size - spa_ringbuffer_get_write_index(ring, &index);
	uint32_t n = SPA_MIN(len, space);
	spa_ringbuffer_write_data(ring, memory, size, index & (size - 1), src, n);
	spa_ringbuffer_write_update(ring, index + n);
	return n;
}

uint32_t spa_ring_read(struct spa_ringbuffer *ring, const void *memory, uint32_t size, void *dst, uint32_t len)
{
	uint32_t index;
	uint32_t data = spa_ringbuffer_get_read_index(ring, &index);
	uint32_t n = SPA_MIN(len, data);
	spa_ringbuffer_read_data(ring, memory, size, index & (size - 1), dst, n);
	spa_ringbuffer_read_update(ring, index + n);
	return n;
}
