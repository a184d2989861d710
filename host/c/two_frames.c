#include "../hingefrost.h"
#include <stdio.h>

int main(void) {
    static const uint32_t list[] = {127489};
    static const uint8_t first[HF_FRAME_BYTES] = {0x00, 7, 'b', 'o', 'a', 't', ' ', '1'};
    static const uint8_t next[HF_FRAME_BYTES] = {0x01, '4', 0xFF, 0xFF, 0xFF, 0xFF, 0xFF, 0xFF};
    hf_pool pool;
    hf_counters counters;
    hf_message message;

    hf_counters_new(&counters);
    if (hf_pool_new(&pool, 4) != HF_OK) return 1;
    if (hf_process_frame(&pool, &counters, list, 1, 1000, 127489, 35, first, &message) != HF_FRAGMENT_CONSUMED) return 1;
    if (hf_process_frame(&pool, &counters, list, 1, 1010, 127489, 35, next, &message) != HF_MESSAGE_COMPLETE) return 1;
    printf("%.*s, %zu bytes\n", (int)message.length, (const char *)message.payload, message.length);
    return 0;
}
