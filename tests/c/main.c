/* The functions of the library from C: each of them, with NULL and the length 0, and with the shortest buffers. Run under valgrind. */
#include "check.h"

unsigned long checks;
const hb_pool nothing = { 0, 0 }, everything = { UINT64_MAX, UINT64_MAX };

uint8_t *block(size_t bytes, uint8_t fill)
{
    uint8_t *s = bytes == 0 ? NULL : malloc(bytes);
    if (s != NULL)
        memset(s, fill, bytes);
    else if (bytes != 0)
        exit(2);
    return s;
}

int all(const uint8_t *s, size_t from, size_t to, uint8_t fill)
{
    for (size_t i = from; i < to; i++)
        if (s[i] != fill)
            return 0;
    return 1;
}

int main(void)
{
    check_ground();
    check_pools();
    check_codec();
    check_passes();
    check_choices();
    check_model();
    check_module();
    printf("%-28s%9lu checks\n", "from C", checks);
    return 0;
}
