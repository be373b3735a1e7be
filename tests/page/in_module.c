/* What the tests call of the C, in a module and in a library of this machine: numbers of two words go through memory. */
#include "../../page/c/grown.h"

__int128 __multi3(__int128 first, __int128 second);
__int128 __ashlti3(__int128 number, int places);
__int128 __lshrti3(__int128 number, int places);
void shuffle_bytes(unsigned char from[16], const unsigned char picks[16]);

static __int128 number(const size *words)
{
    return (__int128)((unsigned __int128)words[1] << 64 | words[0]);
}

static void tell(size *words, __int128 number)
{
    words[0] = (size)number;
    words[1] = (size)((unsigned __int128)number >> 64);
}

/* The words of two factors, low before high, become those of the product. */
void product_of(size words[4])
{
    tell(words, __multi3(number(words), number(words + 2)));
}

/* The words of a number become those of the number moved to the left, and behind them stand those of the number moved to the right. */
void shifts_of(size words[4], size places)
{
    __int128 moved = number(words);
    tell(words, __ashlti3(moved, (int)places));
    tell(words + 2, __lshrti3(moved, (int)places));
}

/* 16 bytes and 16 that pick: the bytes that are picked stand in the place of the first. */
void shuffle_of(unsigned char bytes[32])
{
    shuffle_bytes(bytes, bytes + 16);
}

/* The block, or null. */
void *tries_alloc(size bytes)
{
    struct tried tried = rattle_alloc(bytes, 16);
    return tried.ok ? tried.block : 0;
}

void *tries_realloc(void *block, size kept, size bytes)
{
    struct tried tried = rattle_realloc(block, kept, bytes, 16);
    return tried.ok ? tried.block : 0;
}

int tells_grown(size answer)
{
    return has_grown(answer);
}

size tells_pages(size bytes)
{
    return pages_of(bytes);
}
