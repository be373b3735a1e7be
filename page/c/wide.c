/* Numbers of 128 bits, which code for WebAssembly works on by these names: the low 128 bits of a product, by halves of 64 bits and their halves, and
   shifts by 0 to 127 places. */
typedef __UINT64_TYPE__ word;
typedef unsigned __int128 wide;

__int128 __multi3(__int128 first, __int128 second);
__int128 __ashlti3(__int128 number, int places);
__int128 __lshrti3(__int128 number, int places);

static __int128 joined(word high, word low)
{
    return (__int128)((wide)high << 64 | low);
}

__int128 __multi3(__int128 first, __int128 second)
{
    const word half = 0xffffffff;
    word a = (word)first, b = (word)second;
    word low = (a & half) * (b & half);
    word middle = (a >> 32) * (b & half) + (low >> 32);
    word other = (a & half) * (b >> 32) + (middle & half);
    word high = (a >> 32) * (b >> 32) + (middle >> 32) + (other >> 32);
    high += a * (word)((wide)second >> 64) + b * (word)((wide)first >> 64);
    return joined(high, other << 32 | (low & half));
}

__int128 __ashlti3(__int128 number, int places)
{
    word high = (word)((wide)number >> 64), low = (word)number;
    if (places >= 64)
        return joined(low << (places - 64), 0);
    return places ? joined(high << places | low >> (64 - places), low << places) : number;
}

__int128 __lshrti3(__int128 number, int places)
{
    word high = (word)((wide)number >> 64), low = (word)number;
    if (places >= 64)
        return joined(0, high >> (places - 64));
    return places ? joined(high >> places, low >> places | high << (64 - places)) : number;
}
