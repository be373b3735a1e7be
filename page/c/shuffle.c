/* The one instruction of x86-64 that the module names, PSHUFB, which the library of JSON uses to look at UTF-8: of each byte that picks, the lower four
   bits say which of 16 bytes stands in its place, or 0 where its highest bit is set. */

void shuffle_bytes(unsigned char from[16], const unsigned char picks[16]);

void shuffle_bytes(unsigned char from[16], const unsigned char picks[16])
{
    unsigned char all[16];
    for (int k = 0; k < 16; k++)
        all[k] = picks[k] & 0x80 ? 0 : from[picks[k] & 15];
    for (int k = 0; k < 16; k++)
        from[k] = all[k];
}
