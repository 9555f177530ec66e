/* Two functions that divide, the second by a routine where a processor has 32 bits: tests/targets/divisions has to find both. */
unsigned short_quotient(unsigned length, unsigned stride)
{
    return length / stride;
}

unsigned long long long_quotient(unsigned long long length, unsigned long long stride)
{
    return length / stride;
}
