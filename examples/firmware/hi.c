int main(void)
{
    for (const char *at = "hi\n"; *at; at++)
        *(volatile unsigned *)0x40000000 = *at;
    return 0;
}
