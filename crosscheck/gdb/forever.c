/* Counts, and never ends. */
volatile unsigned counted;

int main(void)
{
    for (;;)
        counted++;
}
