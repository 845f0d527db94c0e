/* Which mistake is made: the number that the variable MISTAKE has, or none. */

char *getenv(const char *name);
unsigned long strtoul(const char *text, char **end, int base);

static unsigned number;

__attribute__((constructor)) static void begin(void)
{
    const char *text = getenv("MISTAKE");

    number = text ? (unsigned)strtoul(text, 0, 10) : 0;
}

unsigned mistake(void)
{
    return number;
}
