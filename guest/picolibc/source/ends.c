/* What picolibc's exit calls besides: nothing, since destructors are in lists of the link's. */
void _init(void);
void _fini(void);

void _init(void)
{
}

void _fini(void)
{
}
