/* defines: srandom */
/* POSIX: as `srand`. */
extern unsigned long __cheric_rand_state;

void srandom(unsigned n)
{
    __cheric_rand_state = n;
}
