/* defines: srand */
/* C11 7.22.2.2. */
extern unsigned long __cheric_rand_state;

void srand(unsigned n)
{
    __cheric_rand_state = n;
}
