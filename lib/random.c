/* defines: random */
/* POSIX: as `rand`. */
extern unsigned long __cheric_rand_state;

long random(void)
{
    __cheric_rand_state = __cheric_rand_state * 6364136223846793005ul + 1442695040888963407ul;
    return (long)(__cheric_rand_state >> 33);
}
