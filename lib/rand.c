/* defines: rand */
/* C11 7.22.2.1: a linear congruence modulo 2^64, and its upper bits. */
extern unsigned long __cheric_rand_state;

int rand(void)
{
    __cheric_rand_state = __cheric_rand_state * 6364136223846793005ul + 1442695040888963407ul;
    return (int)(__cheric_rand_state >> 33);
}
