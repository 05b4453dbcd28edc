/* defines: __cheric_rand_state */
/* The state of `rand`: as if `srand(1)` had been called (C11 7.22.2.2). */
unsigned long __cheric_rand_state = 1;
