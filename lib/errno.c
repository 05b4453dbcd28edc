/* defines: errno */
/* C11 7.5p2: an object, since there is one thread. */
int errno;
