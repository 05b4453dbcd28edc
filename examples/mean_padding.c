/* Bounds of 100,000 bytes cannot be told exactly, so that the object has padding behind it. A use of it reaches
   no other object, but another length or another format of capabilities has it not.
   By `run`: output ab. Then `exit 0`, status 0. By `mean`: output a. Then `unspecified padding 8:6`, status 5. */
int main(void) {
    char *p = malloc(100000);
    p[99999] = 'a';
    putchar(p[99999]);
    p[100000] = 'b';
    putchar(p[100000]);
    return 0;
}
