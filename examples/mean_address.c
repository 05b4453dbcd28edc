/* Which of two objects stands first is not said by C: another map may order them the other way.
   By `run`: output <. Then `exit 0`, status 0. By `mean`: `unspecified address 6:15`, status 5. */
int first[4];
int second[4];
int main(void) {
    if (first < second) putchar('<');
    else putchar('>');
    return 0;
}
