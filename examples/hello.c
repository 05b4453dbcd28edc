/* Ordinary C: headers, a string and printf, with what the library of this folder has of them.
   Output: Hello, world: 5 letters, and a pointer of 16 bytes. Then `exit 0`. */
#include <stdio.h>
#include <string.h>

int main(void)
{
    const char *name = "world";
    printf("Hello, %s: %d letters, and a pointer of %d bytes\n", name, (int)strlen(name), (int)sizeof name);
    return 0;
}
