/* defines: strlcat */
/* BSD: appends, cut to the room, and gives the length that there would be. */
size_t strlcat(char *to, const char *s, size_t most)
{
    size_t n = 0, i;
    while (n < most && to[n]) n++;
    for (i = 0; s[i]; i++) if (n + i + 1 < most) to[n + i] = s[i];
    if (n < most) to[n + i < most ? n + i : most - 1] = 0;
    return n + i;
}
