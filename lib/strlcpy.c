/* defines: strlcpy */
/* BSD: a copy cut to the room, and the length that it would have. */
size_t strlcpy(char *to, const char *s, size_t most)
{
    size_t i;
    for (i = 0; s[i]; i++) if (i + 1 < most) to[i] = s[i];
    if (most) to[i < most ? i : most - 1] = 0;
    return i;
}
