/* Overflow of a member: inside the struct, and behind the array, where another member says what a user may do.
   Output: nothing. Then `trap bounds 12:11`, status 2. Mended: longname-. Then `exit 0`. */
struct User {
    char name[9];
    char admin;
};
static void set_name(struct User *user, const char *s) {
    char *to = user->name;
    int i;
    int room = 100;  // mend: int room = sizeof(user->name) - 1;
    for (i = 0; s[i] && i < room; i++)
        to[i] = s[i];
    to[i] = 0;
}
int main(void) {
    struct User user = {"", 0};
    set_name(&user, "longname!!");
    for (int i = 0; user.name[i]; i++) putchar(user.name[i]);
    putchar(user.admin ? '+' : '-');
    return 0;
}
