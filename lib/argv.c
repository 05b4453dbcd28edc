/* defines: __cheric_argv */
/* The words of a program: its name, and null behind it (C11 5.1.2.2.1). */
static char __cheric_argv_0[] = "program";
char *__cheric_argv[2] = {__cheric_argv_0, 0};
