#error "termios.h: there is no terminal"
