#error "sys/stat.h: there are no files"
