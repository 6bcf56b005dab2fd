x.o: x.c a.h include/generated/autoconf.h
