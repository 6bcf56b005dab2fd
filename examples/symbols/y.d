y.o: y.c a.h include/generated/autoconf.h
