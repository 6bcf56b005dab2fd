lsmod.o: lsmod.c include/autoconf.h
