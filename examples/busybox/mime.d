mime.o: mime.c include/autoconf.h
