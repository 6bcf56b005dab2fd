x.o: x.c a.h \
 include/generated/autoconf.h a.h b.h
