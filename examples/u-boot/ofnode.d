ofnode.o: ofnode.c
