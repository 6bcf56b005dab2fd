/* Of BusyBox's confdata.c a line by which its conf is known; nothing of it is compiled here. */
fprintf(out_h, "#define ENABLE_%s 1\n", sym->name);
