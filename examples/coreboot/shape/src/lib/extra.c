const int extra = 1;
