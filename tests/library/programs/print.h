// Text is gathered, and written a line at a time.
void put(const char *text);
void put_number(unsigned long n);
void put_line(void);
