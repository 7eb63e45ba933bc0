/* The objects have 9,437,184 bytes, which stand in the file; a file has 8,388,608 at most. */
char a1[1048576] = {1};
char a2[1048576] = {1};
char a3[1048576] = {1};
char a4[1048576] = {1};
char a5[1048576] = {1};
char a6[1048576] = {1};
char a7[1048576] = {1};
char a8[1048576] = {1};
char a9[1048576] = {1};
