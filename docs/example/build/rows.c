/* Made by a program. */
int rows[] = {3, 1, 2};
