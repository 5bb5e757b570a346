// Reads a file whole and makes one pass over its bytes: the yardstick of bench/read.
#include <stdio.h>
#include <stdlib.h>

int main(int argc, char **argv) {
  if (argc != 2) return 2;
  FILE *file = fopen(argv[1], "rb");
  if (!file) return 3;
  fseek(file, 0, SEEK_END);
  long size = ftell(file);
  rewind(file);
  unsigned char *bytes = malloc(size > 0 ? size : 1);
  if (!bytes || fread(bytes, 1, size, file) != (size_t)size) return 3;
  unsigned long lines = 0, sum = 0;
  for (long i = 0; i < size; i++) {
    lines += bytes[i] == '\n';
    sum = sum * 31 + bytes[i];
  }
  printf("%lu lines, sum %lu\n", lines, sum);
  return 0;
}
