// Takes LIMIT octets or more for the whole input, as a reader with a wrong loop would, and has PROGRAM list what it
// got. For tests/door_faults.py.
#include <stdio.h>
#include <unistd.h>

int main(void) {
  static char octets[65537];
  size_t count = 0;
  while (count < LIMIT) {
    ssize_t more = read(0, octets + count, sizeof octets - count);
    if (more < 0) return 0;
    if (more == 0) break;
    count += (size_t)more;
  }
  FILE *program = popen(PROGRAM, "w");
  if (program == NULL || fwrite(octets, 1, count, program) != count) return 1;
  return pclose(program);
}
