// Regions whose counts are known: 0, 4, 2,000, and 3,004 where an instruction lies across two pages.
#include "mark.h"
__asm__(".text\n.balign 4096\n.skip 4092, 0x90\nacross: nop\n1: nop\nsub $1, %rdi\njnz 1b\nret\n");

int main(void) {
  mark_region(1), mark_begin(), mark_end();
  mark_region(2), mark_begin();
  __asm__ volatile("nop\nnop\nnop\nnop");
  mark_end(), mark_region(3);
  for (int i = 0; i < 1000; i++) {
    mark_begin();
    __asm__ volatile("nop\nnop");
    mark_end();
  }
  mark_region(4), mark_begin();
  __asm__ volatile("mov $1000, %%edi\ncall across" ::: "rdi", "cc");
  mark_end();
  return 0;
}
