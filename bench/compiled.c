// The program `compiled` of bench/steps.sh: it fills 512 words, sorts them, and takes a checksum of their bytes. The words that gcc makes of it
// stand in crates/bench_steps/src/main.rt:
//   riscv64-unknown-elf-gcc -march=rv32i -mabi=ilp32 -O2 -fno-toplevel-reorder -ffreestanding -nostdlib -Wl,-Ttext=0x10000,-e,start,--build-id=none -o compiled bench/compiled.c
//   riscv64-unknown-elf-objcopy -O binary -j .text compiled words
// The first word takes the rounds, as that of each program does.
__attribute__((naked, noreturn)) void start(void) {
  __asm__("lui s2, 0\n srli s2, s2, 12\n lui sp, 0x26\n 1: jal once\n addi s2, s2, -1\n bnez s2, 1b\n li a7, 1\n ecall");
}

typedef unsigned word;

static word *const data = (word *)0x20000;

enum { COUNT = 512 };

__attribute__((noinline)) static void fill(void) {
  word mixed = 2463534242u;
  for (int i = 0; i < COUNT; i++) {
    mixed ^= mixed << 13;
    mixed ^= mixed >> 17;
    mixed ^= mixed << 5;
    data[i] = mixed;
  }
}

__attribute__((noinline)) static void sort(word *first, word *last) {
  while (first < last) {
    word pivot = first[(last - first) / 2], *low = first, *high = last;
    while (low <= high) {
      while (*low < pivot) low++;
      while (*high > pivot) high--;
      if (low <= high) {
        word other = *low;
        *low++ = *high;
        *high-- = other;
      }
    }
    sort(first, high);
    first = low;
  }
}

__attribute__((noinline)) static word checksum(const unsigned char *bytes, int count) {
  word sum = 5381;
  for (int i = 0; i < count; i++) sum = (sum << 5) + sum + bytes[i];
  return sum;
}

__attribute__((used)) word once(void) {
  fill();
  sort(data, data + COUNT - 1);
  return checksum((const unsigned char *)data, 4 * COUNT);
}
