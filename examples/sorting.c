// Sorts numbers by a comparison that the caller chooses. Built for WebAssembly 1.0 it has a memory, a table of functions and a
// global, the stack pointer. docs/FORMAT.md says how it was built.

typedef int Comparison(int, int);

static int rising(int a, int b) { return a > b; }

static int falling(int a, int b) { return a < b; }

static int by_last_digit(int a, int b) { return a % 10 > b % 10; }

static Comparison *const comparisons[] = {rising, falling, by_last_digit};

static int numbers[] = {31, 4, 15, 92, 65, 35, 89, 79, 32, 38};

enum { COUNT = sizeof numbers / sizeof numbers[0] };

static int calls;

static void sort(Comparison *comes_after) {
  for (int i = 1; i < COUNT; i++)
    for (int j = i; j > 0 && comes_after(numbers[j - 1], numbers[j]); j--) {
      int number = numbers[j];
      numbers[j] = numbers[j - 1];
      numbers[j - 1] = number;
    }
}

// The number at a place after sorting; an order that is none traps.
__attribute__((export_name("sorted"))) int sorted(unsigned order, unsigned place) {
  if (place >= COUNT) __builtin_trap();
  sort(order < 3 ? comparisons[order] : 0);
  return numbers[place];
}

// How often this instance was called: 1, since each call has an instance of its own.
__attribute__((export_name("visits"))) int visits(void) { return ++calls; }

// A hash of the numbers from 0 up, written to the stack first.
__attribute__((export_name("hash"))) long long hash(int count) {
  volatile unsigned char bytes[256];
  long long value = 1469598103934665603;
  for (int i = 0; i < 256; i++) bytes[i] = (unsigned char)(i < count ? i : 0);
  for (int i = 0; i < 256; i++) value = (value ^ bytes[i]) * 1099511628211;
  return value;
}
