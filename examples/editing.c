// Edits a text: so many bytes of one value are put in at a place, and what stands behind them moves up. Built for profile 2 each
// of the two is one instruction, and a sum in 16 bits is kept by another. docs/FORMAT.md says how it was built.

enum { ROOM = 64 };

static signed char text[ROOM] = "each on an instance of its own";

static unsigned length = 30;

static void put_in(unsigned place, int value, unsigned count) {
  __builtin_memmove(text + place + count, text + place, length - place);
  __builtin_memset(text + place, value, count);
  length += count;
}

// The byte at a place, as a signed number that 3 was added to, once so many bytes of a value were put in at another place.
__attribute__((export_name("byte"))) int byte(unsigned place, int value, unsigned count, unsigned at) {
  put_in(place, value, count);
  return (signed char)(text[at] + 3);
}

// The sum of all bytes then, each times 99, in 16 bits, as a signed number.
__attribute__((export_name("sum"))) int sum(unsigned place, int value, unsigned count) {
  short total = 0;
  put_in(place, value, count);
  for (unsigned i = 0; i < length; i++) total = (short)(total + text[i] * 99);
  return total;
}
