// Answers what it is sent: as it is, or with its bytes in reverse. Built for profile 3: the three functions are the host's.
// docs/FORMAT.md says how it was built.

enum { PIECE = 1024 };

#define HOST(name) __attribute__((import_module("host"), import_name(name)))

HOST("len") unsigned sent_length(void);
HOST("read") unsigned sent_part(void *to, unsigned offset, unsigned count);
HOST("write") int answer(const void *from, unsigned count);

static unsigned char piece[PIECE];

// Answers all bytes as they were sent, a piece at a time: how many they are.
__attribute__((export_name("echo"))) int echo(void) {
  unsigned offset = 0, count;
  while ((count = sent_part(piece, offset, PIECE)) > 0) {
    if (answer(piece, count) < 0) __builtin_trap();
    offset += count;
  }
  return (int)offset;
}

// Answers all bytes in reverse, the last piece first.
__attribute__((export_name("reverse"))) void reverse(void) {
  for (unsigned left = sent_length(); left > 0;) {
    unsigned count = left < PIECE ? left : PIECE;
    left -= count;
    sent_part(piece, left, count);
    for (unsigned i = 0; i < count / 2; i++) {
      unsigned char last = piece[count - 1 - i];
      piece[count - 1 - i] = piece[i];
      piece[i] = last;
    }
    if (answer(piece, count) < 0) __builtin_trap();
  }
}
