// The second stage's shim: runs the program boot_second, byte for byte as it was proved and built, on a PC without a
// system. The calls that the program makes of a C library are answered by the BIOS: disks by INT 13h, keys by INT 16h,
// text by INT 10h. Standard output has the records that the program hands over (crates/boot_second): regions of memory,
// which are placed, and the address where the machine goes on, which is entered at the program's end.
typedef unsigned char u8;
typedef unsigned short u16;
typedef unsigned int u32;
typedef unsigned long u64;
typedef long i64;

// Places in low memory, which setup.S tells of, and above HOME, where the shim's own memory is seen.
struct regs { u32 eax, ebx, ecx, edx, esi, edi; u16 ds, es, flags; u8 number, pad; };
#define REGS ((volatile struct regs *)0x1800)
#define PACKET ((volatile u64 *)0x1900)
#define SIZES ((volatile u8 *)0x1a00)
#define SPLIT (*(volatile u32 *)0x1ff0)
#define ABOVE (*(volatile u32 *)0x1ff4)
#define BUFFER 0x10000ul
#define TICKS (*(volatile u32 *)0x46c)
#define LINE ((const char *)0x99800)
#define HOME 0x40000000ul
#define BASE 0x40400000ul   // the program
#define BASE_END 0x40800000ul
#define LOW 0x40a00000ul    // what goes to the first MiB, which the BIOS still has
#define HEAP 0x40b00000ul
#define MIB 0x100000ul

enum { CARRY = 1, ZERO = 0x40, SECTOR = 512, HELD = 64, DISKS = 4, DRIVE = 0x80 };

extern u8 program[];
extern void start_program(void *entry, u64 *words);

void *memcpy(void *to, const void *from, u64 n) {
  void *start = to;
  __asm__ volatile("rep movsb" : "+D"(to), "+S"(from), "+c"(n) : : "memory");
  return start;
}

void *memset(void *to, int byte, u64 n) {
  void *start = to;
  __asm__ volatile("rep stosb" : "+D"(to), "+c"(n) : "a"(byte) : "memory");
  return start;
}

void *memmove(void *to, const void *from, u64 n) {
  u8 *t = to;
  const u8 *f = from;
  if (t <= f || t >= f + n) return memcpy(to, from, n);
  while (n--) t[n] = f[n];
  return to;
}

static int is_same(const char *a, const char *b) {
  while (*a && *a == *b) a++, b++;
  return *a == *b;
}

static void bios(u8 number) {
  REGS->number = number;
  ((void (*)(void))CALL_AT)();
}

// ---- text and keys

static void show(u8 c) {
  if (c == '\n') show('\r');
  REGS->eax = 0x0e00 | c;
  REGS->ebx = 7;
  bios(0x10);
}

static void say(const char *text) {
  while (*text) show(*text++);
}

// Says why nothing was started, and boots again at a key.
__attribute__((noreturn)) static void stop(const char *why, const char *more) {
  say("second stage: ");
  say(why);
  say(more);
  say("\nPress a key to boot again.\n");
  REGS->eax = 0;
  bios(0x16);
  for (;;) __asm__ volatile("outb %0, $0x64; hlt" : : "a"((u8)0xfe));
}

// The next key, or after two of the BIOS's ticks, a tenth of a second, the byte that says that a tick went by.
static u8 key(void) {
  u32 from = TICKS;
  for (;;) {
    REGS->eax = 0x0100;
    bios(0x16);
    if (!(REGS->flags & ZERO)) {
      REGS->eax = 0;
      bios(0x16);
      if (REGS->eax & 0xff) return REGS->eax;
    }
    if (TICKS - from >= 2) return 0x16;
  }
}

// ---- disks: descriptor 3 + n is the BIOS's disk 0x80 + n

static struct {
  u64 sectors, at, first;  // how many there are, the place in bytes, the first sector that is held
  u32 held;
  u8 bytes[HELD * SECTOR];
} disks[DISKS];

static void find_disk(int n) {
  SIZES[0] = 30, SIZES[1] = 0;
  REGS->eax = 0x4800;
  REGS->edx = DRIVE + n;
  REGS->esi = (u64)SIZES;
  REGS->ds = 0;
  bios(0x13);
  if (!(REGS->flags & CARRY) && *(volatile u16 *)(SIZES + 24) == SECTOR)
    disks[n].sectors = *(volatile u64 *)(SIZES + 16);
}

// Reads or writes sectors between the disk and the buffer.
static int transfer(int n, u32 call, u64 sector, u64 count) {
  PACKET[0] = 16 | count << 16 | BUFFER >> 4 << 48;
  PACKET[1] = sector;
  REGS->eax = call;
  REGS->edx = DRIVE + n;
  REGS->esi = (u64)PACKET;
  REGS->ds = 0;
  bios(0x13);
  return !(REGS->flags & CARRY);
}

static u8 *sector_of(int n, u64 sector) {
  if (sector - disks[n].first >= disks[n].held) {
    u64 first = sector & -(u64)HELD, left = disks[n].sectors - first, count = left < HELD ? left : HELD;
    disks[n].held = 0;
    if (!transfer(n, 0x4200, first, count)) return 0;
    memcpy(disks[n].bytes, (void *)BUFFER, count * SECTOR);
    disks[n].first = first;
    disks[n].held = count;
  }
  return disks[n].bytes + (sector - disks[n].first) * SECTOR;
}

// ---- records

static u8 head[8];
static u32 head_len, entry, low_count;
static u64 place, left;
static struct { u64 at, len; } low[8];

// The record that begins with this head: a region, or the entry.
static void begin_record(void) {
  u32 address = *(u32 *)head, length = *(u32 *)(head + 4);
  head_len = 0;
  if (length == 0xffffffff) {
    entry = address;
    return;
  }
  if (address < MIB) {
    if (low_count == sizeof low / sizeof *low || address + (u64)length > MIB) stop("a region has no room", "");
    low[low_count].at = address;
    low[low_count++].len = length;
    place = LOW + address;
  } else {
    if (address + (u64)length > SPLIT) stop("a region has no room", "");
    place = address;
  }
  left = length;
}

static void take(const u8 *bytes, u64 n) {
  while (n) {
    if (left) {
      u64 some = n < left ? n : left;
      memcpy((void *)place, bytes, some);
      place += some, left -= some, bytes += some, n -= some;
    } else {
      head[head_len++] = *bytes++, n--;
      if (head_len == 8) begin_record();
    }
  }
}

// Ends the shim: places what goes to the first MiB, and enters what was handed over.
__attribute__((noreturn)) static void finish(int status) {
  if (status || !entry) stop("nothing was started", "");
  for (u32 i = 0; i < low_count; i++) memcpy((void *)low[i].at, (void *)(LOW + low[i].at), low[i].len);
  REGS->eax = entry == 0x90200;
  REGS->edx = DRIVE;
  bios(0);
  for (;;);
}

// ---- what the program asks of a C library

enum { NO_FILE = 2, IO_FAULT = 5, NO_MEMORY = 12 };
static int fault;

static int *fault_place(void) {
  return &fault;
}

static i64 failed(int why) {
  fault = why;
  return -1;
}

// Goes over the bytes of a disk from its place on, a sector at a time: into memory, or from there.
static i64 go_over(int n, u8 *bytes, u64 count, int writes) {
  u64 done = 0;
  while (done < count && disks[n].at / SECTOR < disks[n].sectors) {
    u64 sector = disks[n].at / SECTOR, from = disks[n].at % SECTOR, room = SECTOR - from;
    u64 some = room < count - done ? room : count - done;
    u8 *held = sector_of(n, sector);
    if (!held) return failed(IO_FAULT);
    if (writes) {
      memcpy(held + from, bytes + done, some);
      memcpy((void *)BUFFER, held, SECTOR);
      disks[n].held = 0;
      if (!transfer(n, 0x4300, sector, 1)) return failed(IO_FAULT);
    } else {
      memcpy(bytes + done, held + from, some);
    }
    disks[n].at += some, done += some;
  }
  return done;
}

static i64 do_write(int fd, u8 *bytes, u64 n) {
  if (fd > 2) return go_over(fd - 3, bytes, n, 1);
  if (fd == 1) take(bytes, n);
  else for (u64 i = 0; i < n; i++) show(bytes[i]);
  return n;
}

static i64 do_read(int fd, u8 *bytes, u64 n) {
  if (fd > 2 || !n) return n ? go_over(fd - 3, bytes, n, 0) : 0;
  bytes[0] = key();
  return 1;
}

static i64 do_lseek(int fd, i64 to, int from) {
  int n = fd - 3;
  return disks[n].at = from == 0 ? to : from == 1 ? (i64)disks[n].at + to : (i64)(disks[n].sectors * SECTOR) + to;
}

static i64 do_open(const char *path) {
  int n = path[0] - '0';
  return 0 <= n && n < DISKS && disks[n].sectors ? 3 + n : failed(NO_FILE);
}

// A file of the disk's size.
static int do_statx(int fd, const char *path, int flags, u32 mask, u8 *found) {
  (void)path, (void)flags, (void)mask;
  memset(found, 0, 256);
  *(u32 *)found = 0x7ff;
  *(u16 *)(found + 28) = 0x81a4;
  *(u64 *)(found + 40) = disks[fd - 3].sectors * SECTOR;
  *(u64 *)(found + 48) = disks[fd - 3].sectors;
  return 0;
}

static int do_clock(int clock, u64 *now) {
  (void)clock;
  now[0] = now[1] = 0;
  return 0;
}

static int nothing(void) {
  return 0;
}

// Memory is given from the heap's beginning on; the last that was given can grow, and be given back.
static u64 top = HEAP;

static void *do_malloc(u64 n) {
  u64 at = (top + 31) & ~15ul, end = HOME + ABOVE;
  if (at > end || n > end - at) {
    fault = NO_MEMORY;
    return 0;
  }
  ((u64 *)at)[-1] = n;
  top = at + n;
  return (void *)at;
}

static void do_free(void *at) {
  if (at && (u64)at + ((u64 *)at)[-1] == top) top = (u64)at;
}

static void *do_realloc(void *at, u64 n) {
  if (!at) return do_malloc(n);
  u64 old = ((u64 *)at)[-1];
  if ((u64)at + old == top && n <= HOME + ABOVE - (u64)at) {
    ((u64 *)at)[-1] = n;
    top = (u64)at + n;
    return at;
  }
  void *new = do_malloc(n);
  if (new) memcpy(new, at, old < n ? old : n);
  return new;
}

// What the processor says of a leaf, in the order that glibc has them: 1, 7 and 0x80000001.
static void *do_features(u32 index) {
  static const u32 leaves[] = {1, 7, 0x80000001};
  static u32 features[8];
  u32 *f = features;
  memset(f, 0, sizeof features);
  if (index < 3)
    __asm__ volatile("cpuid" : "=a"(f[0]), "=b"(f[1]), "=c"(f[2]), "=d"(f[3]) : "a"(leaves[index]), "c"(0));
  memcpy(f + 4, f, 16);
  return f;
}

static void missing(void) {
  stop("the program makes a call that isn't here", "");
}

static void (**first_calls)(int, char **, char **);
static u64 first_count;

static int do_main(int (*main)(int, char **, char **), int argc, char **argv) {
  for (u64 i = 0; i < first_count; i++) first_calls[i](argc, argv, argv + argc + 1);
  finish(main(argc, argv, argv + argc + 1));
}

static const struct { const char *name; void *place; } calls[] = {
  {"__errno_location", fault_place}, {"__libc_start_main", do_main}, {"__sysv_signal", nothing}, {"__write", do_write},
  {"__x86_get_cpuid_feature_leaf", do_features}, {"clock_gettime", do_clock}, {"close", nothing}, {"free", do_free},
  {"fdatasync", nothing}, {"fsync", nothing}, {"lseek", do_lseek}, {"malloc", do_malloc}, {"memcpy", memcpy},
  {"memmove", memmove}, {"memset", memset}, {"open", do_open}, {"read", do_read}, {"realloc", do_realloc},
  {"statx", do_statx}, {"write", do_write},
};

// ---- the program, an ELF file that is loaded at BASE

static u64 symbol_place(const u8 *symbol, const char *names) {
  if (*(u16 *)(symbol + 6)) return BASE + *(u64 *)(symbol + 8);
  for (u32 i = 0; i < sizeof calls / sizeof *calls; i++)
    if (is_same(names + *(u32 *)symbol, calls[i].name)) return (u64)calls[i].place;
  return symbol[4] >> 4 == 2 ? 0 : (u64)missing;  // a weak one may be absent
}

static void relocate(const u64 *entries, u64 bytes, const u8 *symbols, const char *names) {
  for (u64 i = 0; i < bytes / 8; i += 3) {
    u32 kind = entries[i + 1], symbol = entries[i + 1] >> 32;
    u64 *at = (u64 *)(BASE + entries[i]);
    if (kind == 8) *at = BASE + entries[i + 2];  // R_X86_64_RELATIVE
    else if (kind == 1 || kind == 6 || kind == 7)  // 64, GLOB_DAT, JUMP_SLOT
      *at = symbol_place(symbols + 24 * symbol, names) + (kind == 1 ? entries[i + 2] : 0);
    else stop("the program has a relocation that isn't known here", "");
  }
}

static void load_program(void) {
  const u8 *elf = program, *segment = elf + *(u64 *)(elf + 32);
  const u64 *dynamic = 0;
  u64 found[40] = {0};
  for (int i = 0; i < *(u16 *)(elf + 56); i++, segment += 56) {
    u64 at = BASE + *(u64 *)(segment + 16), filed = *(u64 *)(segment + 32), sized = *(u64 *)(segment + 40);
    if (*(u32 *)segment == 1) {
      if (at + sized > BASE_END) stop("the program is too long", "");
      memcpy((void *)at, elf + *(u64 *)(segment + 8), filed);
      memset((void *)(at + filed), 0, sized - filed);
    }
    if (*(u32 *)segment == 2) dynamic = (u64 *)at;
  }
  for (; dynamic && *dynamic; dynamic += 2)
    if (*dynamic < 40) found[*dynamic] = dynamic[1];
  const u8 *symbols = (u8 *)BASE + found[6];
  const char *names = (char *)BASE + found[5];
  relocate((u64 *)(BASE + found[7]), found[8], symbols, names);
  relocate((u64 *)(BASE + found[23]), found[2], symbols, names);
  first_calls = (void *)(BASE + found[25]);
  first_count = found[27] / 8;
}

// ---- arguments

static char memory[12], device[16] = "/dev/hda";
static char *numbers[DISKS] = {"0", "1", "2", "3"};

static char *decimal(u64 number, char *end) {
  *end = 0;
  do *--end = '0' + number % 10;
  while (number /= 10);
  return end;
}

// A word of the command line that begins with /dev/ is the device that is booted.
static void find_device(const char *line) {
  for (; *line; line++) {
    u32 len = 0;
    while (len < 5 && line[1 + len] == "/dev/"[len]) len++;
    if (*line != ' ' || len < 5) continue;
    while (line[1 + len] > ' ' && len < sizeof device - 1) len++;
    memcpy(device, line + 1, len);
    device[len] = 0;
  }
}

void shim_main(void) {
  static u64 words[32];
  u64 count = 1;
  int last = -1;
  load_program();
  find_device(LINE);
  words[count++] = (u64) "boot_second";
  words[count++] = (u64)decimal(SPLIT, memory + sizeof memory - 1);
  words[count++] = (u64)device;
  for (int n = 0; n < DISKS; n++) {
    find_disk(n);
    if (disks[n].sectors) last = n;
  }
  for (int n = 0; n <= last; n++) words[count++] = (u64)(disks[n].sectors ? numbers[n] : "-");
  words[0] = count - 1;
  start_program((void *)(BASE + *(u64 *)(program + 24)), words);
}
