// The smallest program: it writes one line.
use rt;

export fn main() void = rt::puts("hello, world\n");
