fn f() (int | !void) = 1;
export fn main() void = { f(); };
